"""tools/check_release: whether an archive is what a commit builds.

The commit is cloned from a checkout, proved and built anew by the same kit, and linked anew by the compiler and the C library of this
machine. Then sums, compiled program and program have to be the archive's, byte for byte.
"""

import pathlib
import re
import sys
import tarfile
import tempfile
from dataclasses import dataclass

from .checkout import TOP, Checkout, sum_of
from .faults import ToolFault, Words
from .kit import Kit, c_library
from .releasing import FILES, FORM

MOST_BYTES = 64 << 20
# What the lines of a manifest that are needed here look like behind their word.
WORDS = {"commit": "[0-9a-f]{40,64}", "kit": ".+", "linker": ".+", "verdict": "(logic=proved|none:).*"}


class Differs(Exception):
    """The archive is not what its commit builds."""


@dataclass
class Archive:
    """What an archive holds: its files, and what its manifest says."""

    files: dict
    said: dict
    gate: list

    @property
    def proved(self):
        """Whether it says that its program is proved."""
        return self.said["verdict"].startswith("logic=proved")


def read_files(path):
    """The files of an archive by their names."""
    wanted, found = {*FILES, "manifest.txt"}, {}
    try:
        with tarfile.open(path, "r:gz") as tar:
            for head in tar:
                name = head.name.rpartition("/")[2]
                if not head.isfile() or name not in wanted - {*found} or head.size > MOST_BYTES:
                    raise ToolFault(f"{path} is no release: it has {head.name}")
                found[name] = tar.extractfile(head).read()
    except (OSError, EOFError, tarfile.TarError) as error:
        raise ToolFault(f"{path} can't be read as an archive: {getattr(error, 'strerror', None) or error}") from None
    if wanted - {*found}:
        raise ToolFault(f"{path} is no release: it lacks {min(wanted - {*found})}")
    return found


def read_archive(path):
    """An archive whose files have the sums of its manifest."""
    files = read_files(path)
    lines = files.pop("manifest.txt").decode("utf-8", "replace").splitlines()
    said = {word: rest for word, _, rest in (line.partition(" ") for line in lines)}
    if lines[:1] != [FORM] or not all(re.fullmatch(form, said.get(word, "")) for word, form in WORDS.items()):
        raise ToolFault(f"{path} has no manifest that is understood here")
    for name, data in files.items():
        if f"sum {sum_of(data)} {name}" not in lines:
            raise Differs(f"{name} is not the one of the manifest")
    return Archive(files, said, [line.partition(" ")[2] for line in lines if line.startswith("gate ")])


def compare_linked(archive, kit, compiled, program):
    """Links what was compiled, and compares it with the program of an archive."""
    kit.link_static(compiled, program)
    if program.read_bytes() != archive.files["simcore"]:
        here, there = c_library(), archive.said["linker"]
        other = "" if here == there else f", but it was linked by {there}, and here is {here}: try again with those"
        raise Differs(f"its program is not the one that is linked here{other}")


def compare(archive, checkout, kit, tell):
    """Builds the commit's checkout anew and compares it with an archive."""
    if checkout.sums().encode() != archive.files["sources.sha256"]:
        raise Differs("the sums of its sources are not those of its commit")
    tell(f"its {archive.files['sources.sha256'].count(10)} sources are those of the commit {archive.said['commit']}")
    with tempfile.TemporaryDirectory() as room:
        compiled, _ = checkout.compile(archive.proved, kit, pathlib.Path(room))
        if compiled.read_bytes() != archive.files["simcore.o"]:
            raise Differs("what was compiled is not what this commit is compiled to")
        tell(f"what was compiled is what the commit is compiled to, {'proved' if archive.proved else 'WITHOUT ANY PROOF'}")
        compare_linked(archive, kit, compiled, pathlib.Path(room, "static"))
    tell("its program is the one that is linked of it here")


def check(archive, checkout, room, tell):
    """Compares an archive with its commit, cloned from a checkout into a room."""
    kit, commit = Kit(), archive.said["commit"]
    if kit.name != archive.said["kit"]:
        raise ToolFault(f"the archive was built by {archive.said['kit']}, and here is {kit.name}")
    if not checkout.has(commit):
        raise ToolFault(f"{checkout.folder} has no commit {commit}")
    compare(archive, checkout.clone(room, commit), kit, tell)
    for line in archive.gate:
        tell(f"its gate said: {line}")


def parse(words):
    """The words of the command line."""
    parser = Words(prog="check_release", description="Check an archive of a release against a checkout, by proving and building its commit anew.",
                   epilog="Status 0: the archive is what its commit builds. 1: it is not. 2: that could not be found out.")
    parser.add_argument("archive", metavar="ARCHIVE")
    parser.add_argument("--checkout", metavar="FOLDER", default=TOP, help="a checkout that has the commit (default: this one)")
    parser.add_argument("--room", metavar="FOLDER", help="where the commit is cloned to and built; it is kept, so a check that is cut off goes on there")
    parser.add_argument("--unproved", action="store_true", help="check also an archive of an unproved build")
    return parser.parse_args(words)


def main(words):
    """Checks an archive by the words of the command line."""
    given = parse(words)
    try:
        archive = read_archive(given.archive)
        if not archive.proved and not given.unproved:
            raise Differs("NOTHING IS PROVED of its program, by its own manifest")
        with tempfile.TemporaryDirectory(prefix="check-release-") as room:
            check(archive, Checkout(given.checkout), pathlib.Path(given.room or room).absolute(), lambda text: print(text, flush=True))
    except Differs as differs:
        print(f"check_release: {given.archive} is refused: {differs}", file=sys.stderr)
        return 1
    print(f"{given.archive} is what its commit builds" + ("" if archive.proved else ", WITHOUT ANY PROOF"))
    return 0
