"""tools/make_release: an archive of the proved program, linked statically, with a manifest that says what it is and of what.

The archive is a folder with the program, what was compiled of it before it was linked, the sums of all files of the commit, and the
manifest: lines of a word and what it says. Of the same commit, kit, compiler and C library it is the same archive, byte for byte.
"""

import gzip
import io
import pathlib
import re
import subprocess
import sys
import tarfile
import tempfile

from .checkout import TOP, Checkout, sum_of
from .faults import ToolFault, Words, read_bytes
from .kit import Kit, c_library

FORM = "simcore-release 1"
# The files of an archive beside its manifest, and whether each is run.
FILES = {"simcore": True, "simcore.o": False, "sources.sha256": False}
PASSED = re.compile(r"[0-9]+ passed, ([0-9]+) failed$")
TOLD = re.compile(r"rt: ok|skipped ")


def parts_of_gate(top):
    """How many parts the gate has, each of which ends with how many passed and failed."""
    return len(re.findall(r"^(?:rt ci|python3 tests/)", (top / ".ci/run").read_text(encoding="utf-8"), re.M))


def read_gate(text, commit, parts):
    """The last lines of each part of a gate that passed for this commit."""
    lines = text.splitlines()
    if f"gate of {commit}" not in lines:
        raise ToolFault(f"the log of the gate is not of the commit {commit} as it stands")
    ends = [PASSED.match(line) for line in lines]
    counts = [int(it[1]) for it in ends if it]
    if any(counts):
        raise ToolFault("the gate did not pass, by its log")
    if len(counts) != parts or not ends[-1]:
        raise ToolFault(f"the gate has {parts} parts, and by its log {len(counts)} of them passed")
    return [line for line, end in zip(lines, ends) if end or TOLD.match(line)]


def run_gate(checkout):
    """The text of a gate that is run now, which is kept as a log."""
    log = checkout.folder / "out/gate.log"
    log.parent.mkdir(exist_ok=True)
    print(f"make_release: the gate runs, and {log} says how far it is", file=sys.stderr)
    with open(log, "w", encoding="utf-8") as out:
        subprocess.run(["bash", checkout.folder / ".ci/run"], stdin=subprocess.DEVNULL, stdout=out, stderr=out, check=False)
    return log.read_text(encoding="utf-8", errors="replace")


def try_rows(checkout, program):
    """What the tables of worked cases say of a program: all have to pass."""
    done = subprocess.run([sys.executable, checkout.folder / "tests/rows.py", program], stdin=subprocess.DEVNULL, capture_output=True, text=True, check=False)
    line = (done.stdout.splitlines() or [""])[-1]
    if done.returncode or not PASSED.match(line):
        raise ToolFault(f"the static program does not pass tests/rows.py: {line or done.stderr.strip()[-200:]}")
    return line


def manifest(checkout, kit, files, told):
    """The lines of a manifest: what the program is of, the sums of the files, and what is told of how it was made."""
    lines = [FORM, f"commit {checkout.commit}", f"kit {kit.name}", f"linker {c_library()}", *(f"sum {sum_of(data)} {name}" for name, data in files.items())]
    return "".join(f"{line}\n" for line in [*lines, *told])


def pack(name, files, when):
    """The bytes of an archive: a folder of that name with these files, all of one time."""
    inner = io.BytesIO()
    with tarfile.open(fileobj=inner, mode="w", format=tarfile.USTAR_FORMAT) as tar:
        for file, data in files.items():
            head = tarfile.TarInfo(f"{name}/{file}")
            head.size, head.mtime, head.mode = len(data), when, 0o755 if FILES.get(file) else 0o644
            tar.addfile(head, io.BytesIO(data))
    return gzip.compress(inner.getvalue(), mtime=when)


def make(checkout, gate, folder):
    """Makes the archive of a checkout in a folder; its path. Without a gate it is one of an unproved build."""
    kit = Kit()
    with tempfile.TemporaryDirectory() as room:
        compiled, verdict = checkout.compile(gate is not None, kit, pathlib.Path(room))
        program = pathlib.Path(room, "static")
        kit.link_static(compiled, program)
        told = [f"verdict {verdict or 'none: NOTHING IS PROVED'}", f"tried {try_rows(checkout, program)}", *(f"gate {line}" for line in gate or [])]
        files = {"simcore": program.read_bytes(), "simcore.o": compiled.read_bytes(), "sources.sha256": checkout.sums().encode()}
    # What was edited meanwhile would be in the sums, or even in the program.
    checkout.stop_on_changes()
    files["manifest.txt"] = manifest(checkout, kit, files, told).encode()
    name = f"simcore-{checkout.commit[:12]}{'-UNPROVED' if gate is None else ''}"
    path = pathlib.Path(folder) / f"{name}.tar.gz"
    try:
        path.write_bytes(pack(name, files, int(checkout.git("log", "-1", "--format=%ct"))))
    except OSError as error:
        raise ToolFault(f"{path} can't be written: {error.strerror}") from None
    return path


def main(words):
    """Makes an archive by the words of the command line."""
    parser = Words(prog="make_release", description="Make an archive of the proved program, linked statically, with its manifest.",
                   epilog="It needs gcc and libc6-dev. tools/check_release checks what it makes. docs/RELEASES.md says what is in it.")
    parser.add_argument("-o", metavar="FOLDER", dest="folder", default=".", help="the folder for the archive (default: where it is run)")
    parser.add_argument("--gate", metavar="LOG", help="what .ci/run printed for this commit (default: the gate is run now)")
    parser.add_argument("--unproved", action="store_true", help="an archive of the unproved build, to try the tools; its name and its manifest say so")
    given = parser.parse_args(words)
    if given.gate and given.unproved:
        raise ToolFault("an archive of the unproved build has no gate")
    if not pathlib.Path(given.folder).is_dir():
        raise ToolFault(f"there is no folder {given.folder}")
    log = read_bytes(given.gate) if given.gate else None
    checkout = Checkout(TOP)
    checkout.stop_on_changes()
    gate = None
    if not given.unproved:
        text = run_gate(checkout) if log is None else log.decode("utf-8", "replace")
        gate = read_gate(text, checkout.commit, parts_of_gate(TOP))
    print(make(checkout, gate, given.folder))
