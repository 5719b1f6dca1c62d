"""A checkout of the repository: which commit it is, the sums of its files, and the programs that it builds."""

import contextlib
import hashlib
import os
import pathlib
import re
import shutil
import subprocess

from .faults import ToolFault
from .kit import said_by

TOP = pathlib.Path(__file__).resolve().parent.parent.parent


def sum_of(data):
    """The sum by which a file is named in a release."""
    return hashlib.sha256(data).hexdigest()


@contextlib.contextmanager
def set_aside(*paths):
    """Puts files aside that others are made in the place of, and puts them back."""
    aside = {path: path.with_name(f"{path.name}.aside") for path in paths if path.exists()}
    for path, other in aside.items():
        os.replace(path, other)
    try:
        yield
    finally:
        for path in paths:
            path.unlink(missing_ok=True)
        for path, other in aside.items():
            os.replace(other, path)


class Checkout:
    """A folder that git knows as the top of the repository."""

    def __init__(self, folder=TOP):
        self.folder = pathlib.Path(folder).absolute()
        self.commit = self.git("rev-parse", "HEAD")
        if pathlib.Path(self.git("rev-parse", "--show-toplevel")).resolve() != self.folder.resolve():
            raise ToolFault(f"{folder} is not the top of a checkout")

    def git(self, *words):
        """What git says of the checkout."""
        return said_by("git", "-C", self.folder, *words)

    def stop_on_changes(self):
        """A file that the commit does not have, or has otherwise, is a fault."""
        changed = self.git("status", "--porcelain").splitlines()
        if changed:
            raise ToolFault(f"{self.folder} has changes that are in no commit, the first {changed[0].split()[-1]}")

    def sums(self):
        """The sum of each file that the commit has, as `sha256sum -c` reads them at the top of a checkout."""
        names = self.git("-c", "core.quotePath=off", "ls-files").splitlines()
        return "".join(f"{sum_of((self.folder / name).read_bytes())}  {name}\n" for name in names)

    def clone(self, folder, commit):
        """A checkout of a commit in another folder, which may be there from an earlier time."""
        if not (folder / ".git").exists():
            said_by("git", "clone", "-q", "--no-checkout", self.folder, folder)
            said_by("git", "-C", folder, "checkout", "-q", "--detach", commit)
        made = Checkout(folder)
        if made.commit != commit:
            raise ToolFault(f"{folder} is a checkout of another commit, {made.commit}")
        made.stop_on_changes()
        return made

    def has(self, commit):
        """Whether git knows the commit here."""
        return subprocess.run(["git", "-C", self.folder, "cat-file", "-e", f"{commit}^{{commit}}"], capture_output=True, check=False).returncode == 0

    def compile(self, proved, kit, room):
        """Builds the program anew, in a room, for every processor of x86-64; the path of what was compiled, and rt's verdict on its proof."""
        program = room / "simcore"
        verdict = self._build_proved(program) if proved else self._build_unproved(program)
        kit.link(f"{program}.o", room / "again")
        if (room / "again").read_bytes() != program.read_bytes():
            raise ToolFault(f"{self.folder} has a program that was not linked of what was compiled")
        return room / "simcore.o", verdict

    def _build_unproved(self, program):
        if subprocess.run([self.folder / "tools/build_unproved", "-o", program], stdin=subprocess.DEVNULL, check=False).returncode:
            raise ToolFault(f"{self.folder} does not build the program without proofs")

    def _build_proved(self, program):
        """Proves and builds the program, and then builds it once more: rt's own build asks for a processor of 2009 or later. A program that
        is there may be the gate's, beside which rt keeps no library to build by, so it is built anew."""
        (self.folder / "crates/simcore/out/simcore").unlink(missing_ok=True)
        if subprocess.run([self.folder / "simcore", "--prove"], stdin=subprocess.DEVNULL, check=False).returncode:
            raise ToolFault(f"{self.folder} does not prove the program")
        crate = self.folder / "crates/simcore"
        with set_aside(*(crate / "out" / name for name in ("simcore", "simcore.o", "simcore.stamp"))):
            done = subprocess.run(["rt", "run", "--cpu", "x86-64"], cwd=crate, stdin=subprocess.DEVNULL, capture_output=True, text=True, errors="replace",
                                  check=False)
            verdict = re.search("^logic=proved.*", done.stdout + done.stderr, re.M)
            if not verdict or not (crate / "out/simcore").is_file():
                raise ToolFault(f"rt does not build the program for every processor: {(done.stdout + done.stderr)[-300:]}")
            shutil.copy(crate / "out/simcore", program)
            shutil.copy(crate / "out/simcore.o", f"{program}.o")
        return verdict[0]
