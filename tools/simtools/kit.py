"""Rattle's kit: where it is, which one it is, and how its programs link what they compiled. It is found by its command `rt`."""

import pathlib
import re
import shutil
import subprocess
import tempfile

from .faults import ToolFault

TARGET = "x86_64-unknown-linux-gnu"
# What the C library of a static program is made of, of Debian's package libc6-dev, and what links it.
PACKAGES = "gcc and libc6-dev"


def said_by(*words):
    """What a command prints; one that is not there or fails is a fault."""
    try:
        done = subprocess.run(words, stdin=subprocess.DEVNULL, capture_output=True, text=True, errors="replace", check=False)
    except OSError as error:
        raise ToolFault(f"the command {words[0]} does not run: {error.strerror or error}") from None
    if done.returncode:
        raise ToolFault(f"{' '.join(map(str, words))} ended with status {done.returncode}: {(done.stderr or done.stdout).strip()[-300:]}")
    return done.stdout.strip()


class Kit:
    """The kit of the command `rt`."""

    def __init__(self):
        if not shutil.which("rt"):
            raise ToolFault("there is no command rt: Rattle's kit is not on the path")
        self.folder = pathlib.Path(said_by("rt", "doc")).parent
        self.name = said_by("rt", "version")
        self.toolchain = self.folder / "toolchain"
        self.clang = self.toolchain / "bin/clang"
        self.c_code = [self.folder / "c/libos_c.a", self.folder / "c/liblibc_c.a"]

    def program(self, name):
        """The path of a program of the kit."""
        path = self.folder / "bin" / name
        if not path.is_file():
            raise ToolFault(f"the kit {self.name} has no {name}, so nothing is built by it")
        return path

    def uses_of(self, library):
        """The libraries of the kit that one of them names."""
        try:
            text = (self.folder / f"rlibs/{library}.rlib/format").read_text(encoding="utf-8")
        except OSError:
            raise ToolFault(f"neither crates.txt nor the kit {self.name} has a library {library}") from None
        return re.findall(r"^dep (\w+)$", text, re.M)

    def link(self, compiled, program):
        """Links a compiled program as the kit itself does: it needs the C library of the machine that runs it."""
        said_by(self.program("rattle-link"), "--target", TARGET, "--toolchain", self.toolchain, "-o", program, compiled, *self.c_code)

    def link_static(self, compiled, program):
        """Links a compiled program with the C library of this machine, so that it runs on any Linux of x86-64."""
        if not shutil.which("gcc"):
            raise ToolFault(f"there is no gcc: a static program needs {PACKAGES} (apt-get install {PACKAGES.replace(' and', '')})")
        try:
            said_by("gcc", "-static", "-s", "-Wl,--build-id=none", "-o", program, compiled, *self.c_code)
        except ToolFault as fault:
            raise ToolFault(f"the static program was not linked, which needs {PACKAGES}: {fault}") from None


def c_library():
    """Which compiler and which C library link a static program here."""
    with tempfile.TemporaryDirectory() as folder:
        source = pathlib.Path(folder, "version.c")
        source.write_text("#include <gnu/libc-version.h>\n#include <stdio.h>\nint main(void) { puts(gnu_get_libc_version()); }\n", encoding="utf-8")
        said_by("gcc", "-static", "-o", f"{folder}/version", source)
        return f"{said_by('gcc', '--version').splitlines()[0]}, glibc {said_by(f'{folder}/version')}"
