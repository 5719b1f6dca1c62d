"""tools/make_library: the core as libsimcore.a, libsimcore.so, simcore.h and simcore.pc below a folder.

The code is the static library that the kit builds of the proved crate sim_c; or, with --unproved, the same sources compiled without any
proof. Either becomes one object of which no names are seen but the calls of the header, and which asks for nothing but memory and the C
library's copying of bytes. What the header declares and what the crate exports must be the same names, or nothing is built.
"""

import os
import pathlib
import re
import shutil
import subprocess
import sys
import tempfile

from . import unproved
from .faults import ToolFault, Words
from .kit import Kit

TOP = pathlib.Path(__file__).resolve().parent.parent.parent
CRATE = TOP / "crates/sim_c"
HEADER = TOP / "include/simcore.h"
LOG = TOP / "out/unproved/library.log"
# What the library asks memory of. A host may define the three in place of those of the archive.
HEAP = ["rattle_alloc", "rattle_realloc", "rattle_dealloc"]
EXPORT = re.compile(r'no_mangle\)\]\s*pub (?:unsafe )?extern "C" fn (\w+)\(([^)]*)\)')
# A handle for the calls of the stand-in program, and what becomes of it.
HANDLE = (["        let mut handle = handle::Handle::closed();"],
          ["        if let Some(kept) = handle.into_kept(rt.alloc()) {", "            drop(kept.into_box());", "        }"])
PAGE = """prefix=${{pcfiledir}}/../..
includedir=${{prefix}}/include
libdir=${{prefix}}/lib
proved={proved}

Name: simcore
Description: a deterministic lockstep simulation core{called}
Version: {version}
Cflags: -I${{includedir}}
Libs: -L${{libdir}} -lsimcore
"""
CALLED = "; NOTHING IS PROVED of this build"


def ran(*words, **how):
    """What a command prints; one that fails is a fault."""
    try:
        done = subprocess.run([str(it) for it in words], stdin=subprocess.DEVNULL, capture_output=True, text=True, errors="replace",
                              check=False, **how)
    except OSError as error:
        raise ToolFault(f"the command {words[0]} does not run: {error.strerror or error}") from None
    if done.returncode:
        raise ToolFault(f"{words[0]} ended with status {done.returncode}: {(done.stderr or done.stdout).strip()[-600:]}")
    return done.stdout


def names_of(header):
    """The calls that a header declares."""
    return re.findall(r"^u?int32_t (simcore_\w+)\(", header, re.M)


def version_of(header):
    """The version of a header: the number that must be the same, and the one that may be more."""
    number = int(re.search(r"#define SIMCORE_VERSION (0x[0-9a-f]+)u", header)[1], 16)
    return number >> 16, number & 0xFFFF


def stand_in_value(kind):
    """Something of the type of a parameter of an export, as the sources spell it."""
    if kind == "Global":
        return "rt.alloc()"
    if kind == "&[u8]":
        return 'b""'
    if kind == "&mut Handle":
        return "&mut handle"
    if kind.startswith("&mut [") and "u8" in kind:
        return f"&mut [0u8; {16 if '16' in kind else 1}]"
    if kind.startswith("&mut ["):
        return "&mut [Default::default()]"
    return "&mut Default::default()" if kind.startswith("&mut ") else "0"


def stand_in_program(crate, room):
    """The sources of sim_c as a program that names each export, since unproved code is compiled as a program alone."""
    source = room / "source"
    shutil.copytree(crate / "src", source)
    calls = []
    for path in sorted(source.rglob("*.rt")):
        module = path.relative_to(source).with_suffix("").as_posix().replace("/", "::")
        for name, given in EXPORT.findall(path.read_text(encoding="utf-8")):
            kinds = [it.split(":", 1)[1].strip() for it in given.split(",") if ":" in it]
            calls.append(f"        let _ = {module}::{name}({', '.join(map(stand_in_value, kinds))});")
    root = source / "main.rt"
    (source / "lib.rt").rename(root)
    text = root.read_text(encoding="utf-8")
    root.write_text("\n".join([text, "fn main(rt: HostRuntime) {", "    if std::env::args(&rt).is_err() {", *HANDLE[0], *calls, *HANDLE[1],
                               "    }", "}", ""]), encoding="utf-8")
    return root


def open_exports(kit, room):
    """Gives the exports in the module of the program the names by which C calls them; there they are functions like all others."""
    ran(kit.clang, "--no-default-config", "-x", "ir", room / "module.bc", "-S", "-emit-llvm", "-O0", "-Xclang", "-disable-llvm-passes",
        "-o", room / "whole.ll")
    with open(room / "whole.ll", encoding="utf-8") as whole, open(room / "module.ll", "w", encoding="utf-8") as module:
        for line in whole:
            line = re.sub(r'@"sim_c::[\w:]+::(simcore_\w+)"', r"@\1", line)
            if line.startswith("define internal ") and " @simcore_" in line:
                line = line.replace("define internal ", "define ", 1)
            module.write(line)


def compile_unproved(kit, room):
    """An object of the sources as they stand, without any proof."""
    root = stand_in_program(CRATE, room)
    LOG.parent.mkdir(parents=True, exist_ok=True)
    with open(LOG, "w", encoding="utf-8") as log:
        words = unproved.keep_module(kit, room, log, unproved.source_words(TOP, kit, "sim_c", root))
        open_exports(kit, room)
        renamed = {"module.bc": "module.ll", "-fPIE": "-fPIC"}
        return unproved.optimise(kit, room, [renamed.get(it, it) for it in words], log)


def compile_proved(_kit, _room):
    """The archive that the kit builds, which it does of proved code alone."""
    ran("rt", "lib", cwd=CRATE)
    return CRATE / "out/libsim_c.a"


def exports_of(compiled):
    """The calls that are defined in a compiled file."""
    lines = ran("nm", "-g", "--defined-only", compiled).splitlines()
    return {line.split()[-1] for line in lines if re.search(r" T simcore_\w+$", line)}


def link(kit, compiled, names, room, soname):
    """One object that shows the calls alone, and from it the archive and the shared object."""
    one, heap = room / "simcore.o", room / "heap.o"
    ran("ld", "-r", "--gc-sections", *(f"--undefined={it}" for it in names), "-o", one, "--whole-archive", compiled)
    ran("objcopy", "--strip-unneeded", *(f"--keep-global-symbol={it}" for it in [*names, *HEAP]), one)
    ran("ar", "x", kit.c_code[1], "heap.pic.o", cwd=room)
    (room / "heap.pic.o").rename(heap)
    ran("ar", "rcsD", room / "libsimcore.a", one, heap)
    (room / "names").write_text("{ global: " + " ".join(f"{it};" for it in names) + " local: *; };\n", encoding="utf-8")
    strict = ["-Bsymbolic", f"--version-script={room}/names", f"-soname,{soname}", "--build-id=none", "-z,text", "-z,now", "-z,relro", "-z,defs"]
    ran("gcc", "-shared", *(f"-Wl,{it}" for it in strict), "-o", room / soname, one, heap)
    (room / "libsimcore.so").symlink_to(soname)


def put(source, folder):
    """Puts a file into a folder in one step, so that whoever has the one before it open keeps that."""
    folder.mkdir(parents=True, exist_ok=True)
    fresh = folder / f".{source.name}.new"
    fresh.unlink(missing_ok=True)
    shutil.copy(source, fresh, follow_symlinks=False)
    os.replace(fresh, folder / source.name)


def build(prefix, proved, tell=lambda text: None):
    """Builds the library and installs it below a folder."""
    kit, header = Kit(), HEADER.read_text(encoding="utf-8")
    names, (first, second) = names_of(header), version_of(header)
    with tempfile.TemporaryDirectory() as room:
        room = pathlib.Path(room)
        compiled = (compile_proved if proved else compile_unproved)(kit, room)
        tell("the sources are compiled")
        apart = exports_of(compiled) ^ set(names)
        if apart:
            raise ToolFault(f"the header and the crate sim_c do not have the same calls: {' '.join(sorted(apart))}")
        link(kit, compiled, names, room, f"libsimcore.so.{first}")
        page = PAGE.format(version=f"{first}.{second}", proved="yes" if proved else "no", called="" if proved else CALLED)
        (room / "simcore.pc").write_text(page, encoding="utf-8")
        put(HEADER, prefix / "include")
        for name in ("libsimcore.a", f"libsimcore.so.{first}", "libsimcore.so"):
            put(room / name, prefix / "lib")
        put(room / "simcore.pc", prefix / "lib/pkgconfig")
    tell(f"the library stands below {prefix}")


def main(words):
    """Builds by the words of the command line."""
    parser = Words(prog="make_library", description="Build the core as a library for C and whatever speaks C, and install it below a folder.",
                   epilog="It needs gcc and binutils beside the kit. ./simcore --library proves first, and says how far it is.")
    parser.add_argument("prefix", metavar="PREFIX", help="the folder for include/simcore.h, lib/libsimcore.a, lib/libsimcore.so and simcore.pc")
    parser.add_argument("--unproved", action="store_true", help="of the sources as they stand, without any proof")
    given = parser.parse_args(words)
    try:
        build(pathlib.Path(given.prefix).absolute(), not given.unproved, lambda text: print(f"simcore: {text}", file=sys.stderr))
    except OSError as error:
        raise ToolFault(f"{error.filename or given.prefix}: {error.strerror}") from None
    if given.unproved:
        print("simcore: NOTHING IS PROVED of this library", file=sys.stderr)
