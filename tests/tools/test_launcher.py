#!/usr/bin/env python3
"""./simcore: which build runs, what is said of it, and how it ends, with a kit that stands in for the real one.

tests/first_minute.sh builds by the real kit and shows the clock.
"""

import os
import pathlib
import shutil
import signal
import subprocess
import sys
import tempfile
import time

from cases import TOP, Cases, bad_input
from stand_in_kit import StandIn, lacking

CALLED = "simcore: NOTHING IS PROVED of this build"


def unproved(cases, it):
    """It is built once, kept, called what it is each time, and built again where a source is newer."""
    status, text, said = it.run("./simcore", "--unproved", "play", "x")
    cases.case("unproved: its text", (status, text), (0, "unproved play x\n"))
    cases.case("unproved: it is said what it is", (said[0].startswith("simcore: the program is built without any proof"), said[-1]), (True, CALLED))
    cases.case("unproved: it is kept", it.run("./simcore", "--unproved", "play", "x"), (0, "unproved play x\n", [CALLED]))
    cases.case("unproved: in another folder, with its words as they are", it.run(it.top / "simcore", "--unproved", "play", "./a b", folder=it.folder),
               (0, "unproved play ./a b\n", [CALLED]))
    cases.case("unproved: the status is the program's", it.run("./simcore", "--unproved"), (2, "unproved\n", [CALLED]))
    cases.case("unproved: all this was one build", (it.asked("tried"), it.asked("proved")), (1, 0))
    it.edit()
    cases.case("unproved: an edited source is built", (it.run("./simcore", "--unproved", "play")[0], it.asked("tried")), (0, 2))


def proved(cases, it):
    """The proved program takes the place of the unproved one, until a source is newer."""
    cases.case("--prove takes no words", it.run("./simcore", "--prove", "play"), (2, "", ["simcore: --prove runs nothing, so it takes no words"]))
    status, text, _ = it.run("./simcore", "--prove")
    cases.case("--prove: nothing runs", (status, text, it.asked("proved")), (0, "", 1))
    cases.case("--prove again does nothing", (it.run("./simcore", "--prove"), it.asked("proved")), ((0, "", []), 1))
    for flags in ([], ["--unproved"], ["--meanwhile"]):
        cases.case(f"proved: it runs, {flags}", it.run("./simcore", *flags, "play", "x"), (0, "proved play x\n", []))
    it.edit()
    status, text, said = it.run("./simcore", "--unproved", "play")
    cases.case("proved: an edit is not proved", (status, text, said[-1]), (0, "unproved play\n", CALLED))
    status, text, _ = it.run("./simcore", "play")
    cases.case("without a flag it is proved first", (status, text, it.asked("proved")), (0, "proved play\n", 2))


def wait_until(truth):
    """Waits until something holds, but not for ever."""
    for _ in range(600):
        if truth():
            return
        time.sleep(0.1)


def names(*words):
    """The names that nm tells of a file."""
    told = subprocess.run(["nm", *map(str, words)], capture_output=True, text=True, check=True).stdout
    return sorted(line.split()[-1] for line in told.splitlines() if len(line.split()) == 3)


def library(cases, it):
    """The library is proved, and installed with the calls of the header alone; one that has others is not."""
    before, place = it.asked("proved"), it.folder / "library"
    status, text, said = it.run("./simcore", "--library", place)
    cases.case("library: it is proved and installed", (status, text, it.asked("proved") - before, said[-1]),
               (0, "", 1, f"simcore: the library stands below {place}"))
    cases.case("library: it is said how far the proving is", [line.partition(",")[0] for line in said[1:3]],
               ["simcore: 1 of 2 crates are proved", "simcore: 2 of 2 crates are proved"])
    lines = (it.top / "include/simcore.h").read_text().splitlines()
    calls = sorted(line.split("(")[0].split()[1] for line in lines if line.startswith(("int32_t", "uint32_t")))
    heap = ["rattle_alloc", "rattle_dealloc", "rattle_realloc"]
    cases.case("library: the names that the shared object shows", names("-D", "--defined-only", place / "lib/libsimcore.so"), calls)
    cases.case("library: and the archive", names("-g", "--defined-only", place / "lib/libsimcore.a"), sorted(heap + calls))
    page = (place / "lib/pkgconfig/simcore.pc").read_text()
    cases.case("library: it is called proved", ("proved=yes\n" in page, "NOTHING" in page), (True, False))
    again = it.run("./simcore", "--library", place)
    cases.case("library: it is installed over itself", (again[0], sorted(path.name for path in (place / "lib").iterdir())),
               (0, ["libsimcore.a", "libsimcore.so", "libsimcore.so.1", "pkgconfig"]))
    source = it.top / "crates/sim_c/src/lib.rt"
    kept = source.read_text()
    source.write_text(kept + "int simcore_more(void) { return 0; }\n")
    status, text, said = it.run("./simcore", "--library", it.folder / "other")
    cases.case("library: a call that the header has not", (status, text, said[-1], (it.folder / "other").exists()),
               (2, "", "make_library: the header and the crate sim_c do not have the same calls: simcore_more", False))
    source.write_text(kept)


def meanwhile(cases, it):
    """The proving goes on beside the unproved build, once, and is told."""
    it.edit()
    it.run("./simcore", "--unproved", "play")
    (it.kit / "slow").touch()
    before, far = it.asked("proved"), it.top / "out/proving"
    status, text, said = it.run("./simcore", "--meanwhile", "play")
    cases.case("meanwhile: the unproved build runs", (status, text, said[-1].startswith(CALLED)), (0, "unproved play\n", True))
    wait_until(lambda: far.exists() and "1 of 2" in far.read_text())
    status, text, said = it.run("./simcore", "--meanwhile", "play")
    told = [line.startswith(f"{CALLED}; 1 of 2 crates are proved, the last sim_base") for line in said]
    cases.case("meanwhile: it is said how far the proving is", (text, told), ("unproved play\n", [True]))
    second = it.start("./simcore", "play")
    cases.case("a second who wants it proved waits for the first", second.stderr.readline(), "simcore: another run proves it already, and this one waits\n")
    (it.kit / "slow").unlink()
    cases.case("and then runs it", (*second.communicate(timeout=60), second.returncode), ("proved play\n", "", 0))
    cases.case("meanwhile: it was proved once", it.asked("proved") - before, 1)


def interrupted(cases, it):
    """A build that is interrupted leaves nothing behind, and the next one begins anew."""
    it.edit()
    (it.kit / "slow").touch()
    before = it.asked("tried")
    build = it.start("tools/build_unproved")
    wait_until(lambda: it.asked("tried") > before)
    build.terminate()
    cases.case("an interrupted build", (*build.communicate(timeout=60), build.returncode), ("", "", 128 + signal.SIGTERM))
    cases.case("it leaves nothing behind", list((it.top / "out/unproved").glob("build-*")), [])
    (it.kit / "slow").unlink()
    cases.case("the next one begins anew", it.run("./simcore", "--unproved", "play")[:2], (0, "unproved play\n"))


def failing(cases, it):
    """A build that fails ends with 125, and the last line says where it is told why."""
    it.edit()
    (it.kit / "refuses").touch()
    log = f"{it.top}/crates/simcore/out/build.log says why"
    status, text, said = it.run("./simcore", "play")
    cases.case("what is not proved does not run", (status, text, said[-1]), (125, "", f"simcore: it was not built; {log}"))
    cases.case("and the unproved build says so", it.run("./simcore", "--unproved", "play")[2][-1], f"{CALLED}; the proving failed, and {log}")
    source = it.top / "crates/simcore/src/main.rt"
    source.write_text("#error\n" + source.read_text())
    status, text, said = it.run("./simcore", "--unproved", "play")
    cases.case("a source that does not compile", (status, text, said[1:]),
               (125, "", [f"build_unproved: the sources were not compiled; {it.top}/out/unproved/simcore.log says why"]))
    (it.kit / "bin/rt").rename(it.kit / "bin/other")
    os.symlink(shutil.which("python3"), it.kit / "bin/python3")
    it.environment["PATH"] = f"{it.kit / 'bin'}:/usr/bin:/bin"
    if not shutil.which("rt", path=it.environment["PATH"]):
        status, text, said = it.run("./simcore", "--unproved", "play")
        cases.case("no kit", (status, text, said[1:]), (125, "", ["build_unproved: there is no command rt: Rattle's kit is not on the path"]))


def scripts(cases):
    """The scripts beside the tools on words that they do not take."""
    for words in (["bash", "tests/first_minute.sh", "x"], ["bash", "tests/first_minute.sh", "-1"], [sys.executable, "tests/tools/run.py", "/none"],
                  [sys.executable, "tests/tools/run.py", "--most"]):
        done = subprocess.run(words, cwd=TOP, stdin=subprocess.DEVNULL, capture_output=True, text=True, check=False)
        name = words[1].rpartition("/")[2]
        good = (done.returncode, done.stdout, done.stderr.count("\n")) == (2, "", 1) and done.stderr.startswith(f"{name}: ")
        cases.holds(f"{name} {words[2]}", good, (done.returncode, done.stdout, done.stderr))


def test(cases):
    """All cases."""
    scripts(cases)
    if lacking():
        cases.skip("the launcher", lacking())
        return
    with tempfile.TemporaryDirectory() as folder:
        it = StandIn(pathlib.Path(folder).resolve())
        for part in (unproved, proved, library, meanwhile, interrupted, failing):
            part(cases, it)
        bad_input(cases, "make_library", ("no folder", [], "required"), ("a word too many", ["x", "y"], "unrecognized"))
        bad_input(cases, "build_unproved", ("a word too many", ["x"], "unrecognized"),
                  ("a file in the place of a folder", ["-o", __file__ + "/x"], "File exists"))


if __name__ == "__main__":
    counted = Cases()
    test(counted)
    counted.end()
