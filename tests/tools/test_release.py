#!/usr/bin/env python3
"""tools/make_release and tools/check_release: archives that are what they say, and such as are not; with a kit that stands in."""

import os
import pathlib
import shutil
import subprocess
import tarfile
import tempfile

from cases import Cases, bad_input
from stand_in_kit import StandIn, lacking

from simtools.checkout import sum_of
from simtools.releasing import pack


def unpack(path):
    """The files of an archive by their names in its folder."""
    with tarfile.open(path, "r:gz") as tar:
        return {head.name.partition("/")[2]: tar.extractfile(head).read() for head in tar}


def alone(program, *words):
    """What a program prints in a folder that is the whole file system: nothing else is there, and no C library."""
    with tempfile.TemporaryDirectory() as room:
        shutil.copy(program, f"{room}/program")
        way = ["chroot"] if os.geteuid() == 0 else ["unshare", "-r", "chroot"]
        done = subprocess.run([*way, room, "/program", *words], capture_output=True, text=True, check=False)
        return done.returncode, done.stdout + done.stderr


def made(it, *words):
    """The path of an archive that is made."""
    status, text, said = it.run("tools/make_release", "-o", it.folder, *words)
    if status:
        raise RuntimeError("\n".join(said))
    return pathlib.Path(text.strip())


def changed(it, path, **files):
    """An archive with other files, whose manifest has their sums."""
    held = unpack(path)
    for name, data in files.items():
        name = name.replace("_", ".")
        if name in held and name != "manifest.txt":
            held["manifest.txt"] = held["manifest.txt"].replace(sum_of(held[name]).encode(), sum_of(data).encode())
        held[name] = data
    out = it.folder / "changed.tar.gz"
    out.write_bytes(pack("changed", held, 0))
    return out


def refused(cases, it, name, path, status, text, *words):
    """The archive is refused with a status and one line."""
    got, out, said = it.run("tools/check_release", path, *words)
    line = said[-1] if said else ""
    cases.holds(f"check_release: {name}", got == status and text in line and line.startswith("check_release: ") and "is what its commit builds" not in out,
                (got, out, said))


def unproved_archive(cases, it):
    """An archive of an unproved build says what it is, and is refused where that is not asked for."""
    path = made(it, "--unproved")
    commit = it.run("git", "rev-parse", "HEAD")[1].strip()
    cases.case("an unproved archive: its name", path.name, f"simcore-{commit[:12]}-UNPROVED.tar.gz")
    held = unpack(path)
    cases.case("its files", sorted(held), ["manifest.txt", "simcore", "simcore.o", "sources.sha256"])
    lines = held["manifest.txt"].decode().splitlines()
    cases.case("its manifest", lines[:3], ["simcore-release 1", f"commit {commit}", "kit kit that stands in"])
    sums = [f"sum {sum_of(held[name])} {name}" for name in ("simcore", "simcore.o", "sources.sha256")]
    cases.case("the sums of the manifest", [line for line in lines if line.startswith("sum ")], sums)
    cases.case("its end", lines[-2:], ["verdict none: NOTHING IS PROVED", "tried 3 passed, 0 failed"])
    (it.folder / "sums").write_bytes(held["sources.sha256"])
    cases.case("the sums of the sources, by another program", it.run("sha256sum", "--quiet", "-c", it.folder / "sums")[0], 0)
    first = path.read_bytes()
    cases.holds("made again it is the same", made(it, "--unproved").read_bytes() == first)
    status, text, _ = it.run("tools/check_release", "--unproved", path)
    cases.case("it is good, where it is asked for", (status, text.splitlines()[-1]), (0, f"{path} is what its commit builds, WITHOUT ANY PROOF"))
    refused(cases, it, "an unproved archive", path, 1, "NOTHING IS PROVED")
    lies = changed(it, path, manifest_txt=held["manifest.txt"].replace(b"verdict none:", b"verdict logic=proved"))
    refused(cases, it, "an unproved archive that says that it is proved", lies, 1, "what was compiled is not what this commit is compiled to")
    (it.folder / "program").write_bytes(held["simcore"])
    (it.folder / "program").chmod(0o755)
    ways = alone(it.folder / "program", "play", "x")
    if "Operation not permitted" in ways[1]:
        cases.skip("the program alone", "this machine lets nobody change the root folder")
    else:
        cases.case("its program runs where nothing else is", ways, (0, "unproved play x\n"))


def proved_archive(cases, it):
    """A proved archive has the last lines of the gate, and is compared by proving and building anew."""
    log, room = it.folder / "gate.log", it.folder / "room"
    path = made(it)
    end = ["verdict logic=proved run --cpu x86-64", "tried 3 passed, 0 failed", "gate rt: ok; handles allowed: none", "gate 2 passed, 0 failed",
           "gate 3 passed, 0 failed"]
    cases.case("a proved archive: its end", unpack(path)["manifest.txt"].decode().splitlines()[-5:], end)
    cases.case("the program of the checkout is where it was", it.run("./simcore", "play"), (0, "proved play\n", []))
    log.write_text((it.top / "out/gate.log").read_text())
    cases.holds("with the log of the gate it is the same", made(it, "--gate", log).read_bytes() == path.read_bytes())
    before = it.asked("proved")
    status, text, _ = it.run("tools/check_release", path, "--room", room)
    cases.case("it is good, after a proof anew", (status, len(text.splitlines()), it.asked("proved") - before), (0, 7, 1))
    cases.case("and once more in the same room", it.run("tools/check_release", path, "--room", room)[0], 0)
    return path


def bad_archives(cases, it, path):
    """Archives that are changed in one place."""
    held = unpack(path)
    told, bit = held["manifest.txt"], bytes([held["simcore"][0], held["simcore"][1] ^ 1]) + held["simcore"][2:]
    of_bit = told.replace(sum_of(held["simcore"]).encode(), sum_of(bit).encode())

    def says(old, new):
        return {"manifest_txt": told.replace(old, new)}

    rows = [("another program", {"simcore": bit}, 1, "its program is not the one that is linked here"),
            ("another compiler", {"simcore": bit, "manifest_txt": of_bit.replace(b"linker ", b"linker old ")}, 1, "linked by old"),
            ("another compiled program", {"simcore_o": held["simcore.o"] + b"x"}, 1, "what was compiled is not"),
            ("other sources", {"sources_sha256": held["sources.sha256"] + b"x"}, 1, "the sums of its sources"),
            ("another manifest", says(b"sum ", b"sum 0"), 1, "is not the one of the manifest"),
            ("another kit", says(b"kit kit", b"kit old kit"), 2, "old kit that stands in, and here is kit that stands in"),
            ("no such commit", says(b"commit ", b"commit 00000000"), 2, "has no commit 0"),
            ("no commit", says(b"commit ", b"commit --"), 2, "no manifest that is understood"),
            ("no manifest", {"manifest_txt": b""}, 2, "no manifest that is understood"),
            ("proved perhaps", says(b"logic=proved", b"logic=perhaps"), 2, "no manifest that is understood"),
            ("a file too many", {"more": b""}, 2, "is no release: it has changed/more")]
    for name, files, status, text in rows:
        refused(cases, it, name, changed(it, path, **files), status, text, "--room", it.folder / "room")
    short = it.folder / "short.tar.gz"
    short.write_bytes(path.read_bytes()[:-100])
    refused(cases, it, "an archive that is cut short", short, 2, "can't be read as an archive")
    short.write_bytes(pack("short", {"simcore": b""}, 0))
    refused(cases, it, "an archive that lacks a file", short, 2, "is no release: it lacks manifest.txt")
    refused(cases, it, "a folder that is no checkout", path, 2, "git", "--checkout", it.folder)


def bad_gates(cases, it):
    """Logs of a gate that did not pass for this commit as it stands."""
    log, good = it.folder / "gate.log", (it.top / "out/gate.log").read_text()
    rows = [("of another commit", good.replace("gate of ", "gate of 0"), "is not of the commit"),
            ("with a failure", good.replace("3 passed, 0", "2 passed, 1"), "did not pass"),
            ("that is cut off", good.partition("3 passed")[0], "has 2 parts"), ("that goes on", good + "x\n", "has 2 parts"),
            ("that is empty", "", "is not of the commit")]
    for name, text, why in rows:
        log.write_text(text)
        status, out, said = it.run("tools/make_release", "--gate", log, "-o", it.folder)
        cases.holds(f"make_release: a log {name}", (status, out, len(said)) == (2, "", 1) and why in said[0], (status, out, said))
    it.edit()
    status, out, said = it.run("tools/make_release", "--unproved")
    line = f"make_release: {it.top} has changes that are in no commit, the first crates/simcore/src/main.rt"
    cases.case("make_release: a changed file", (status, out, said), (2, "", [line]))


def test(cases):
    """All cases."""
    if lacking():
        cases.skip("releases", lacking())
        return
    with tempfile.TemporaryDirectory() as folder:
        it = StandIn(pathlib.Path(folder).resolve())
        unproved_archive(cases, it)
        bad_archives(cases, it, proved_archive(cases, it))
        bad_gates(cases, it)
    bad_input(cases, "make_release", ("a folder that is not there", ["-o", "/none"], "there is no folder"),
              ("a gate and no proof", ["--gate", "x", "--unproved"], "no gate"),
              ("no log", ["--gate", "/none"], "can't be read"), ("a word too many", ["x"], "unrecognized"))
    bad_input(cases, "check_release", ("no archive", ["/none"], "can't be read as an archive"), ("no words", [], "ARCHIVE"),
              ("what is none", [__file__], "can't be read as an archive"))


if __name__ == "__main__":
    counted = Cases()
    test(counted)
    counted.end()
