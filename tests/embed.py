#!/usr/bin/env python3
"""Tries the library as hosts in C, C++, Rust and Python have it.

Usage: python3 tests/embed.py [--seconds N] [--limit N] [PREFIX [PROGRAM]]

PREFIX is the folder of `./simcore --library`, by default out/library, and PROGRAM a built program to compare with, by default the one
that the gate leaves in crates/simcore/out. With --seconds the fuzzer of the border runs so many seconds in place of ten: 3600 is an hour.
What is not installed is named, and what needs it is skipped. Nothing is waited for without an end: where two minutes, or --limit seconds,
and what the fuzzer has beyond ten are over, what still runs is ended and has failed. The last line is `N passed, M failed`.
"""

import argparse
import concurrent.futures
import faulthandler
import json
import os
import pathlib
import random
import re
import shutil
import subprocess
import sys
import tempfile
import time

TOP = pathlib.Path(__file__).resolve().parent.parent
sys.path.insert(0, str(TOP / "examples/embed"))
import simcore  # noqa: E402
from handles import Client, Game, Server  # noqa: E402

STRICT = ["-O1", "-Wall", "-Wextra", "-Werror", "-pedantic", "-pthread"]
COMPILERS = {"gcc": "c99", "clang": "c99", "g++": "c++11", "clang++": "c++11"}
HOSTS = ["tests/embed/calls.c", "tests/embed/budget.c", "tests/embed/held.c", "tests/embed/held_budget.c", "examples/embed/skirmish.c"]
FUZZERS = ["tests/embed/fuzz.c", "tests/embed/held_fuzz.c"]
# What the library may ask of whoever links it: the C library's copying and its heap, and arithmetic of the compiler's.
ASKED = {"memcpy", "memmove", "memset", "malloc", "realloc", "free", "__udivti3", "__umodti3", "rattle_alloc", "rattle_realloc", "rattle_dealloc"}
HEAP = {"rattle_alloc", "rattle_realloc", "rattle_dealloc"}
FOUND = {"passed": 0, "failed": 0}
TIME = {"end": 0}
# The commands that store a file, under the name of their last word.
STORES = ("state", "sight", "log", "record")


class OutOfTime(Exception):
    """A command had not ended when the time was over."""


def check(name, good, told=""):
    """Counts a case, and prints one that fails."""
    FOUND["passed" if good else "failed"] += 1
    if not good:
        print(f"FAILED {name}: {told}", flush=True)


def is_there(name):
    """Whether a command is there."""
    return shutil.which(name) is not None


def run(*words, **how):
    """What became of a command, with its output as text, if it ends in the time that is left."""
    try:
        return subprocess.run([str(it) for it in words], stdin=subprocess.DEVNULL, capture_output=True, text=True, errors="replace", check=False,
                              timeout=max(TIME["end"] - time.monotonic(), 0.1), **how)
    except subprocess.TimeoutExpired:
        raise OutOfTime(f"no end of {' '.join(str(it) for it in words[:3])}") from None


def try_symbols(prefix):
    """The library shows the calls of the header and no others, asks for nothing but memory, and keeps no variable."""
    named = set(re.findall(r"^u?int32_t (simcore_\w+)\(", (prefix / "include/simcore.h").read_text(), re.M))
    archive, shared = prefix / "lib/libsimcore.a", prefix / "lib/libsimcore.so"
    shown = {line.split()[-1] for line in run("nm", "-D", "--defined-only", shared).stdout.splitlines()}
    check("the calls of the header are what the shared object shows", len(named) > 7 and shown == named, shown ^ named)
    opened = {line.split()[2] for line in run("nm", "-g", "--defined-only", archive).stdout.splitlines() if len(line.split()) == 3}
    check("and the archive, beside its heap", opened == named | HEAP, opened ^ (named | HEAP))
    for path, words in ((archive, ["-u"]), (shared, ["-D", "-u"])):
        asked = {line.split()[-1].partition("@")[0] for line in run("nm", *words, path).stdout.splitlines() if line.split()[-2:-1] == ["U"]}
        check(f"{path.name} asks for memory and copying alone", asked <= ASKED, asked - ASKED)
    own = run("nm", archive).stdout.partition("heap.o:")[0]
    kept = [line for line in own.splitlines() if line.split()[-2:-1] and line.split()[-2] in "bBcCD"]
    check("the library keeps no variable", not kept, kept)


def build(prefix, room, compiler, host):
    """Builds a host; its path, or None."""
    built = room / f"{pathlib.Path(host).stem}-{compiler}"
    language = ["-x", "c++"] if "++" in compiler else []
    made = run(compiler, f"-std={COMPILERS[compiler]}", *STRICT, f"-I{prefix}/include", *language, TOP / host, "-x", "none",
               prefix / "lib/libsimcore.a", "-o", built)
    check(f"{host} compiles by {compiler}", made.returncode == 0, made.stderr[-600:])
    return built if made.returncode == 0 else None


def try_host(prefix, room, compiler, host):
    """A host compiles without a warning, runs, and is clean under valgrind; what it prints."""
    built = build(prefix, room, compiler, host)
    if not built:
        return None
    ran = run(built)
    check(f"{host} runs, by {compiler}", ran.returncode == 0, (ran.returncode, ran.stdout[-300:], ran.stderr[-300:]))
    if compiler == "gcc" and is_there("valgrind"):
        brief = [number for name, number in (("skirmish", 12), ("budget", 9)) if name in host]
        seen = run("valgrind", "-q", "--error-exitcode=99", "--leak-check=full", "--show-leak-kinds=all", built, *brief)
        check(f"{host} under valgrind", seen.returncode == 0, (seen.returncode, seen.stderr[-600:]))
    return ran.stdout


def try_hosts(prefix, room):
    """All hosts in C and C++, by all compilers, say the same."""
    jobs = [(compiler, host) for host in HOSTS for compiler in COMPILERS if is_there(compiler)]
    with concurrent.futures.ThreadPoolExecutor(4) as pool:
        texts = list(pool.map(lambda job: try_host(prefix, room, *job), jobs))
    for host in HOSTS:
        said = {text for (_, its), text in zip(jobs, texts) if its == host}
        check(f"{host} says the same by every compiler", len(said) == 1, said)


def try_pkg_config(prefix, room):
    """A host is built by what simcore.pc says, and runs with the shared object."""
    words = run("pkg-config", "--cflags", "--libs", "simcore", env={"PATH": "/usr/bin:/bin", "PKG_CONFIG_PATH": f"{prefix}/lib/pkgconfig"}).stdout.split()
    made = run("gcc", "-std=c99", TOP / HOSTS[-1], *words, "-o", room / "shared")
    ran = run(room / "shared", "3", env={"LD_LIBRARY_PATH": f"{prefix}/lib", "LD_BIND_NOW": "1"}) if made.returncode == 0 else made
    check("a host by pkg-config, with the shared object", ran.returncode == 0, ran.stderr)


def try_rust(prefix, room):
    """The crate in Rust is built without a registry, and its examples run."""
    shutil.copytree(TOP / "examples/embed/rust", room / "rust", ignore=shutil.ignore_patterns("target", "Cargo.lock"))
    for name, text, times in (("walk", "entity 2", 9), ("threads", "60 turns", 1)):
        ran = run("cargo", "run", "-q", "--offline", "--example", name, cwd=room / "rust", env={**os.environ, "SIMCORE": str(prefix)})
        check(f"{name} in Rust", ran.returncode == 0 and ran.stdout.count(text) == times and not ran.stderr, (ran.returncode, ran.stderr[-600:]))


def played(match):
    """What `play` prints of a match, by level one, and the last state."""
    commands, (state, digest), lines = json.loads(match.data)["commands"], match.first(), []
    for turn in range(match.facts.turns + 1):
        if turn:
            state, digest = match.turn(state, [it[1:] for it in commands if it[0] == turn])
        lines.append(f"turn {turn} {digest}\n")
    return "".join(lines), bytes(state)


def try_game(core, path, lines, last):
    """The same match is played on by a handle, turn by turn, in all at once, and from the midst of it."""
    match, commands = core.match(path.read_bytes()), json.loads(path.read_bytes())["commands"]
    half, found = match.facts.turns // 2, []
    with Game(core, match.data) as game, Game(core, match.data) as own:
        for turn in range(match.facts.turns + 1):
            if turn:
                game.play([it[1:] for it in commands if it[0] == turn])
            if turn == half:
                midst = game.state().bytes
            found.append(f"turn {turn} {game.stamp().digest}\n")
        counts = [own.play_own(half), own.play_own(100000), own.play_own(1)]
        check(f"{path.name} is played alike by a game", "".join(found) == lines and game.state().bytes == last, found[-1:])
        check(f"{path.name} is played alike by its own turns", counts == [half, match.facts.turns - half, 0] and own.state() == game.state(), counts)
        check(f"{path.name} looks alike in a game", (game.show(), len(game.entities())) == (match.show(last), len(match.entities(last))))
    with Game(core, match.data, midst) as game:
        check(f"{path.name} is played alike from its midst", game.play_own(100000) == match.facts.turns - half and game.state().bytes == last)


def try_match(core, program, path, room):
    """A match is played, stored and shown alike by the library and by the program, or refused alike."""
    by_program, data = run(program, "play", path).stdout, path.read_bytes()
    try:
        match = core.match(data)
    except simcore.Refused as refused:
        check(f"{path.name} is refused alike", by_program == f"match refused {refused.code} {refused.index}\n", by_program)
        return
    lines, state = played(match)
    check(f"{path.name} is played alike", by_program == lines, (by_program[-200:], lines[-200:]))
    stored = room / f"{path.stem}.state"
    run(program, "state", path, match.facts.turns, stored)
    check(f"{path.name} has the same bytes", stored.is_file() and stored.read_bytes() == state)
    shown = match.show(state)
    check(f"{path.name} is shown alike", run(program, "show", path, stored).stdout == shown)
    check(f"{path.name} has its entities", [it.id for it in match.entities(state)] == [int(it) for it in re.findall(r"^entity (\d+)", shown, re.M)])
    check(f"{path.name} has the turn of its end", match.digest(state)[1] == match.facts.turns)
    try_game(core, path, lines, state)


def is_match(path):
    """Whether a file of the examples is one of a match, be it refused."""
    told = json.loads(path.read_text(encoding="utf-8"))
    return isinstance(told, dict) and "templates" in told


def make_matches(room):
    """Matches of two to four armies, by tools/new_match, with some orders behind the first turn."""
    chance = random.Random(5)
    for number in range(12):
        path = room / f"new-{number}.json"
        run(sys.executable, TOP / "tools/new_match", "--size", 24, 20, "--players", 2 + number % 3, "--units", f"soldier:{3 + number}", "--units",
            "archer:2", "--turns", 60, "--seed", number, "-o", path)
        match = json.loads(path.read_text(encoding="utf-8"))
        for turn in sorted(chance.randrange(2, 60) for _ in range(12)):
            ids, place = [chance.randrange(2, 40) for _ in range(3)], [f"{chance.randrange(24)}.5", chance.randrange(20)]
            order = chance.choice([["walk", ids, *place], ["stop", ids], ["attack", ids, chance.randrange(2, 30)], ["delete", ids[:1]]])
            match["commands"].append([turn, chance.randrange(1, 3), *order])
        path.write_text(json.dumps(match), encoding="utf-8")
        yield path


def try_matches(core, program, room):
    """The matches of the examples, and some that are made here."""
    for path in [*filter(is_match, sorted(TOP.glob("examples/*.json"))), *make_matches(room)]:
        try_match(core, program, path, room)


def make_steps(chance, players, count):
    """Random steps of clients, most of which carry frames and play."""
    def step():
        client, what = chance.randint(1, players), chance.choice(["up"] * 6 + ["down"] * 8 + ["play"] * 4 + ["order"] * 2 + ["join", "join", "cut", "bend"])
        ids = [chance.randrange(2, 20) for _ in range(3)]
        return [what, client] + {"bend": [chance.randrange(2, 20), chance.randrange(60)],
                                 "order": chance.choice([["walk", ids, f"{chance.randrange(24)}.5", chance.randrange(20)], ["stop", ids], ["delete", ids[:1]],
                                                         ["attack", ids, chance.randrange(2, 20)]])}.get(what, [])

    calm = [[what, client] for _ in range(count // 40) for what in ("up", "down", "down", "play") for client in range(1, players + 1)]
    return [step() for _ in range(count // 2)] + calm + [step() for _ in range(count // 2)]


def make_sessions(room):
    """Sessions of the examples, and some that are made here, in a folder of their own."""
    chance, folder = random.Random(8), room / "sessions"
    folder.mkdir()
    for steps in TOP.glob("examples/*-steps.json"):
        for path in (steps, steps.with_name(steps.name.replace("-steps", ""))):
            shutil.copy(path, folder)
    for number, path in enumerate(make_matches(room)):
        match = json.loads(path.read_text(encoding="utf-8"))
        match |= {"commands": [], "delay": 1 + number % 3}
        players = len(match["players"])
        (folder / path.name).write_text(json.dumps(match), encoding="utf-8")
        steps = {"clients": chance.randint(1, players), "steps": make_steps(chance, players, 400)}
        (folder / f"{path.stem}-steps.json").write_text(json.dumps(steps), encoding="utf-8")
    return folder


def try_sessions(prefix, program, room):
    """Sessions by clients and servers that are held have the text of the program's."""
    folder = make_sessions(room)
    ran = run(sys.executable, TOP / "tests/embed/sessions.py", prefix / "lib/libsimcore.so", program, folder)
    wanted = f"{len(list(folder.glob('*-steps.json')))} passed, 0 failed\n"
    check("sessions by the library", ran.stdout == wanted, (ran.stdout[-600:], ran.stderr[-600:], wanted))


def try_command(core, program, room, words, files):
    """A command ends, prints and stores alike in the library and as the program; what came of it in the library."""
    with tempfile.TemporaryDirectory(dir=room) as name:
        folder = pathlib.Path(name)
        for file, data in files.items():
            (folder / file).write_bytes(data)
        by_program = run(program, *words, cwd=folder)
        stores = by_program.returncode != 2 and words[0] in STORES and (folder / words[-1]).is_file()
        stored = (folder / words[-1]).read_bytes() if stores else b""
    ran = core.run(*words, files=files)
    wanted = simcore.Ran(by_program.returncode, by_program.stdout.encode(), stored)
    check(f"{' '.join(words)} ends alike", ran.status == wanted.status, (ran.status, wanted.status))
    check(f"{' '.join(words)} prints alike", ran.text == wanted.text, (ran.text[-200:], wanted.text[-200:]))
    check(f"{' '.join(words)} stores alike", ran.out == wanted.out, (ran.out[:40], wanted.out[:40]))
    return ran


def try_commands_of(core, program, room, files):
    """Each command over a match, with what it stored for the ones behind."""
    def tried(*words):
        return try_command(core, program, room, words, files)

    turns = json.loads(files["match"]).get("turns", 0)
    for stores, turn in (("state", turns // 2), ("state", turns), ("sight", turns // 2), ("log", None)):
        name = f"{stores}-{turn}"
        out = tried(stores, "match", *[str(it) for it in (turn,) if it is not None], name).out
        files[name] = out
    half, last, seen, log = list(files)[-4:]
    for words in (["play"], ["resume", half], ["rejoin", turns // 2], ["show", half], ["compare", half, last], ["compare", half, half], ["parts"],
                  ["resight", half, seen], ["check", log], ["realm", turns], ["film", 3]):
        tried(words[0], "match", *map(str, words[1:]))
    if "steps" in files:
        files["released"] = tried("record", "match", "steps", "released").out
        tried("session", "match", "steps")
        tried("check", "match", "released")
    if "economy" in files:
        tried("stock", "match", "economy")


def files_of(path):
    """The files of an example by the names that the commands have here."""
    beside = {name: path.with_name(f"{path.stem}-{name}.json") for name in ("steps", "economy")}
    return {"match": path.read_bytes()} | {name: it.read_bytes() for name, it in beside.items() if it.is_file()}


def try_commands(core, program, room):
    """Each command over the examples, and some that are refused."""
    for path in filter(is_match, sorted(TOP.glob("examples/*.json"))):
        try_commands_of(core, program, room, files_of(path))
    files = files_of(TOP / "examples/squads.json") | {"list": (TOP / "examples/late-and-liar.json").read_bytes(), "none": b"{", "empty": b"",
                                                      "lies": (TOP / "examples/camp-lies.log").read_bytes(), "long": b" " * 16777217}
    for words in ("", "play", "dance match", "play nowhere", "play none", "play long", "serve list", "serve none", "serve empty", "trial 1 8 30",
                  "trial 1 8 300000000", "resume match none", "show match empty", "compare match none none", "session match none",
                  "record match none match", "stock match none", "check match none", "check match lies", "state match 99999 match",
                  "state none 1 lies", "state match 1 none", "state match -1 none", "sight match 99999 new", "resight match none none",
                  "log nowhere lies", "log match match", "film match 0", "realm match 1234567890", "play m\u00e4tch"):
        try_command(core, program, room, words.split(), files)
    check("a talk is no command of the library", core.run("live", "match", "2", files=files).status == 2)


def try_threads(core):
    """Eight threads play one match at once, and all have the digest of one alone."""
    match = core.match((TOP / "examples/squads.json").read_bytes())
    alone = played(match)
    with concurrent.futures.ThreadPoolExecutor(8) as pool:
        told = list(pool.map(lambda _: played(core.match(match.data)), range(16)))
    check("threads share nothing", told == [alone] * 16)

    def alone_held(_):
        with Game(core, match.data) as game, Client(core, match.data, 1, begins=True) as client, Server(core, match.data, 1) as server:
            client.join(), server.cut(1)
            return game.play_own(10), client.play(9), game.state().bytes

    with concurrent.futures.ThreadPoolExecutor(8) as pool:
        told = list(pool.map(alone_held, range(64)))
    check("handles share nothing", told == told[:1] * 64 and told[0][2] == alone[1])


def try_fuzz(prefix, room, seconds):
    """Random calls of both levels: no crash, no status beside the header's table, and what stands is what the header says."""
    matches = [*sorted(TOP.glob("examples/*.json")), *sorted(room.glob("new-*.json"))]
    with concurrent.futures.ThreadPoolExecutor(2) as pool:
        built = [it for it in pool.map(lambda it: build(prefix, room, "gcc", it), FUZZERS) if it]
        for it, ran in zip(built, pool.map(lambda it: run(it, seconds, 1, *matches), built)):
            check(f"{seconds} s of {it.name}", ran.returncode == 0 and "no crash" in ran.stdout, (ran.returncode, ran.stdout[-300:]))
            print(ran.stdout.replace("\n", "; ").strip("; "), flush=True)


def try_networked(prefix):
    """The networked match: one client is killed and comes back, one lags, one lies and is found."""
    ran = run(sys.executable, TOP / "examples/embed/networked.py", prefix / "lib/libsimcore.so")
    check("the networked match", ran.returncode == 0, (ran.returncode, ran.stdout, ran.stderr[-600:]))


def is_program(path):
    """Whether a file is a built program. The script ./simcore is none: it would prove one first, which takes an hour."""
    return path.is_file() and path.read_bytes()[:4] == b"\x7fELF"


def parts_of(prefix, program, room, seconds):
    """The parts by their names, each with what it needs and what it does."""
    core = simcore.Core(prefix / "lib/libsimcore.so")
    compilers = [] if any(map(is_there, COMPILERS)) else list(COMPILERS)
    return {"symbols": (["nm"], lambda: try_symbols(prefix)), "networked match": ([], lambda: try_networked(prefix)),
            "threads": ([], lambda: try_threads(core)), "matches": ([program], lambda: try_matches(core, program, room)),
            "sessions": ([program], lambda: try_sessions(prefix, program, room)), "commands": ([program], lambda: try_commands(core, program, room)),
            "hosts in C and C++": (compilers, lambda: try_hosts(prefix, room)), "pkg-config": (["gcc", "pkg-config"], lambda: try_pkg_config(prefix, room)),
            "Rust": (["cargo"], lambda: try_rust(prefix, room)), "fuzzer": (["gcc"], lambda: try_fuzz(prefix, room, seconds))}


def tell_needs(program):
    """A line for each thing that is needed, and whether it is there; what is not there."""
    found = {name: is_there(name) for name in (*COMPILERS, "nm", "valgrind", "cargo", "pkg-config")} | {program: is_program(program)}
    for name, there in found.items():
        print(f"{'found  ' if there else 'MISSING'} {'a built program at ' if name is program else ''}{name}", flush=True)
    return [name for name, there in found.items() if not there]


def try_all(parts, lacking):
    """All parts but those that lack something, until the time is over."""
    for name, (needs, part) in parts.items():
        lacks = [it for it in needs if it in lacking]
        if lacks:
            print(f"skipped {name}: there is no {lacks[0]}", flush=True)
            continue
        begun = time.monotonic()
        try:
            part()
        except OutOfTime as late:
            check(f"{name} in the time that there is", False, late)
            return
        print(f"{time.monotonic() - begun:6.1f} s {name}", flush=True)


def main(words):
    """Tries all of it."""
    parser = argparse.ArgumentParser(prog="embed.py")
    parser.add_argument("--seconds", type=int, default=10)
    parser.add_argument("--limit", type=int, default=120)
    parser.add_argument("prefix", nargs="?", default=TOP / "out/library")
    parser.add_argument("program", nargs="?", default=TOP / "crates/simcore/out/simcore")
    given = parser.parse_args(words)
    prefix, program = pathlib.Path(given.prefix).absolute(), pathlib.Path(given.program).absolute()
    if not (prefix / "lib/libsimcore.so").is_file():
        print(f"embed.py: no library stands below {prefix}; ./simcore --library {prefix} puts one there", file=sys.stderr)
        return 2
    limit = given.limit + max(given.seconds - 10, 0)
    TIME["end"] = time.monotonic() + limit - 5
    # A call of the library that does not end cannot be stopped, but this process can.
    faulthandler.dump_traceback_later(limit, exit=True)
    lacking = tell_needs(program)
    with tempfile.TemporaryDirectory() as room:
        try_all(parts_of(prefix, program, pathlib.Path(room), given.seconds), lacking)
    print(f"{FOUND['passed']} passed, {FOUND['failed']} failed")
    return 1 if FOUND["failed"] else 0


if __name__ == "__main__":
    sys.exit(main(sys.argv[1:]))
