#!/usr/bin/env python3
"""What a turn costs through the library for C, beside the program's own: three posts on a small and a large ground, 200 soldiers
who fight, and 4,096 walkers who stand.

Usage: python3 bench/embed.py [PREFIX [PROGRAM]]

PREFIX is the folder of `./simcore --library`, by default out/library, and PROGRAM by default the one that ./simcore has built. Level one
keeps nothing, so each of its turns reads the match, loads the old state, builds the four systems anew, plays, and spells the new state. A
game that is held spares the reading, loading and spelling, and builds the systems once a call. A client besides says and hears what belongs
to a turn; its server is in the figure. A turn of `play` only plays, spells and digests. Figures are of processor time, the least of some runs;
all must come to the same digest. The last line is of the networked match of examples/embed: a server and four clients in one process, over
TCP on the loopback, with no sleep, and the share of the time in which a call of the library ran.
"""

import asyncio
import contextlib
import io
import json
import pathlib
import subprocess
import sys
import tempfile
import time

from battles import SOLDIER
from runs import least_of

TOP = pathlib.Path(__file__).resolve().parent.parent
PREFIX = pathlib.Path(sys.argv[1] if len(sys.argv) > 1 else TOP / "out/library").resolve()
PROGRAM = pathlib.Path(sys.argv[2] if len(sys.argv) > 2 else TOP / "crates/simcore/out/simcore").resolve()
ROUNDS = 3
sys.path.insert(0, str(TOP / "examples/embed"))
import handles  # noqa: E402
import lockstep  # noqa: E402
from simcore import Core  # noqa: E402


def match(turns, side, templates, entities):
    """A match of two enemies on a ground that is so many cells wide and deep."""
    return {"size": [side, side], "closed": [], "players": [[2], [1]], "cap": 4096, "delay": 1, "turns": turns, "seed": 7, "templates": templates,
            "entities": entities, "commands": []}


POST, WALKER = {"@name": "soldier", "Health": {"Max": 50}}, {"@name": "soldier", "Health": {"Max": 50}, "Motion": {"Speed": 9}}
POSTS = [["soldier", 1, i, i] for i in range(3)]
# How many turns the library plays, how many the program, and the match.
CASES = {"three posts on 32 by 32 cells": (500, 20_000, 32, [POST], POSTS), "three posts on 256 by 256": (100, 20_000, 256, [POST], POSTS),
         "200 soldiers who fight": (60, 400, 256, [SOLDIER], [["soldier", 1 + i % 2, 100 + i % 20, 100 + i // 20 * 2] for i in range(200)]),
         "4,096 walkers who stand": (6, 200, 256, [WALKER], [["soldier", 1 + i % 2, i % 64 * 2, i // 64 * 2] for i in range(4096)])}


def by_program(folder, few, many, case):
    """The seconds of a turn of `play`, and the digest behind a few turns."""
    seconds, digests = [], []
    for count in (0, many, few):
        path = folder / f"{count}.json"
        path.write_text(json.dumps(match(count, *case)))
        least, text = least_of(ROUNDS, [PROGRAM], ["play", path])
        seconds.append(least[0])
        digests.append(text.split()[-1].decode())
    return (seconds[1] - seconds[0]) / many, digests[2]


async def networked(core):
    """The match of lockstep.py by a server and its clients in one process."""
    host = lockstep.Host(core)
    listening = await asyncio.start_server(host.serve, "127.0.0.1", 0)
    port = listening.sockets[0].getsockname()[1]
    await asyncio.gather(*(lockstep.Player(core, it, "").play(port) for it in range(1, lockstep.PLAYERS + 1)))
    assert host.server.released() == lockstep.TURNS


def tell_networked():
    """How many turns a second the networked match plays, and how much of that is the library's."""
    spent, step = [0.0], handles.Held.step

    def timed(*words, **how):
        begun = time.perf_counter()
        try:
            return step(*words, **how)
        finally:
            spent[0] += time.perf_counter() - begun

    handles.Held.step, core, begun = timed, Core(PREFIX / "lib/libsimcore.so"), time.perf_counter()
    with contextlib.redirect_stdout(io.StringIO()):
        asyncio.run(networked(core))
    whole = time.perf_counter() - begun
    print(f"networked: {lockstep.TURNS} turns of {lockstep.PLAYERS} clients in {whole:.2f} s, {lockstep.TURNS / whole:.0f} a second, of which the calls of "
          f"the library have {100 * spent[0] / whole:.0f}%")


def main():
    """Builds the host, and times all cases."""
    with tempfile.TemporaryDirectory() as folder:
        folder = pathlib.Path(folder)
        host = folder / "embed"
        subprocess.run(["gcc", "-O2", f"-I{PREFIX}/include", TOP / "bench/embed.c", PREFIX / "lib/libsimcore.a", "-o", host], check=True)
        for name, (few, many, *case) in CASES.items():
            own, wanted = by_program(folder, few, many, case)
            runs = [subprocess.run([host, folder / f"{few}.json", str(few)], capture_output=True, text=True, check=True).stdout.split()
                    for _ in range(ROUNDS)]
            assert {it[4] for it in runs} == {wanted}, f"{name}: the library has another digest than the program"
            one, game, many, client, nothing, refusing, asking = (min(float(it[place]) for it in runs) for place in (0, 1, 2, 3, 5, 6, 7))
            print(f"{name}: a turn of `play` {own * 1e6:.1f} us, through level one {one:.1f}, of a game {game:.1f}, of one that plays all at once "
                  f"{many:.1f}, of a client and its server {client:.1f}", flush=True)
        print(f"a call that does nothing {nothing:.1f} ns, one that refuses no bytes at all {refusing:.1f} ns, one that asks a handle {asking:.1f} ns")
        tell_networked()


if __name__ == "__main__":
    main()
