#!/usr/bin/env python3
"""What an economy costs: `stock` beside `play` of the same match, in one where 4,096 huts stand and earn, and in one where a hut is
paid for in each turn, beside deeds.

Usage: python3 bench/stocks.py [PROGRAM [OTHER]]

PROGRAM is by default the one that ./simcore has built; with OTHER another program runs beside it, by turns, and must print the
same lines. It prints figures of processor time and of memory, and stops where a program fails. All prices can be paid, so both
words come to the same states, and their lines of turns must be the same. For reference: `stock` is to take at most 1.1 times what
`play` takes.
"""

import json
import pathlib
import resource
import sys
import tempfile

from runs import least_of

TOP = pathlib.Path(__file__).resolve().parent.parent
PROGRAMS = [pathlib.Path(word).resolve() for word in sys.argv[1:]] or [TOP / "crates/simcore/out/simcore"]
HUT = {"@name": "hut", "Health": {"Max": 50}, "Obstruct": {"Width": 2, "Depth": 2}}
PLAYERS, HUTS, DEALT, ROUNDS = 8, 4096, 500, 3


def spot(i):
    """The place of hut i: 64 by 64 huts, four metres apart."""
    return i % 64 * 4 + 2, i // 64 * 4 + 2


def match(standing, built, turns):
    """So many huts stand, and in each turn one more is built, by one player after another."""
    return {
        "size": [256, 256], "closed": [], "players": [[]] * PLAYERS, "cap": HUTS, "delay": 1, "turns": turns, "seed": 0,
        "templates": [HUT], "entities": [["hut", 1 + i % PLAYERS, *spot(i)] for i in range(standing)],
        "commands": [[1 + i, 1 + i % PLAYERS, "place", 0, *spot(standing + i)] for i in range(built)],
    }


def economy(turns):
    """Huts cost and earn; in each of the first turns one player gives the next one food, and exchanges metal."""
    deeds = [[turn, 1 + turn % 8, *deed] for turn in range(1, min(turns, DEALT) + 1)
             for deed in (["tribute", 1 + (turn + 1) % 8, 0, 7], ["barter", 1, 5])]
    return {"start": [[1000000, 1000000]] * PLAYERS, "prices": [["hut", 30, 10]], "income": [["hut", 2, 1]], "deeds": deeds}


def measure(folder, name, standing, built, turns):
    game, paid = pathlib.Path(folder) / "match.json", pathlib.Path(folder) / "economy.json"
    game.write_text(json.dumps(match(standing, built, turns)))
    paid.write_text(json.dumps(economy(turns)))
    (stock, told), (play, lines) = least_of(ROUNDS, PROGRAMS, ["stock", game, paid]), least_of(ROUNDS, PROGRAMS, ["play", game])
    assert told.startswith(lines), "a command was left out"
    print(f"{name}, {turns} turns")
    for program, to_stock, to_play in zip(PROGRAMS, stock, play):
        print(f"  stock {1e3 * to_stock:8.1f} ms, play {1e3 * to_play:8.1f} ms, {to_stock / to_play:.3f} times, by {program}")


def main():
    with tempfile.TemporaryDirectory() as folder:
        measure(folder, "4,096 huts stand", HUTS, 0, 300)
        measure(folder, "a hut is built in each turn", 64, 200, 200)
        measure(folder, "nobody is there", 0, 0, 20000)
    print(f"at most {resource.getrusage(resource.RUSAGE_CHILDREN).ru_maxrss / 1024:.1f} MB")


if __name__ == "__main__":
    main()
