#!/usr/bin/env python3
"""What vision costs: `sight` beside `state` and `play` of the same match, of soldiers who walk about in peace and of as many at war,
over 200 turns; and how it grows with their number.

Usage: python3 bench/sights.py [PROGRAM [OTHER]]

PROGRAM is by default the one that ./simcore has built; with OTHER another program runs beside it, by turns, and must print the same
lines. It prints figures of processor time and of memory, and stops where a program fails. `play` makes a digest of each turn, and
`state` of the last one alone, as `sight` makes none: what vision costs is the difference to `state`.
"""

import json
import pathlib
import sys
import tempfile

from runs import least_of, peak_of

TOP = pathlib.Path(__file__).resolve().parent.parent
PROGRAMS = [pathlib.Path(word).resolve() for word in sys.argv[1:]] or [TOP / "crates/simcore/out/simcore"]
SOLDIER = {"@name": "soldier", "Health": {"Max": 100}, "Motion": {"Speed": 9},
           "Attack": {"Hack": "4.5", "Pierce": 2, "Range": 3, "Vision": 20, "Repeat": 4, "Accuracy": 90}}
PLAYERS, TURNS, ROUNDS = 8, 200, 3


def spot(i):
    """The place of soldier i: rows of 64, four metres apart, from the south up."""
    return i % 64 * 4 + 2, i // 64 * 4 + 2


def walks(soldiers):
    """Each player sends his soldiers, in groups of at most 256, to one place and then to another."""
    for turn, goal in ((1, 64), (TURNS // 2, 192)):
        for player in range(1, PLAYERS + 1):
            own = [2 + i for i in range(soldiers) if 1 + i % PLAYERS == player]
            for start in range(0, len(own), 256):
                yield [turn, player, "walk", own[start:start + 256], 256 - goal, 16 + 28 * player]


def match(soldiers, enemies):
    """So many soldiers of eight players, who are all enemies of one another or none."""
    return {
        "size": [256, 256], "closed": [], "cap": 4096, "delay": 1, "turns": TURNS, "seed": 7, "templates": [SOLDIER],
        "players": [[other for other in range(1, PLAYERS + 1) if enemies and other != player] for player in range(1, PLAYERS + 1)],
        "entities": [["soldier", 1 + i % PLAYERS, *spot(i)] for i in range(soldiers)], "commands": list(walks(soldiers)),
    }


def measure(folder, name, soldiers, enemies):
    """One match, by each program."""
    path = pathlib.Path(folder) / "match.json"
    path.write_text(json.dumps(match(soldiers, enemies)))
    sight, text = least_of(ROUNDS, PROGRAMS, ["sight", path, str(TURNS), "/dev/null"])
    state, _ = least_of(ROUNDS, PROGRAMS, ["state", path, str(TURNS), "/dev/null"])
    play, _ = least_of(ROUNDS, PROGRAMS, ["play", path])
    explored = sum(int(line.split()[-1]) for line in text.decode().splitlines())
    print(f"{name}, {soldiers} soldiers: {explored} cells are explored in {TURNS} turns")
    for program, *seconds in zip(PROGRAMS, sight, state, play):
        seen, stored, played = (1e3 * it for it in seconds)
        peak = peak_of(program, ["sight", path, str(TURNS), "/dev/null"])
        print(f"  sight {seen:8.1f} ms, state {stored:8.1f} ms, play {played:8.1f} ms: vision {seen - stored:8.1f} ms,",
              f"{peak:.1f} MB, by {program}", flush=True)


def main():
    with tempfile.TemporaryDirectory() as folder:
        measure(folder, "at war", 4096, True)
        for soldiers in (500, 1000, 2000, 4096):
            measure(folder, "in peace", soldiers, False)


if __name__ == "__main__":
    main()
