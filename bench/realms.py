#!/usr/bin/env python3
"""What territories cost: `realm` beside `state` of the same turn, in a match where a hall is built in each turn, in one where
4,096 halls stand and nothing changes, and at turn 0, where all are met at once; and how that grows with their number.

Usage: python3 bench/realms.py [PROGRAM [OTHER]]

PROGRAM is by default the one that ./simcore has built; with OTHER another program runs beside it, by turns, and must print the
same lines. It prints figures of processor time and of memory, and stops where a program fails. What territories cost is the
difference to `state`.
"""

import json
import pathlib
import sys
import tempfile

from runs import least_of, peak_of

TOP = pathlib.Path(__file__).resolve().parent.parent
PROGRAMS = [pathlib.Path(word).resolve() for word in sys.argv[1:]] or [TOP / "crates/simcore/out/simcore"]
HALL = {"@name": "hall", "Obstruct": {"Width": 2, "Depth": 2}, "Train": {"Units": "hall"}}
PLAYERS, HALLS, ROUNDS = 8, 4096, 3


def spot(i):
    """The place of hall i: 64 by 64 halls, four metres apart."""
    return i % 64 * 4 + 2, i // 64 * 4 + 2


def match(standing, built):
    """So many halls stand, and in each turn one more is built, by one player after another."""
    return {
        "size": [256, 256], "closed": [], "players": [[]] * PLAYERS, "cap": HALLS, "delay": 1, "turns": max(built, 2000), "seed": 0,
        "templates": [HALL], "entities": [["hall", 1 + i * 5 % PLAYERS, *spot(i)] for i in range(standing)],
        "commands": [[1 + i, 1 + i * 5 % PLAYERS, "place", 0, *spot(standing + i)] for i in range(built)],
    }


def told(path, words):
    """The least seconds of each program, and the text."""
    return least_of(ROUNDS, PROGRAMS, [words[0], path, *words[1:]])


def measure(folder, name, standing, built, turn):
    """One match, by each program, to a turn."""
    path = pathlib.Path(folder) / "match.json"
    path.write_text(json.dumps(match(standing, built)))
    (realm, text), (state, _) = told(path, ["realm", str(turn)]), told(path, ["state", str(turn), "/dev/null"])
    held = [int(line.split()[3]) for line in text.decode().splitlines()[:PLAYERS]]
    print(f"{name}: turn {turn}, {sum(held)} cells are held")
    for program, to_realm, to_state in zip(PROGRAMS, realm, state):
        peak, cost = peak_of(program, ["realm", path, str(turn)]), 1e3 * (to_realm - to_state)
        print(f"  realm {1e3 * to_realm:8.1f} ms, state {1e3 * to_state:8.1f} ms: territories {cost:8.1f} ms,",
              f"{peak:.1f} MB, by {program}", flush=True)


def main():
    with tempfile.TemporaryDirectory() as folder:
        measure(folder, "a hall in each turn", 64, 2000, 2000)
        measure(folder, "4,096 halls stand", HALLS, 0, 2000)
        for halls in (500, 1000, 2000, HALLS):
            measure(folder, f"{halls} halls are met at once", halls, 0, 0)


if __name__ == "__main__":
    main()
