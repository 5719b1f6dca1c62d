#!/usr/bin/env python3
"""What commands cost: in one turn each of eight players gives 64 commands of 256 ids each, over 4,096 rows.

Usage: python3 bench/orders.py [PROGRAM [BEFORE]]

PROGRAM is by default the one that ./simcore has built; with BEFORE an older program runs beside it, by turns, and must
print the same lines. Each figure is what the one turn costs above a match without these commands, by processor time. It
prints figures, and stops where a program fails. For reference: a plain Rust program takes a few milliseconds.
"""

import json
import pathlib
import sys
import tempfile

from runs import least_of

TOP = pathlib.Path(__file__).resolve().parent.parent
PROGRAMS = [pathlib.Path(word).resolve() for word in sys.argv[1:]] or [TOP / "crates/simcore/out/simcore"]
ROWS, PLAYERS, ROUNDS = 4096, 8, 3
# The rest of the commands with 256 ids of the player's own 512, which a player gives by turns. A walk or an attack is
# followed by a stop of the same ids, so that nobody asks a way.
KINDS = {
    "stop": [lambda ids: ["stop", ids]],
    "walk, stop": [lambda ids: ["walk", ids, 200, 200], lambda ids: ["stop", ids]],
    "attack, stop": [lambda ids: ["attack", ids, 1 + ROWS], lambda ids: ["stop", ids]],
    "delete": [lambda ids: ["delete", ids]],
}


def match(kinds):
    """Guards of eight players and a post of Gaia's, out of their sight; each player gives 64 commands in turn 1."""
    guard = {"@name": "guard", "Health": {"Max": 50}, "Motion": {"Speed": 5},
             "Attack": {"Hack": 1, "Range": 1, "Vision": 1, "Repeat": 9}}
    entities = [["guard", 1 + i % PLAYERS, i % 64, i // 64] for i in range(ROWS - 1)] + [["post", 0, 255, 255]]
    commands = []
    for player in range(1, PLAYERS + 1) if kinds else ():
        own = [2 + i for i in range(ROWS - 1) if 1 + i % PLAYERS == player]
        for at in range(64):
            first = at // len(kinds)
            commands.append([1, player, *kinds[at % len(kinds)](own[first:first + 256])])
    return {"size": [256, 256], "closed": [], "players": [[0]] * PLAYERS, "cap": ROWS, "delay": 1, "turns": 1, "seed": 0,
            "templates": [guard, {"@name": "post", "Health": {"Max": 50}}], "entities": entities, "commands": commands}


def turn_costs(path):
    """The least seconds of turn 1 by each program, what comes before it left out."""
    before, after = (least_of(ROUNDS, PROGRAMS, ["state", path, turn, "/dev/null"])[0] for turn in "01")
    return [late - early for early, late in zip(before, after)]


def main():
    with tempfile.TemporaryDirectory() as folder:
        path = pathlib.Path(folder) / "match.json"
        path.write_text(json.dumps(match([])))
        idle = turn_costs(path)
        print("no command          " + "".join(f"{1e3 * took:9.2f} ms" for took in idle))
        for name, kinds in KINDS.items():
            path.write_text(json.dumps(match(kinds)))
            costs = turn_costs(path)
            print(f"512 of {name:<13}" + "".join(f"{1e3 * took:9.2f} ms" for took in costs), flush=True)


if __name__ == "__main__":
    main()
