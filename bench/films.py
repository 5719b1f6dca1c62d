#!/usr/bin/env python3
"""What a film costs: `film` of each turn and of each tenth beside `play`, of soldiers who walk about in peace over 200 turns; and how
it grows with their number.

Usage: python3 bench/films.py [PROGRAM [OTHER]]

PROGRAM is by default the one that ./simcore has built; with OTHER another program runs beside it, by turns, and must print the same
lines. It prints figures of processor time, and stops where a program fails. `play` makes the digest of each turn, and
`film` that of those which it tells.
"""

import json
import pathlib
import tempfile

import sights
from runs import least_of

ROUNDS = 3


def measure(folder, soldiers):
    """One match, by each program."""
    path = pathlib.Path(folder) / "match.json"
    path.write_text(json.dumps(sights.match(soldiers, False)))
    play, _ = least_of(ROUNDS, sights.PROGRAMS, ["play", path])
    print(f"{soldiers} soldiers in peace, {sights.TURNS} turns:")
    for program, seconds in zip(sights.PROGRAMS, play):
        print(f"  play {1e3 * seconds:8.1f} ms, by {program}")
    for every in (1, 10, 100):
        film, text = least_of(ROUNDS, sights.PROGRAMS, ["film", path, str(every)])
        for program, seconds in zip(sights.PROGRAMS, film):
            print(f"  film {every:3} {1e3 * seconds:8.1f} ms for {len(text) / 1e6:.1f} MB, by {program}")


def main():
    with tempfile.TemporaryDirectory() as folder:
        for soldiers in (500, 1000, 4096):
            measure(folder, soldiers)


if __name__ == "__main__":
    main()
