#!/usr/bin/env python3
"""Stands for the program in a test: it answers `film` and `parts` with 4,096 units that walk on ways and fight, and no other word.

Usage: film_stand_in.py film MATCH EVERY, or film_stand_in.py parts MATCH. MATCH has the turns and the size.
"""

import json
import sys

UNITS, CELLS = 4096, 256
HEAD = "turn {0} {1:032x}\nturn {0} next {2} word {1} rows {3}\n"
ROW = "entity {} template soldier owner {} at {} {} health {} motion going {} {} way {} whole 1 attack target {} cooldown {}\n"


def point(raw):
    """A coordinate as the program prints it."""
    whole, part = divmod(raw, 65536)
    return f"{whole}.{-(-part * 100000 // 65536):05d}" if part else f"{whole}"


def unit(number, turn):
    """The place, the way and the row of a unit: it walks to and fro along its row of cells, 1.8 metres a turn."""
    row, start = divmod(number, 16)
    step = (start * 16 * 65536 + turn * 117964) % (2 * 240 * 65536)
    east = step < 240 * 65536
    x = step if east else 2 * 240 * 65536 - step
    cell = x // 65536
    cells = range(cell + 1, min(cell + 9, 241)) if east else range(cell - 1, max(cell - 9, -1), -1)
    return x, row, [f"{it}.50000 {row}.50000" for it in cells if it < 256]


def print_turn(turn, out):
    """The lines of one turn: the oldest units fall, one a turn."""
    rows = range(turn, UNITS)
    out.write(HEAD.format(turn, turn * 7919 % (1 << 48), UNITS + 2, len(rows)))
    ways = []
    for number in rows:
        x, row, way = unit(number, turn)
        goal = way[-1] if way else f"{point(x)} {row}.50000"
        target = 2 + (number ^ 1) if number ^ 1 >= turn and turn % 3 else 0
        out.write(ROW.format(number + 2, 1 + number % 2, point(x), f"{row}.50000", 100 - (number * 7 + turn) % 90, *goal.split(),
                             len(way), target, (turn + number) % 5))
        if way:
            ways.append(f"way {number + 2} {' '.join(way)}\n")
    out.write("".join(ways))


def main(words):
    """Answers the words."""
    if words[:1] == ["parts"]:
        print("template 0 soldier health 100 resist 2 1 0 speed 9 attack 4.50000 2 0 range 3 vision 20 repeat 4 accuracy 90")
    elif words[:1] == ["film"]:
        with open(words[1], encoding="utf-8") as file:
            turns = json.load(file)["turns"]
        for turn in range(turns + 1):
            if turn % int(words[2]) == 0 or turn == turns:
                print_turn(turn, sys.stdout)
    else:
        print("usage: film_stand_in film MATCH EVERY")
        return 2
    return 0


if __name__ == "__main__":
    sys.exit(main(sys.argv[1:]))
