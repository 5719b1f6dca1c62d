"""A frame is what is drawn of one turn: the rows of a state in columns, and the digest that the program prints of it.

Columns, because a match of 4,096 units over 200 turns has 800,000 rows. Frames are read from the text of `film`, from
stored states and from the text of `show`.
"""

import re
from dataclasses import dataclass, field

from .faults import ToolFault
from .fixed import print_raw, read_raw

# What a row has, as bits of its column `flags`.
HEALTH, MOTION, GOING, WHOLE, ATTACK, HOLD = 1, 2, 4, 8, 16, 32
COLUMNS = ("template", "owner", "x", "z", "flags", "health", "goal_x", "goal_z", "target", "cooldown")


@dataclass
class Frame:
    """One turn. Each column has a number a row; `ways` has a tuple of raws a row, x and z in turn."""

    turn: int
    next: int
    word: int
    digest: str = ""
    ids: list = field(default_factory=list)
    columns: dict = field(default_factory=lambda: {name: [] for name in COLUMNS})
    ways: list = field(default_factory=list)

    def add(self, identity, *values, way=()):
        """Adds a row: its id, its columns in order, its way."""
        self.ids.append(identity)
        for column, value in zip(self.columns.values(), values, strict=True):
            column.append(value)
        self.ways.append(way)

    def row(self, place):
        """The columns of one row by name."""
        return {name: column[place] for name, column in self.columns.items()}


def shown_row(frame, place, names):
    """One row as `show` prints it."""
    row, way = frame.row(place), frame.ways[place]
    flags = row["flags"]
    text = f"entity {frame.ids[place]} template {names[row['template']]} owner {row['owner']}"
    text += f" at {print_raw(row['x'])} {print_raw(row['z'])}"
    if flags & HEALTH:
        text += f" health {print_raw(row['health'])}"
    if flags & GOING:
        goal = f"{print_raw(row['goal_x'])} {print_raw(row['goal_z'])}"
        text += f" motion going {goal} way {len(way) // 2} whole {1 if flags & WHOLE else 0}"
    elif flags & MOTION:
        text += " motion still"
    if flags & ATTACK:
        text += f" attack target {row['target']} cooldown {row['cooldown']}{' hold' if flags & HOLD else ''}"
    return text


_TURN = re.compile(r"turn (\d+) ([0-9a-f]{32})")
_HEAD = re.compile(r"turn (\d+) next (\d+) word (\d+) rows (\d+)")
_ROW = re.compile(r"entity (\d+) template (\S+) owner (\d+) at (\S+) (\S+)(?: health (\S+))?"
                  r"( motion still| motion going (\S+) (\S+) way \d+ whole ([01]))?(?: attack target (\d+) cooldown (\d+)( hold)?)?")
_WAY = re.compile(r"way (\d+)((?: \S+ \S+)+)")


class _Raws(dict):
    """The raws of printed numbers, each read once: most numbers of a match come often."""

    def __missing__(self, text):
        self[text] = raw = read_raw(text)
        return raw


class ShownText:
    """Reads the lines of `show` and of `film` into frames."""

    def __init__(self, names):
        self.numbers = {name: number for number, name in enumerate(names)}
        self.raw = _Raws().__getitem__

    def frames(self, lines):
        """Each frame of a text of `film`; lines may be any iterator, so that a long film needs no list."""
        frame, digest, places = None, "", {}
        for line in lines:
            line = line.rstrip("\n")
            if line.startswith("entity "):
                places[self._add_row(frame, line)] = len(places)
            elif line.startswith("way "):
                self._add_way(frame, line, places)
            elif found := _TURN.fullmatch(line):
                digest = found[2]
            elif found := _HEAD.fullmatch(line):
                if frame:
                    yield frame
                frame, places = Frame(int(found[1]), int(found[2]), int(found[3]), digest), {}
            else:
                raise ToolFault(f"the program prints a line that is not understood: {line[:100]}")
        if frame:
            yield frame

    def _add_row(self, frame, line):
        """Adds the row of a line to its frame, and answers its id."""
        found = _ROW.fullmatch(line)
        if found is None or frame is None:
            raise ToolFault(f"the program prints a row that is not understood: {line[:100]}")
        identity, name, owner, x, z, health, motion, goal_x, goal_z, whole, target, cooldown, hold = found.groups()
        flags = (HEALTH if health else 0) | (MOTION if motion else 0) | (GOING if goal_x else 0) | (WHOLE if whole == "1" else 0)
        flags |= (ATTACK if target else 0) | (HOLD if hold else 0)
        raw = self.raw
        frame.add(int(identity), self.numbers[name], int(owner), raw(x), raw(z), flags, raw(health) if health else 0,
                  raw(goal_x) if goal_x else 0, raw(goal_z) if goal_z else 0, int(target or 0), int(cooldown or 0))
        return int(identity)

    def _add_way(self, frame, line, places):
        found = _WAY.fullmatch(line)
        if found is None or int(found[1]) not in places:
            raise ToolFault(f"the program prints a way that is not understood: {line[:100]}")
        frame.ways[places[int(found[1])]] = tuple(map(self.raw, found[2].split()))
