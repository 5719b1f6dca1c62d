"""A stored state, read from its bytes by the table of docs/FORMATS.md section 5, versions 1 and 2.

It asks only what is needed to read on; whether the state is a valid one of its match is the program's to say. The tools
read it for the points of the ways, which `show` does not print, and to name the place at which bytes can't be read.
"""

import struct
from dataclasses import dataclass

from .frames import ATTACK, COLUMNS, GOING, HEALTH, HOLD, MOTION, WHOLE, Frame

MAGIC = b"RSIM"
HEAD = 40
SECTIONS = {1: "Entity", 2: "Position", 3: "Owner", 4: "Health", 5: "Motion", 6: "Attack", 7: "Stance"}
# The fields of a row behind its id, by the tag of its section.
FIELDS = {1: "H", 2: "ii", 3: "B", 4: "i", 5: "BiiBB", 6: "IH", 7: "B"}


class StoredFault(Exception):
    """Bytes that are no stored state, with the offset at which that is seen."""

    def __init__(self, offset, why):
        super().__init__(why)
        self.offset, self.why = offset, why


@dataclass
class Stored:
    """A stored state: its head, and of each section the fields of its rows by id, in their order."""

    version: int
    identity: bytes
    turn: int
    next: int
    word: int
    sections: dict
    offsets: dict


class _Bytes:
    """Bytes that are taken from the front."""

    def __init__(self, data):
        self.data, self.at = data, 0

    def take(self, form, what):
        """The next fields of a struct form."""
        size = struct.calcsize("<" + form)
        if self.at + size > len(self.data):
            raise StoredFault(self.at, f"the bytes end in {what}")
        found = struct.unpack_from("<" + form, self.data, self.at)
        self.at += size
        return found


def read_stored(data):
    """The stored state of these bytes."""
    rest = _Bytes(data)
    magic, version, identity, turn, next_id, word = rest.take("4sI16sIIQ", "the first 40 bytes")
    if magic != MAGIC or version not in (1, 2):
        raise StoredFault(0, "the bytes do not begin with RSIM and a version 1 or 2")
    stored = Stored(version, identity, turn, next_id, word, {}, {})
    for tag in range(1, 7 if version == 1 else 8):
        _read_section(rest, tag, stored)
    if rest.at != len(data):
        raise StoredFault(rest.at, f"{len(data) - rest.at} bytes follow the last section")
    return stored


def _read_section(rest, tag, stored):
    name, start = SECTIONS[tag], rest.at
    found, count = rest.take("BI", f"the head of the section {name}")
    if found != tag:
        raise StoredFault(start, f"the section {name} is to begin with tag {tag}, and here stands {found}")
    rows, stored.offsets[tag] = {}, {}
    last = -1
    for _ in range(count):
        offset = rest.at
        (identity,) = rest.take("I", f"a row of the section {name}")
        if identity <= last:
            raise StoredFault(offset, f"entity {identity} of the section {name} does not ascend: {last} stands before it")
        last = identity
        rows[identity], stored.offsets[tag][identity] = _read_row(rest, tag, identity), offset
    stored.sections[tag] = rows


def _read_row(rest, tag, identity):
    what = f"the row of entity {identity} in the section {SECTIONS[tag]}"
    fields = rest.take(FIELDS[tag], what)
    if tag != 5:
        return fields
    return (*fields, rest.take(f"{2 * fields[4]}i", f"the way of entity {identity}"))


def frame_of(stored, digest=""):
    """The frame that is drawn of a stored state."""
    frame = Frame(stored.turn, stored.next, stored.word, digest)
    for identity, (template,) in stored.sections[1].items():
        x, z = stored.sections[2].get(identity, (0, 0))
        (owner,) = stored.sections[3].get(identity, (0,))
        values = dict.fromkeys(COLUMNS, 0) | {"template": template, "owner": owner, "x": x, "z": z}
        way = _put_parts(stored, identity, values)
        frame.add(identity, *values.values(), way=way)
    return frame


def _put_parts(stored, identity, values):
    """Puts health, motion and attack of a row into its columns, and answers its way."""
    way = ()
    if found := stored.sections[4].get(identity):
        values["health"], values["flags"] = found[0], HEALTH
    if found := stored.sections[5].get(identity):
        mode, values["goal_x"], values["goal_z"], whole, _, way = found
        values["flags"] |= MOTION | (GOING if mode else 0) | (WHOLE if whole else 0)
    if found := stored.sections[6].get(identity):
        values["target"], values["cooldown"] = found
        (hold,) = stored.sections.get(7, {}).get(identity, (0,))
        values["flags"] |= ATTACK | (HOLD if hold else 0)
    return way
