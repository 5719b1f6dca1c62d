"""Frames as a short text for a page: numbers as differences, differences in as few bytes as they need, deflated, in base64.

A chunk is some frames in a row that are read together. Its first frame is told by itself and every other by what changed.
Of a frame stand, each a list of numbers: the number of its rows; its ids, each less the one before; each column of
frames.COLUMNS, less that of the same entity one frame before, or 0 where it is new; a code for each way; the points of new
ways. A way's code is twice the number of points that were walked where it is what is left of the way before, and else twice
the number of its points and one more. The points of a new way are told each less the one before, the first less the entity's
own. A number n is told as 2n, or -2n - 1 where it is negative, in groups of seven bits, the least first.
page/unpack.js reads it.
"""

import base64
import zlib

from .frames import COLUMNS

MOST_ROWS = 65536


def pack_numbers(numbers):
    """A list of whole numbers as bytes."""
    twice = [2 * it if it >= 0 else -2 * it - 1 for it in numbers]
    if not twice or max(twice) < 128:
        return bytes(twice)
    made = bytearray()
    for it in twice:
        while it >= 128:
            made.append(it & 127 | 128)
            it >>= 7
        made.append(it)
    return bytes(made)


def differences(numbers):
    """Each number less the one before."""
    return [it - before for before, it in zip([0, *numbers], numbers)]


def way_code(way, before, start):
    """A way's code and its points, where they are told: what is left of the way before costs no point."""
    walked = len(before) - len(way)
    if walked >= 0 and before[walked:] == way:
        return walked, []
    points = [*differences([start[0], *way[0::2]])[1:], *differences([start[1], *way[1::2]])[1:]]
    return len(way) + 1, points


class Packer:
    """Packs the frames of a chunk, one after the other."""

    def __init__(self):
        self.parts = []
        self.before = None
        self.rows = 0

    def add(self, frame):
        """Adds a frame."""
        places = self._places(frame)
        self.parts.append(pack_numbers([len(frame.ids)]))
        self.parts.append(pack_numbers(differences(frame.ids)))
        for name in COLUMNS:
            self.parts.append(pack_numbers(self._column(frame, name, places)))
        self._add_ways(frame, places)
        self.before, self.rows = frame, self.rows + len(frame.ids)

    def _places(self, frame):
        """For each row its place in the frame before, or None where it is new; for equal ids no list at all."""
        if self.before is None:
            return [None] * len(frame.ids)
        if self.before.ids == frame.ids:
            return range(len(frame.ids))
        known = {identity: place for place, identity in enumerate(self.before.ids)}
        return [known.get(identity) for identity in frame.ids]

    def _column(self, frame, name, places):
        now = frame.columns[name]
        if self.before is None:
            return now
        then = self.before.columns[name]
        if isinstance(places, range):
            return [it - old for it, old in zip(now, then)]
        return [it - (0 if place is None else then[place]) for it, place in zip(now, places)]

    def _add_ways(self, frame, places):
        codes, points = [], []
        starts = zip(frame.columns["x"], frame.columns["z"])
        for way, place, start in zip(frame.ways, places, starts):
            before = () if place is None else self.before.ways[place]
            code, told = way_code(way, before, start)
            codes.append(code)
            points += told
        self.parts += [pack_numbers(codes), pack_numbers(points)]

    def text(self):
        """The chunk as base64."""
        return base64.b64encode(zlib.compress(b"".join(self.parts), 6)).decode("ascii")


def pack(frames):
    """The heads of all frames, and the chunks that hold their rows: each the place of its first frame and its text."""
    heads, chunks = [], []
    packer, first = Packer(), 0
    for place, frame in enumerate(frames):
        if packer.rows and packer.rows + len(frame.ids) > MOST_ROWS:
            chunks.append((first, packer.text()))
            packer, first = Packer(), place
        packer.add(frame)
        heads.append([frame.turn, frame.digest, frame.next, str(frame.word), len(frame.ids)])
    if heads:
        chunks.append((first, packer.text()))
    return heads, chunks
