"""A PNG as a grid of colours, and how many patches of one colour lie on it: enough to look at a picture in a test."""

import struct
import zlib


def read_png(data):
    """Width, height and the rows of an 8-bit RGB or RGBA picture, each row a list of (r, g, b)."""
    at, packed, head = 8, b"", None
    while at < len(data):
        length, kind = struct.unpack_from(">I4s", data, at)
        body = data[at + 8:at + 8 + length]
        head = struct.unpack(">IIBBBBB", body) if kind == b"IHDR" else head
        packed += body if kind == b"IDAT" else b""
        at += 12 + length
    width, height, _, colour = head[:4]
    rows = _lines(zlib.decompress(packed), width, height, 4 if colour == 6 else 3)
    return width, height, rows


def _lines(raw, width, height, size):
    rows, before, at = [], bytes(width * size), 0
    for _ in range(height):
        line = _unfiltered(raw[at], bytearray(raw[at + 1:at + 1 + width * size]), before, size)
        at += 1 + width * size
        rows.append([tuple(line[place:place + 3]) for place in range(0, width * size, size)])
        before = line
    return rows


def _unfiltered(kind, line, before, size):
    """A line of bytes without its filter."""
    if kind == 2:
        return bytearray((it + above) & 255 for it, above in zip(line, before))
    for place in range(len(line)) if kind else ():
        left = line[place - size] if place >= size else 0
        if kind == 1:
            line[place] = (line[place] + left) & 255
            continue
        corner = before[place - size] if place >= size else 0
        guess = (left + before[place]) // 2 if kind == 3 else _nearest(left, before[place], corner)
        line[place] = (line[place] + guess) & 255
    return line


def _nearest(left, above, corner):
    guess = left + above - corner
    return min((left, above, corner), key=lambda it: abs(guess - it))


def patches(rows, colour, least=6, box=None):
    """How many connected patches of at least so many pixels of just that colour lie within a box (x0, y0, x1, y1)."""
    x0, y0, x1, y1 = box or (0, 0, len(rows[0]), len(rows))
    todo = {(x, y) for y in range(y0, y1) for x in range(x0, x1) if rows[y][x] == colour}
    count = 0
    while todo:
        count += _take_patch(todo) >= least
    return count


def _take_patch(todo):
    """Takes one patch out of a set of pixels, and answers its size."""
    edge, size = [todo.pop()], 0
    while edge:
        x, y = edge.pop()
        size += 1
        for near in ((x + 1, y), (x - 1, y), (x, y + 1), (x, y - 1)):
            if near in todo:
                todo.remove(near)
                edge.append(near)
    return size


def colour_of(text):
    """The colour of a text as #2166d1."""
    return tuple(bytes.fromhex(text.lstrip("#")))
