"""JSON with the place of every value in its text, read as the program reads it (docs/FORMATS.md section 2).

It differs from Python's reader where the program does: nesting stops at 127, a number is whole only where it is written so, a
lone surrogate and a number past the largest float are refused, and of a key that comes twice the last one counts.
"""

import re
from dataclasses import dataclass

MOST_NESTING = 127
_SPACE = re.compile(r"[ \t\n\r]*")
_NUMBER = re.compile(r"(-?(?:0|[1-9][0-9]*))(\.[0-9]+)?([eE][+-]?[0-9]+)?")
_PLAIN = re.compile(r'[^"\\\x00-\x1f]*')
_UNIT = re.compile(r"\\u([0-9a-fA-F]{4})")
_ESCAPES = {'"': '"', "\\": "\\", "/": "/", "b": "\b", "f": "\f", "n": "\n", "r": "\r", "t": "\t"}
_WORDS = {"true": True, "false": False, "null": None}


class JsonFault(Exception):
    """A text that is no JSON, with the place at which that is seen."""

    def __init__(self, at, why):
        super().__init__(why)
        self.at, self.why = at, why


@dataclass
class Placed:
    """A value, the places at which it begins and ends, and its items or members with their own."""

    value: object
    start: int
    end: int
    inner: object = None

    def __getitem__(self, key):
        return self.inner[key]


def line_of(text, at):
    """The line and the column of a place, both counted from 1."""
    line = text.count("\n", 0, at) + 1
    return line, at - (text.rfind("\n", 0, at) + 1) + 1


class _Reader:
    def __init__(self, text):
        self.text, self.at = text, 0

    def skip(self):
        """Steps over spaces."""
        self.at = _SPACE.match(self.text, self.at).end()

    def peek(self):
        """The letter that stands next, or nothing at the end."""
        self.skip()
        return self.text[self.at:self.at + 1]

    def expect(self, letter):
        """Steps over a letter that must stand next."""
        if self.peek() != letter:
            raise JsonFault(self.at, f"here should stand {letter}")
        self.at += 1

    def value(self, depth=0):
        """The value that stands next."""
        letter = self.peek()
        if letter in ("{", "["):
            if depth == MOST_NESTING:
                raise JsonFault(self.at, f"lists and objects nest more than {MOST_NESTING} deep")
            return self.object(depth) if letter == "{" else self.list(depth)
        start = self.at
        if letter == '"':
            found = self.string()
        elif letter and letter in "-0123456789":
            found = self.number()
        else:
            found = self.word()
        return Placed(found, start, self.at)

    def word(self):
        """true, false or null."""
        for word, value in _WORDS.items():
            if self.text.startswith(word, self.at):
                self.at += len(word)
                return value
        raise JsonFault(self.at, "here should stand a value" if self.at < len(self.text) else "the text ends where a value should stand")

    def number(self):
        """A number: whole where it is written so and fits 64 bits, else a float."""
        found = _NUMBER.match(self.text, self.at)
        if found is None:
            raise JsonFault(self.at, "this is no number")
        self.at = found.end()
        whole, part, power = found.groups()
        if part is None and power is None and whole != "-0" and -(1 << 63) <= int(whole) < 1 << 64:
            return int(whole)
        if float(found[0]) in (float("inf"), float("-inf")):
            raise JsonFault(found.start(), "this number is too large")
        return float(found[0])

    def string(self):
        """A text with its escapes read."""
        start, pieces = self.at, []
        self.at += 1
        while True:
            found = _PLAIN.match(self.text, self.at)
            pieces.append(found[0])
            self.at = found.end()
            letter = self.text[self.at:self.at + 1]
            if letter != "\\":
                break
            pieces.append(self.escape())
        if letter != '"':
            raise JsonFault(self.at if letter else start, "a text has a control character" if letter else "this text does not end")
        self.at += 1
        return "".join(pieces)

    def escape(self):
        """What an escape stands for."""
        letter = self.text[self.at + 1:self.at + 2]
        if letter in _ESCAPES and letter:
            self.at += 2
            return _ESCAPES[letter]
        start, high = self.at, self.unit()
        if high is None:
            raise JsonFault(start, "this is no escape")
        if not 0xD800 <= high < 0xE000:
            return chr(high)
        low = self.unit() if high < 0xDC00 else None
        if low is None or not 0xDC00 <= low < 0xE000:
            raise JsonFault(start, "this escape is half of a pair, and the other half is missing")
        return chr(0x10000 + (high - 0xD800 << 10) + (low - 0xDC00))

    def unit(self):
        """The number of an escape as \\u0041, or None where none stands next."""
        found = _UNIT.match(self.text, self.at)
        self.at = found.end() if found else self.at
        return int(found[1], 16) if found else None

    def list(self, depth):
        """A list."""
        start, items = self.at, []
        self.expect("[")
        while self.peek() != "]":
            if items:
                self.expect(",")
            items.append(self.value(depth + 1))
        self.at += 1
        return Placed([it.value for it in items], start, self.at, items)

    def object(self, depth):
        """An object."""
        start, members = self.at, {}
        self.expect("{")
        while self.peek() != "}":
            if members:
                self.expect(",")
            if self.peek() != '"':
                raise JsonFault(self.at, "here should stand a key in quotes")
            key = self.string()
            self.expect(":")
            members[key] = self.value(depth + 1)
        self.at += 1
        return Placed({key: it.value for key, it in members.items()}, start, self.at, members)


def read_placed(data):
    """The value of the bytes of a file, with its places, and the text itself."""
    try:
        text = data.decode("utf-8")
    except UnicodeDecodeError as error:
        raise JsonFault(len(data[:error.start].decode("utf-8")), "this is no UTF-8") from None
    reader = _Reader(text)
    found = reader.value()
    if reader.peek():
        raise JsonFault(reader.at, "something follows the value")
    return found, text
