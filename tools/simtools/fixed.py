"""Fixed-point numbers as docs/FORMATS.md spells them: a raw is a signed 32-bit number in units of 1/65536."""

import re

ONE = 65536
LEAST, GREATEST = -(1 << 31), (1 << 31) - 1
_NUMBER = re.compile(r"(-?)([0-9]{1,10})(?:\.([0-9]{1,6}))?")


def read_raw(text):
    """The raw that a number text stands for, or None where it is no number text."""
    found = _NUMBER.fullmatch(text)
    if found is None or not text.isascii():
        return None
    sign, whole, part = found[1], found[2], found[3] or ""
    magnitude = int(whole + part) * ONE // 10 ** len(part)
    raw = -magnitude if sign else magnitude
    return raw if LEAST <= raw <= GREATEST else None


def print_raw(raw):
    """The one text that the program prints for a raw."""
    whole, part = divmod(abs(raw), ONE)
    tail = f".{-(-part * 100000 // ONE):05d}" if part else ""
    return f"{'-' if raw < 0 else ''}{whole}{tail}"


def is_whole(value):
    """Whether a JSON value is a whole number."""
    return isinstance(value, int) and not isinstance(value, bool)


def read_leaf(value):
    """The raw of a fixed leaf in JSON, a number text or a whole number; None for anything else."""
    if is_whole(value):
        return read_raw(str(value))
    return read_raw(value) if isinstance(value, str) else None


def clip_text(number):
    """A decimal text of at most six places that the program reads, for a number that a tool worked out."""
    text = f"{number:.6f}".rstrip("0").rstrip(".")
    return "0" if text in ("-0", "") else text
