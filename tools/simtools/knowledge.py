"""What a program tells of a match beside its states: which cells each player has explored, and what each holds.

`sight` writes the explored cells of one turn, so they are asked for at some turns of a match, and of a cell it is kept at which of
these it was explored first. `realm` prints how many cells each player holds; which these are it does not print.
"""

import base64
import re
import tempfile
import zlib

from .faults import read_bytes
from .program import USAGE

SAMPLES = 8
NEVER = 255


def sample_turns(turns):
    """Some turns of a match, the first and the last among them."""
    return sorted({turns * place // SAMPLES for place in range(SAMPLES + 1)})


def first_seen(maps):
    """For each place of some maps of equal length the first one that has a byte there, or 255."""
    first = bytearray(b"\xff" * len(maps[0]))
    for number, cells in reversed(list(enumerate(maps))):
        for place, byte in enumerate(cells):
            if byte:
                first[place] = number
    return bytes(first)


def explored(program, path, turns):
    """The explored cells of a match for its page, or None where the program does not tell them."""
    maps, chosen = [], sample_turns(turns)
    with tempfile.TemporaryDirectory() as folder:
        for turn in chosen:
            out = f"{folder}/map"
            status, text = program.try_run("sight", path, turn, out)
            if status == USAGE:
                return None
            if status:
                raise program.fault(status, text, ("sight", path))
            maps.append(read_bytes(out))
    return {"turns": chosen, "cells": base64.b64encode(zlib.compress(first_seen(maps))).decode("ascii")}


def realm(program, path, turns):
    """What each player holds at the end, in words, or None where the program does not tell it."""
    status, text = program.try_run("realm", path, turns)
    if status:
        return None
    found = re.findall(r"^realm (\d+) held (\d+) rooted (\d+)$", text, re.M)
    return "; ".join(f"player {player} holds {held} cells at the end, {rooted} of them rooted" for player, held, rooted in found)
