#!/usr/bin/env python3
"""What stored states cost: `state`, `resume`, `show` and `compare` on a match of 4,096 soldiers whose file has 0.6 MB.

Usage: python3 bench/stored.py [PROGRAM]

PROGRAM is by default the one that ./simcore has built. Each figure is the processor time of a whole run, the program's
start and the reading of the match included, as the least of five. The stored state is that of the last turn, with all
soldiers on ways of 45 waypoints: it is made here, byte for byte, so that no way has to be searched. It prints figures,
and stops where the program fails. For reference: a plain Rust program without contracts reads a match of 0.6 MB, loads a
state of 4,096 rows with long ways (1.7 MB) and shows it in 10 ms, and compares two such states in 17 ms. bench/rows.sh
has the calls alone.
"""

import hashlib
import json
import pathlib
import struct
import sys
import tempfile

from runs import run

TOP = pathlib.Path(__file__).resolve().parent.parent
PROGRAM = pathlib.Path(sys.argv[1] if len(sys.argv) > 1 else TOP / "crates/simcore/out/simcore").resolve()
ROWS, WAYPOINTS, TURNS = 4096, 45, 3
METRE = 65536
SOLDIER = {"@name": "soldier", "Health": {"Max": 100}, "Motion": {"Speed": 9},
           "Attack": {"Hack": 4, "Range": 3, "Vision": 20, "Repeat": 4}}
# Orders of a player who has nothing make the file as long as one of a long match.
ORDERS = [[turn, 2, "delete", [4294967295] * 256] for turn in range(1, TURNS + 1) for _ in range(64)]
MATCH = {
    "size": [256, 256], "closed": [], "players": [[], []], "cap": 4096, "delay": 1, "turns": TURNS, "seed": 0,
    "templates": [SOLDIER], "entities": [["soldier", 1, i % 64, i // 64] for i in range(ROWS)], "commands": ORDERS,
}


def section(tag, rows):
    return struct.pack("<BI", tag, len(rows)) + b"".join(rows)


def last_state(match):
    """The bytes of a state of the last turn, in which all soldiers go along a way."""
    ids = range(2, 2 + ROWS)
    way = b"".join(struct.pack("<ii", (100 + i) * METRE, 70 * METRE) for i in range(WAYPOINTS))
    going = struct.pack("<BiiBB", 1, 144 * METRE, 70 * METRE, 1, WAYPOINTS) + way
    return b"".join([
        b"RSIM", struct.pack("<I", 2), hashlib.md5(match).digest(), struct.pack("<IIQ", TURNS, 2 + ROWS, 0),
        section(1, [struct.pack("<IH", at, 0) for at in ids]),
        section(2, [struct.pack("<Iii", at, at % 64 * METRE, at // 64 * METRE) for at in ids]),
        section(3, [struct.pack("<IB", at, 1) for at in ids]),
        section(4, [struct.pack("<Ii", at, 50 * METRE) for at in ids]),
        section(5, [struct.pack("<I", at) + going for at in ids]),
        section(6, [struct.pack("<IIH", at, 0, 0) for at in ids]),
        section(7, [struct.pack("<IB", at, 0) for at in ids]),
    ])


def best(words, folder, status):
    """Milliseconds of the fastest of five runs with these words."""
    return 1e3 * min(run(PROGRAM, words, folder, status)[0] for _ in range(5))


def main():
    if not PROGRAM.is_file():
        sys.exit(f"there is no program {PROGRAM}: ./simcore builds it")
    with tempfile.TemporaryDirectory() as name:
        folder = pathlib.Path(name)
        (folder / "m").write_text(json.dumps(MATCH))
        stored = last_state((folder / "m").read_bytes())
        (folder / "s").write_bytes(stored)
        # The owner of the last row differs.
        at = 40 + 3 * 5 + ROWS * (6 + 12 + 5) - 1
        (folder / "t").write_bytes(stored[:at] + b"\x02" + stored[at + 1:])
        print(f"match {(folder / 'm').stat().st_size} bytes, state {len(stored)} bytes, {ROWS} rows")
        print(f"no words                {best([], folder, 2):7.2f} ms")
        print(f"state of turn 0         {best(['state', 'm', '0', 'o'], folder, 0):7.2f} ms")
        for words in (["resume", "m", "s"], ["show", "m", "s"], ["compare", "m", "s", "s"]):
            print(f"{words[0]:<23} {best(words, folder, 0):7.2f} ms")
        print(f"compare, last differs   {best(['compare', 'm', 's', 't'], folder, 1):7.2f} ms")


if __name__ == "__main__":
    main()
