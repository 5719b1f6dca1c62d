#!/usr/bin/env python3
"""What `play` costs where nothing moves: 4,096 posts for 2,000 turns, whose digests take MD5 over some 254 MB, and three
posts for 60,000 turns, where the digest is short and the rest of a turn shows.

Usage: python3 bench/play.py [PROGRAM [BEFORE]]

PROGRAM is by default the one that ./simcore has built; with BEFORE an older program runs beside it, by turns, and must
print the same lines. It prints figures of processor time, and stops where a program fails. The reference is MD5 alone
over as many bytes: by OpenSSL, through Python's hashlib, and at the 460 MB/s that the MD5 of the kit was measured at.
"""

import json
import pathlib
import resource
import sys
import tempfile

from runs import least_of, md5_seconds

TOP = pathlib.Path(__file__).resolve().parent.parent
PROGRAMS = [pathlib.Path(word).resolve() for word in sys.argv[1:]] or [TOP / "crates/simcore/out/simcore"]
TURNS, KIT, ROUNDS = {4096: 2000, 3: 60_000}, 460e6, 5


def match(posts, turns):
    return {
        "size": [256, 256], "closed": [], "players": [[]], "cap": 4096, "delay": 1, "turns": turns, "seed": 0,
        "templates": [{"@name": "post", "Health": {"Max": 50}}],
        "entities": [["post", 1, i % 64, i // 64] for i in range(posts)], "commands": [],
    }


def timed(folder, posts, turns):
    """The least seconds of each program."""
    path = pathlib.Path(folder) / "match.json"
    path.write_text(json.dumps(match(posts, turns)))
    least, text = least_of(ROUNDS, PROGRAMS, ["play", path])
    assert text.count(b"\n") == turns + 1
    return least


def measure(folder, posts):
    size, turns = 70 + posts * (6 + 12 + 5 + 8), TURNS[posts]
    few, many = timed(folder, posts, 0), timed(folder, posts, turns)
    print(f"{posts} posts, {size} bytes a state, {turns} turns")
    costs = [(after - before) / turns for before, after in zip(few, many)]
    for program, before, turn in zip(PROGRAMS, few, costs):
        print(f"  a turn {turn * 1e6:8.2f} us, reading and turn 0 {before * 1e3:6.1f} ms, by {program}")
    if len(costs) == 2:
        print(f"  the first program's turn costs {costs[0] / costs[1]:.3f} times the second's")
    openssl = md5_seconds(size, 100_000_000 // size)
    print(f"  MD5 alone: OpenSSL {openssl * 1e6:.2f} us, {size / openssl / 1e6:.0f} MB/s; the kit's {size / KIT * 1e6:.2f} us")


def main():
    with tempfile.TemporaryDirectory() as folder:
        for posts in TURNS:
            measure(folder, posts)
    print(f"at most {resource.getrusage(resource.RUSAGE_CHILDREN).ru_maxrss / 1024:.1f} MB")


if __name__ == "__main__":
    main()
