#!/usr/bin/env python3
"""What a talk costs beside a list: 100,000 steps through a pipe and by `session`, and how long one answer takes. One list plays turns, one
orders walks besides, and one plays none, so that nothing but reading and telling is left.

Usage: python3 bench/live.py [PROGRAM]

PROGRAM is by default the one that the gate leaves in crates/simcore/out. It prints the processor time of each, the least of five runs,
their ratio for each list, and the median time from a line written to its answer read, for a step that plays no turn.
"""

import json
import os
import pathlib
import statistics
import subprocess
import sys
import tempfile
import time

TOP = pathlib.Path(__file__).resolve().parent.parent
PROGRAM = str(pathlib.Path(sys.argv[1] if len(sys.argv) > 1 else TOP / "crates/simcore/out/simcore").resolve())
MATCH = {"size": [16, 16], "closed": [], "players": [[], []], "cap": 0, "delay": 2, "turns": 20000, "seed": 0,
         "templates": [{"@name": "walker", "Motion": {"Speed": 10}}],
         "entities": [["walker", 1, "2.5", "2.5"], ["walker", 2, "2.5", "5.5"]], "commands": []}
MESSAGES = [["up", 1], ["up", 1], ["up", 2], ["up", 2], ["down", 1], ["down", 2]]
TURNS = [["play", 1], ["play", 2], *MESSAGES]
ORDERS = [["order", 1, "walk", [2], "6.5", "2.5"], ["order", 2, "walk", [3], "10.5", "12.5"], *TURNS]
STEPS = 100_000


def timed(words, data=b""):
    """The processor time of a run over this input through a pipe, and what it printed."""
    before = os.times()
    text = subprocess.run([PROGRAM, *words], input=data, stdout=subprocess.PIPE, check=True).stdout
    after = os.times()
    return after.children_user + after.children_system - before.children_user - before.children_system, text


def answer_time(match, tries=3000):
    """The median time of an answer, in seconds."""
    talk = subprocess.Popen([PROGRAM, "live", match, "2"], stdin=subprocess.PIPE, stdout=subprocess.PIPE, bufsize=0)
    os.read(talk.stdout.fileno(), 4096)
    times = []
    for _ in range(tries):
        begun = time.perf_counter()
        os.write(talk.stdin.fileno(), b'["up",1]\n')
        os.read(talk.stdout.fileno(), 4096)
        times.append(time.perf_counter() - begun)
    talk.stdin.close()
    talk.wait()
    return statistics.median(times)


def compared(match, listed, rounds):
    """The least time of a list by `session`, and of the same through a pipe to `live`, which must tell the same."""
    steps = (rounds * (STEPS // len(rounds) + 1))[:STEPS]
    listed.write_text(json.dumps({"clients": 2, "steps": steps}))
    lines = b"".join(json.dumps(step).encode() + b"\n" for step in steps)
    whole = [timed(["session", match, listed]) for _ in range(5)]
    talked = [timed(["live", match, "2"], lines) for _ in range(5)]
    told = b"".join(it for it in talked[0][1].splitlines(True) if not it.startswith(b"ok "))
    assert told == whole[0][1], "a talk tells another session"
    return min(it[0] for it in whole), min(it[0] for it in talked)


def main():
    """Times all lists."""
    with tempfile.TemporaryDirectory() as folder:
        match, listed = pathlib.Path(folder, "match"), pathlib.Path(folder, "steps")
        match.write_text(json.dumps(MATCH))
        for name, rounds in (("turns", TURNS), ("orders and turns", ORDERS), ("no turns", MESSAGES)):
            first, second = compared(match, listed, rounds)
            print(f"{name}: session {first:.2f} s, live {second:.2f} s: {second / first:.2f} of it")
        print(f"an answer takes {answer_time(match) * 1e6:.0f} us")


main()
