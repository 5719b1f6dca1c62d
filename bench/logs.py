#!/usr/bin/env python3
"""What it costs to check a log: `check` beside `play` of the same match, of soldiers who fight and who walk in peace over 200 turns; and
what tools/check_replays takes for many logs beside the runs themselves.

Usage: python3 bench/logs.py [PROGRAM [LOGS]]

PROGRAM is by default the one that ./simcore has built. With LOGS so many logs of small matches are checked at once, which needs GNU
parallel. It prints figures of processor time, and for many logs also the time on the clock, and stops where a program fails.
"""

import json
import pathlib
import subprocess
import sys
import tempfile
import time

import sights
from runs import children_seconds, least_of, run

ROUNDS = 5
PROGRAM = sights.PROGRAMS[0]
TOOL = pathlib.Path(__file__).resolve().parent.parent / "tools/check_replays"


def measure(folder, soldiers, fighting):
    """One match: its log is made, and checked beside the match."""
    path, log = pathlib.Path(folder) / "match.json", pathlib.Path(folder) / "log"
    path.write_text(json.dumps(sights.match(soldiers, fighting)))
    run(PROGRAM, ["log", path, log])
    (play,), _ = least_of(ROUNDS, [PROGRAM], ["play", path])
    (check,), said = least_of(ROUNDS, [PROGRAM], ["check", path, log])
    assert said == b"agree %d\n" % sights.TURNS, said
    kind = "who fight" if fighting else "in peace"
    print(f"{soldiers} soldiers {kind}, a log of {log.stat().st_size} bytes: play {1e3 * play:.1f} ms, check {1e3 * check:.1f} ms, "
          f"{check / play:.2f} of it")


def measure_many(folder, count):
    """Many small logs at once, by the tool and one after the other."""
    path, log = pathlib.Path(folder) / "match.json", pathlib.Path(folder) / "log"
    path.write_text(json.dumps(sights.match(20, True)))
    run(PROGRAM, ["log", path, log])
    alone = sum(run(PROGRAM, ["check", path, log])[0] for _ in range(count))
    pairs = pathlib.Path(folder) / "pairs"
    pairs.write_text(f"{path}\t{log}\n" * count)
    begin, clock = children_seconds(), time.monotonic()
    subprocess.run([TOOL, "--program", str(PROGRAM), "--list", pairs, "--quiet", "--work", pathlib.Path(folder) / "work"],
                   stdout=subprocess.DEVNULL, check=True)
    print(f"{count} logs: {alone:.1f} s of processor time alone, {children_seconds() - begin:.1f} s by the tool, "
          f"in {time.monotonic() - clock:.1f} s on the clock")


def main():
    with tempfile.TemporaryDirectory() as folder:
        for soldiers in (200, 1000, 4096):
            for fighting in (True, False):
                measure(folder, soldiers, fighting)
        if len(sys.argv) > 2:
            measure_many(folder, int(sys.argv[2]))


if __name__ == "__main__":
    main()
