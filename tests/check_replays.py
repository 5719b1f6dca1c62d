#!/usr/bin/env python3
"""tools/check_replays over 200 logs that the program wrote, of which some then lie, are damaged, or take too long; and over 200 that
a stand-in answers, so that a run which is cut off can be seen to go on with just what is left.

Usage: python3 tests/check_replays.py [PROGRAM]

PROGRAM is by default the one that the gate leaves in crates/simcore/out. It needs GNU parallel (Debian's package `parallel`), and is
skipped where that is missing. It prints a line a case, and a last line 'N passed, M failed'; the exit status is 0 where none failed.
"""

import json
import pathlib
import random
import shutil
import subprocess
import sys
import tempfile

TOP = pathlib.Path(__file__).resolve().parent.parent
SCRIPT = TOP / "tools/check_replays"
PROGRAM = pathlib.Path(sys.argv[1] if len(sys.argv) > 1 else TOP / "crates/simcore/out/simcore").resolve()
SECONDS = 4
# What the table has to count, of the program's own logs and of the stand-in's.
MADE = {"agree": 155, "differ": 20, "log refused": 20, "out of time": 5}
TOLD = {"agree": 150, "differ": 20, "log refused": 20, "out of memory": 5, "out of time": 5}
# The first word of a log says what comes of it.
STAND_IN = """#!/bin/sh
read -r kind number <"$3"
echo run >>"$(dirname "$0")/runs"
case $kind in
agree) echo "agree $number" ;;
differ) printf 'differ turn %s\\nlog 00\\nplay ff\\n' "$number"; exit 1 ;;
refused) echo "log refused $number"; exit 13 ;;
memory) exit 9 ;;
slow) sleep 30 ;;
esac
"""
KINDS = {"agree": 150, "differ": 20, "refused": 20, "memory": 5, "slow": 5}


def match_of(number):
    """The camp of examples, in which some commands are missing: which ones is chosen by the number."""
    chosen = random.Random(number)
    camp = json.loads((TOP / "examples/camp.json").read_text())
    return camp | {"seed": number, "commands": [command for command in camp["commands"] if chosen.random() < 0.8]}


def slow_match():
    """4,096 posts that stand for so many turns that no check ends in its time."""
    posts = [["post", 1, i % 64, i // 64] for i in range(4096)]
    return {"size": [64, 64], "closed": [], "players": [[]], "cap": 4096, "delay": 1, "turns": 40_000, "seed": 0,
            "templates": [{"@name": "post", "Health": {"Max": 50}}], "entities": posts, "commands": []}


def lie(log, number):
    """The digest of one turn gets another last digit."""
    lines = log.read_bytes().split(b"\n")
    digests = [at for at, line in enumerate(lines) if line.startswith(b"turn ")]
    at = digests[number % len(digests)]
    lines[at] = lines[at][:-1] + (b"1" if lines[at].endswith(b"0") else b"0")
    log.write_bytes(b"\n".join(lines))


def damage(log, number):
    """The last byte is lost, or the first line, or a number gets a second spelling."""
    held = log.read_bytes()
    log.write_bytes([held[:-1], held.partition(b"\n")[2], held.replace(b"turn 1 ", b"turn 01 ", 1)][number % 3])


def logged(match, told):
    """Writes a match, and has the program write its log beside it."""
    match.write_text(json.dumps(told))
    subprocess.run([PROGRAM, "log", match, match.with_suffix(".log")], check=True, stdout=subprocess.DEVNULL)
    return match.with_suffix(".log")


def make_logs(folder):
    """200 logs: 20 of them lie, 20 are damaged, and 5 are of a match that takes too long."""
    logs = folder / "logs of one day"
    logs.mkdir()
    for number in range(195):
        log = logged(logs / f"match-{number}.json", match_of(number))
        if number < 20:
            lie(log, number)
        elif number < 40:
            damage(log, number)
    slow = logged(logs / "slow-0.json", slow_match())
    for number in range(1, 5):
        shutil.copy(logs / "slow-0.json", logs / f"slow-{number}.json")
        shutil.copy(slow, logs / f"slow-{number}.log")
    return logs


def tell_logs(folder):
    """200 logs that say what the stand-in answers of them."""
    (folder / "program").write_text(STAND_IN)
    (folder / "program").chmod(0o755)
    logs = folder / "logs of one night"
    logs.mkdir()
    for kind, count in KINDS.items():
        for number in range(count):
            (logs / f"{kind}-{number}.json").write_text("{}")
            (logs / f"{kind}-{number}.log").write_text(f"{kind} {number}\n")
    return logs


def check(program, seconds, work, *more):
    words = [SCRIPT, "--program", program, "--seconds", seconds, "--quiet", "--work", work, *more]
    return subprocess.run([str(word) for word in words], capture_output=True, text=True, check=False)


def counts(text):
    lines = (line.split(maxsplit=1) for line in text.splitlines() if line[:8].strip().isdigit() and not line.startswith(" " * 10))
    return {group: int(count) for count, group in lines}


def written_cases(folder):
    """What the table says of logs that the program wrote."""
    logs = make_logs(folder)
    done = check(PROGRAM, SECONDS, folder / "work", logs)
    yield "every log of the program is where it belongs", counts(done.stdout) == MADE and done.returncode == 1, done.stdout + done.stderr
    table = (folder / "work/table").read_text().splitlines()
    apart = {pathlib.Path(line.split("\t")[2]).stem for line in table if line.startswith("differ\t")}
    yield "those that differ are those that lie", apart == {f"match-{number}" for number in range(20)}, str(sorted(apart))
    pairs = folder / "pairs"
    pairs.write_text("".join(f"{logs.name}/match-{n}.json\t{logs.name}/match-{n}.log\n" for n in range(40, 195)))
    agreed = check(PROGRAM, SECONDS, folder / "work", "--list", pairs)
    yield "a list of logs that agree ends with 0", agreed.returncode == 0, agreed.stdout + agreed.stderr


def told_cases(folder):
    """What is run and what is not, seen by a stand-in that counts its runs."""
    logs, program, work = tell_logs(folder), folder / "program", folder / "work"

    def runs():
        return len((folder / "runs").read_text().splitlines())

    first = check(program, 2, work, logs)
    yield "every kind is counted", counts(first.stdout) == TOLD and first.returncode == 1, first.stdout + first.stderr
    yield "the turn and the line are named", "differ turn 7: " in first.stdout and "log refused 7: " in first.stdout, first.stdout
    before = runs()
    for number in range(1, 101):
        text = work / f"{number}.text"
        text.write_text(text.read_text().partition("\n")[0][:number % 2 * 5])
    again = check(program, 2, work, logs, "--resume")
    yield "a run that was cut off goes on", runs() == before + 100 and counts(again.stdout) == TOLD, again.stdout + again.stderr
    refused = next(text for text in sorted(work.glob("*.text")) if text.read_text().endswith("status 13\n"))
    refused.write_text(refused.read_text().removesuffix("3\n"))
    again = check(program, 2, work, logs, "--resume")
    yield "a status that was cut off is none", runs() == before + 101 and counts(again.stdout) == TOLD, again.stdout + again.stderr
    (logs / "last.json ").write_text("{}")
    (logs / "last.log ").write_text("differ 5\n")
    spaced = folder / "spaced"
    spaced.write_text(f"{logs.name}/last.json \t{logs.name}/last.log \n")
    listed = check(program, 2, folder / "spaced.work", "--list", spaced)
    yield "a blank at the end of a name is kept", "differ turn 5: " in listed.stdout, listed.stdout + listed.stderr
    pairs, lines = folder / "pairs", folder / "lines"
    pairs.write_text("".join(f"{logs.name}/agree-{n}.json\t{logs.name}/agree-{n}.log\n" for n in range(150)))
    check(program, 2, work, "--list", pairs, "--job-file", lines)
    subprocess.run(["sh", str(lines)], check=True)
    yield "the lines for a batch system do the same", check(program, 2, work, "--list", pairs, "--table").returncode == 0, ""
    yield "other pairs are no run to go on with", check(program, 2, work, logs, "--resume").returncode == 2, ""


def main():
    if shutil.which("parallel") is None:
        print("skipped: GNU parallel is not there (Debian's package parallel)\n0 passed, 0 failed")
        return 0
    found = {True: 0, False: 0}
    for cases in written_cases, told_cases:
        with tempfile.TemporaryDirectory(prefix="check-replays-") as folder:
            for name, holds, told in cases(pathlib.Path(folder)):
                found[holds] += 1
                print(f"ok     {name}" if holds else f"FAILED {name}: {told}")
    print(f"{found[True]} passed, {found[False]} failed")
    return 1 if found[False] else 0


if __name__ == "__main__":
    sys.exit(main())
