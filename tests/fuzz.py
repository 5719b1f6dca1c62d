#!/usr/bin/env python3
"""Damaged files, as many as there is time for: whatever they hold, the program ends with a status that its words may have, and
prints just what that status has.

Usage: python3 tests/fuzz.py [PROGRAM] [--seconds N] [--seed N] [--only WORD]

PROGRAM is by default the one that the gate leaves in crates/simcore/out. The files of examples/, and states stored from them,
are changed here and there: a byte, a number, an item of a list, a stretch that is gone, doubled or moved. Each is handed to a
command that reads it, with one gigabyte of memory and ten seconds of time. A stored state that is taken must have the digest
of its own bytes, and one that is refused the code of what was changed; a match that is played has a line for each turn. One
seed gives the same files in every run. The script prints a line for each fault, keeps the file that led to it in a folder that
it names, and prints in the end the runs by command and status. Its exit status is 0 where there was no fault. WORD is the one
command to be tried.
"""

import collections
import hashlib
import json
import pathlib
import random
import re
import resource
import shutil
import subprocess
import sys
import tempfile
import time

TOP = pathlib.Path(__file__).resolve().parent.parent
EXAMPLES = TOP / "examples"
MATCHES = ["two-posts", "outposts", "inherited", "camp", "squads", "handover", "refused", "empty"]
STORED = {"two-posts": (0, 1), "camp": (3, 6), "squads": (2, 5, 8), "inherited": (2,), "outposts": (12,)}
# The statuses that a command may have, beside want of memory; and what is printed with them, NAME being the changed file.
STATUSES = {"play": (0, 6), "rejoin": (0, 6, 10), "resume": (0, 7), "show": (0, 7), "compare": (0, 1, 7), "serve": (0, 8),
            "session": (0, 6, 8)}
TEXTS = {6: rb"match refused \d+ \d+\n", 7: rb"state refused [123] changed\n", 8: rb"list refused \d+\n", 9: rb"",
         10: rb"no turn \d+ of \d+\n"}
# What a number of a text is changed to.
NUMBERS = [b"0", b"1", b"-1", b"2", b"3", b"9", b"63", b"64", b"65", b"255", b"256", b"257", b"4096", b"65535", b"65536",
           b"4294967295", b"4294967296", b"18446744073709551616", b"0.5", b"1e3", b"1e999", b"-0", b'"1.5"', b'"x"', b"null",
           b"[]", b"{}", b"true"]
LIMIT, SECONDS = 1 << 30, 10


def limited():
    resource.setrlimit(resource.RLIMIT_AS, (LIMIT, LIMIT))


def run(program, words, folder):
    """The status and the text of a run. The status is None where it takes too long; standard error is told as text."""
    try:
        done = subprocess.run([program, *words], cwd=folder, stdin=subprocess.DEVNULL, stdout=subprocess.PIPE,
                              stderr=subprocess.PIPE, preexec_fn=limited, timeout=SECONDS)
    except subprocess.TimeoutExpired:
        return None, b""
    return done.returncode, done.stdout if not done.stderr else b"standard error: " + done.stderr


class Damage:
    """Changes of a file's bytes, by the numbers of one seed."""

    def __init__(self, seed):
        self.draw = random.Random(seed)

    def stretch(self, data):
        begin = self.draw.randrange(len(data) + 1)
        return begin, min(len(data), begin + self.draw.choice((1, 1, 2, 4, 8, 40, 200)))

    def byte(self, data):
        at = self.draw.randrange(len(data) + 1)
        return data[:at] + bytes([self.draw.choice((0, 1, 255, self.draw.randrange(256)))]) + data[at + 1:]

    def number(self, data):
        found = list(re.finditer(rb"-?\d+", data))
        if not found:
            return self.byte(data)
        place = self.draw.choice(found)
        return data[:place.start()] + self.draw.choice(NUMBERS) + data[place.end():]

    def gone(self, data):
        begin, end = self.stretch(data)
        return data[:begin] + data[end:]

    def doubled(self, data):
        begin, end = self.stretch(data)
        return data[:end] + data[begin:end] * self.draw.choice((1, 1, 1, 70)) + data[end:]

    def moved(self, data):
        (begin, end), to = self.stretch(data), self.draw.randrange(len(data) + 1)
        rest = data[:begin] + data[end:]
        return rest[:to] + data[begin:end] + rest[to:]

    def item(self, data):
        """An item of a list in JSON is gone, doubled or put elsewhere."""
        found = list(re.finditer(rb"\[[^\[\]]*\],?", data))
        if not found:
            return self.byte(data)
        one, other = self.draw.choice(found), self.draw.choice(found)
        return data[:one.start()] + self.draw.choice((b"", one.group() * 2, other.group())) + data[one.end():]

    def changed(self, data, text):
        """The bytes after one to three changes; a text is changed by numbers and items most of the time."""
        ways = [self.byte, self.gone, self.doubled, self.moved] + [self.number] * 6 * text + [self.item] * 4 * text
        for _ in range(self.draw.choice((1, 1, 1, 2, 3))):
            data = self.draw.choice(ways)(data)
        return data


def refused_state_code(before, after):
    """The code of a stored state that was changed, where it is refused, by the first place that can be looked at."""
    if len(after) < 24 or after[:4] != b"RSIM" or after[4:8] not in (b"\1\0\0\0", b"\2\0\0\0"):
        return 1
    return 2 if after[8:24] != before[8:24] else 3


def text_fault(command, before, after, status, text):
    """What is wrong with a text of a status that is one of the command's, or None."""
    if status in TEXTS:
        wanted = TEXTS[status] if status != 7 else b"state refused %d changed\n" % refused_state_code(before, after)
        return None if re.fullmatch(wanted, text) else f"status {status} with another text"
    if not text.endswith(b"\n"):
        return "a text that does not end its line"
    if command == "play" and text.count(b"\n") != json.loads(after)["turns"] + 1:
        return "not a line for each turn"
    if command in ("resume", "compare") and after[4] == 1:
        return None  # a change to version 1 is another spelling of a state in which nobody holds his place
    if command == "resume" and text.split()[2].decode() != hashlib.md5(after).hexdigest():
        return "a state was taken that its bytes do not spell"
    if command == "compare" and (status == 0) != (after == before):
        return "two states are the same where their bytes are not, or the other way round"
    return None


def fault_of(command, before, after, status, text):
    """What is wrong with a run, or None."""
    if status is None:
        return f"more than {SECONDS} seconds"
    if status not in STATUSES[command] + (9,):
        return f"status {status}"
    return text_fault(command, before, after, status, text)


def stored_states(program, folder):
    """States of some turns of the examples, as the name of the match and the bytes."""
    for name, turns in STORED.items():
        for turn in turns:
            status, text = run(program, ["state", EXAMPLES / f"{name}.json", str(turn), "stored"], folder)
            assert status == 0, text
            yield name, (folder / "stored").read_bytes()


def tries(program, folder, only):
    """For each command its words, the file that is to be changed, 'changed' being its name, and whether that is a text."""
    listed = []
    for name in MATCHES:
        match = (EXAMPLES / f"{name}.json").read_bytes()
        listed += [("play", ["changed"], match, True), ("rejoin", ["changed", "1"], match, True)]
    listed.append(("serve", ["changed"], (EXAMPLES / "late-and-liar.json").read_bytes(), True))
    match, steps = EXAMPLES / "handover.json", EXAMPLES / "handover-steps.json"
    listed.append(("session", [match, "changed"], steps.read_bytes(), True))
    listed.append(("session", ["changed", steps], match.read_bytes(), True))
    for at, (name, state) in enumerate(stored_states(program, folder)):
        match, kept = EXAMPLES / f"{name}.json", folder / f"state{at}"
        kept.write_bytes(state)
        listed += [("resume", [match, "changed"], state, False), ("show", [match, "changed"], state, False),
                   ("compare", [match, kept, "changed"], state, False)]
    by_command = collections.defaultdict(list)
    for command, *rest in listed:
        if only in ("", command):
            by_command[command].append(rest)
    return by_command


def options(words, **given):
    """The words without their options, and these with the values that they have there."""
    for name in given:
        if f"--{name}" in words:
            at = words.index(f"--{name}")
            given[name] = type(given[name])(words[at + 1])
            words = words[:at] + words[at + 2:]
    return words, given


def main():
    words, given = options(sys.argv[1:], seconds=60, seed=1, only="")
    program = pathlib.Path(words[0] if words else TOP / "crates/simcore/out/simcore").resolve()
    damage, runs, faults = Damage(given["seed"]), collections.Counter(), 0
    kept = pathlib.Path(tempfile.mkdtemp(prefix="faults-"))
    with tempfile.TemporaryDirectory() as name:
        folder = pathlib.Path(name)
        by_command, end = tries(program, folder, given["only"]), time.monotonic() + given["seconds"]
        while time.monotonic() < end:
            command = damage.draw.choice(list(by_command))
            words, before, text_file = damage.draw.choice(by_command[command])
            after = damage.changed(before, text_file)
            (folder / "changed").write_bytes(after)
            status, text = run(program, [command, *words], folder)
            runs[command, status] += 1
            if fault := fault_of(command, before, after, status, text):
                faults += 1
                shutil.copy(folder / "changed", kept / f"{faults}-{command}")
                print(f"FAILED {command} on {kept}/{faults}-{command}: {fault}: {text[:80]}", flush=True)
    for (command, status), count in sorted(runs.items(), key=str):
        print(f"{command:<8} status {status}: {count}")
    print(f"{sum(runs.values()) - faults} passed, {faults} failed")
    if not faults:
        kept.rmdir()
    return 1 if faults else 0


if __name__ == "__main__":
    sys.exit(main())
