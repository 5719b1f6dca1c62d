#!/usr/bin/env python3
"""Worked cases as tables, run on the built program: matches, lists, battles and sessions, each with its status and text.

Usage: python3 tests/rows.py [PROGRAM] [NAME..]

PROGRAM is by default the one that the gate leaves in crates/simcore/out; NAMEs are tables of tests/rows to run alone. A table is a
list of cases. A case has a name, files by their names, and runs in one folder, each with its words, its status and its text, and
maybe with the input that it is given, and with files that it wrote, null where there is none. The text "usage" stands for what the
program prints without words. A file or an input is a text, or {"hex": ..}, or {"repeat": [before, item, count, after]}, where ^ in an
item stands for its number and $ for the next.

The statuses and texts were worked out apart from the program. It prints the cases that fail, a line for each table, and a last line
'N passed, M failed'; the exit status is 0 where none failed.
"""

import concurrent.futures
import json
import os
import pathlib
import subprocess
import sys
import tempfile

TOP = pathlib.Path(__file__).resolve().parent.parent
# By the clock, for one run of the program: many times what any takes, since a machine can be full.
SECONDS = 600
TEXTS = {"usage": (TOP / "crates/simcore/stdout").read_text()}


def content(told):
    """The bytes of a file, as a case tells it."""
    if isinstance(told, str):
        return told.encode()
    if "hex" in told:
        return bytes.fromhex(told["hex"])
    before, item, count, after = told["repeat"]
    items = (item.replace("^", str(number)).replace("$", str(number + 1)) for number in range(count))
    return (before + "".join(items) + after).encode()


def answer(program, words, folder, typed=""):
    """The status and the text of a run over this input; what is on standard error counts as text."""
    done = subprocess.run([program, *words], cwd=folder, input=content(typed), capture_output=True, timeout=SECONDS)
    return done.returncode, (done.stdout + done.stderr).decode()


def unwritten(folder, case, run):
    """The files of a run that do not hold what it was to write, a line for each."""
    for name, told in run.get("wrote", {}).items():
        path = pathlib.Path(folder, name)
        held = path.read_bytes() if path.exists() else None
        wanted = None if told is None else content(told)
        if held != wanted:
            yield f"{case['name']}: {' '.join(run['words'])}: the file {name} holds {held} for {wanted}"


def faults(program, case):
    """What is wrong with the runs of a case, a line for each."""
    found = []
    with tempfile.TemporaryDirectory() as folder:
        for name, told in case["files"].items():
            pathlib.Path(folder, name).write_bytes(content(told))
        for run in case["runs"]:
            got = answer(program, run["words"], folder, run.get("input", ""))
            wanted = run["status"], TEXTS.get(run["text"], run["text"])
            if got != wanted:
                found.append(f"{case['name']}: {' '.join(run['words'])}: {got} for {wanted}")
            found.extend(unwritten(folder, case, run))
    return found


def tables(names):
    """The tables of these names, or all."""
    for path in sorted(TOP.glob("tests/rows/*.json")):
        if not names or path.stem in names:
            yield path.stem, json.loads(path.read_text())


def main(words):
    program = pathlib.Path(words[0] if words else TOP / "crates/simcore/out/simcore").resolve()
    if not program.is_file():
        print(f"there is no program {program}: build it first, as the README says\n0 passed, 1 failed")
        return 1
    passed = failed = 0
    with concurrent.futures.ThreadPoolExecutor(os.cpu_count()) as pool:
        for name, cases in tables(words[1:]):
            answers = list(pool.map(lambda case: faults(program, case), cases))
            bad = [lines for lines in answers if lines]
            for lines in bad:
                print("\n".join(f"FAILED {line}" for line in lines))
            print(f"{name}: {len(cases) - len(bad)} of {len(cases)} cases")
            passed, failed = passed + len(cases) - len(bad), failed + len(bad)
    print(f"{passed} passed, {failed} failed")
    return 1 if failed else 0


if __name__ == "__main__":
    sys.exit(main(sys.argv[1:]))
