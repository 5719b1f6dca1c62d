#!/usr/bin/env python3
"""tools/new_match: what it writes is a match that the program reads, with the armies that were asked for."""

import json
import pathlib
import subprocess
import tempfile
from collections import Counter

from cases import Cases, bad_input, program, run_tool

# A name, the words, and how many entities of each player and commands there are to be.
GOOD = [("no words", [], {1: 10, 2: 10}, None),
        ("eight players", ["--players", 8, "--size", 64, 64], {player: 10 for player in range(1, 9)}, None),
        ("one player", ["--players", 1, "--units", "soldier:3"], {1: 3}, None),
        ("armies that differ", ["--units", "1=soldier:5", "--units", "2=archer:7", "--units", "hall:1"], {1: 6, 2: 8}, None),
        ("a wall", ["--closed", 20, 0, 21, 20, "--closed", 24, 10, 25, 31], {1: 10, 2: 10}, None),
        ("4,096 units", ["--size", 256, 256, "--units", "soldier:2048", "--turns", 1], {1: 2048, 2: 2048}, None),
        ("the least ground", ["--size", 1, 1, "--players", 1, "--units", "soldier:1"], {1: 1}, None),
        ("buildings alone", ["--units", "hall:2"], {1: 2, 2: 2}, 0)]


def good(cases, folder):
    """Each is a match with these entities, and the program plays it."""
    for name, words, owners, commands in GOOD:
        path = pathlib.Path(folder) / "match.json"
        status, _, error = run_tool("new_match", *words, "-o", path)
        if status:
            cases.holds(name, False, error)
            continue
        match = json.loads(path.read_text())
        cases.case(f"{name}: entities", dict(Counter(it[1] for it in match["entities"])), owners)
        cases.holds(f"{name}: commands", commands is None or len(match["commands"]) == commands, match["commands"])
        cases.case(f"{name}: nobody stands on another", len({tuple(it[2:]) for it in match["entities"]}), len(match["entities"]))
        if program():
            done = subprocess.run([program(), "state", path, "1", path.with_name("state")], capture_output=True, text=True, check=False)
            cases.holds(f"{name}: the program reads it", done.returncode == 0, done.stdout)


def test(cases):
    """All cases."""
    if not program():
        cases.skip("the program reads what new_match writes", "no program is built")
    with tempfile.TemporaryDirectory() as folder:
        good(cases, folder)
        path = pathlib.Path(folder) / "templates.json"
        path.write_text('[{"@name":"a:b=c","Motion":{"Speed":1}}]')
        status, out, error = run_tool("new_match", "--templates", path, "--units", "a:b=c:2")
        cases.holds("a name with a colon and an equals sign", status == 0 and len(json.loads(out)["entities"]) == 4, error)
        path.write_text('[{"@name":"a","Motion":{}}]')
        bad_input(cases, "new_match", ("no number", ["--turns", "x"], "--turns"), ("no size", ["--size", 0, 5], "the width is 0"),
                  ("nine players", ["--players", 9], "from 1 to 8"), ("an unknown unit", ["--units", "dragon:1"], "no template is named dragon"),
                  ("no count", ["--units", "soldier"], "NAME:COUNT"), ("more than find room", ["--size", 4, 4, "--units", "soldier:9"], "free cells"),
                  ("a wall outside", ["--closed", 0, 0, 99, 1], "no rectangle within"), ("a bad template", ["--templates", path], "Motion/Speed is missing"),
                  ("no templates", ["--templates", folder + "/none"], "can't be read"), ("no list", ["--templates", __file__], "no list of templates"))


if __name__ == "__main__":
    counted = Cases()
    test(counted)
    counted.end()
