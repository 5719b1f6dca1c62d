#!/usr/bin/env python3
"""A check beside the gate, on the real game's own templates: tools/import_0ad over all of them, and a battle of its units.

Usage: python3 tests/tools/real_game.py PUBLIC_ZIP [PROGRAM]

PUBLIC_ZIP is the file of that name of an installed 0 A.D. (Debian's package `0ad-data` has it in
/usr/share/games/0ad/mods/public). None of its templates is refused without a reason; the program reads all that are imported, 200
at a time; and 40 spearmen fight 40 archers of the game, which is drawn.
"""

import json
import os
import pathlib
import subprocess
import sys
import tempfile

from cases import Cases, program, run_tool

# The layers that are no templates by themselves: their parent is a layer too.
REASONS = ("but a layer of that name",)
AT_ONCE = 150


def batches(listed):
    """The templates in lists of so many, each with all its parents; what they train is left out, since it may be in another list."""
    by_name = {it["@name"]: {key: part for key, part in it.items() if key != "Train"} for it in listed}
    batch = {}
    for name in by_name:
        chain = []
        while name is not None:
            chain.append(name)
            name = by_name[name].get("@parent")
        batch |= {it: by_name[it] for it in chain}
        if len(batch) > AT_ONCE:
            yield list(batch.values())
            batch = {}
    yield list(batch.values())


def match_of(listed):
    """A match of these templates."""
    return {"size": [4, 4], "closed": [], "players": [[]], "cap": 0, "delay": 1, "turns": 0, "seed": 0, "templates": listed, "entities": [],
            "commands": []}


def play(path):
    """The status and the text of a played match."""
    done = subprocess.run([program(), "play", path], capture_output=True, text=True, check=False)
    return done.returncode, done.stdout


def read_all(cases, game, folder):
    """Every template is imported or refused for a reason, and the program reads what was imported."""
    path = folder / "all.json"
    status, _, error = run_tool("import_0ad", game, "--all", "-o", path)
    cases.holds("all templates are imported", status == 0, error[-300:])
    refused = [line for line in error.splitlines() if line.startswith("refused ")]
    cases.case("none is refused without a known reason", [line for line in refused if not any(reason in line for reason in REASONS)], [])
    print(f"       {error.splitlines()[-1]}")
    listed = json.loads(path.read_text(encoding="utf-8"))
    for number, batch in enumerate(batches(listed)):
        match = folder / "match.json"
        match.write_text(json.dumps(match_of(batch)))
        cases.holds(f"the program reads batch {number}, {len(batch)} templates", play(match)[0] == 0, play(match)[1])


def battle(cases, game, folder):
    """Forty against forty of the game's own units: imported, put into a match, played and drawn."""
    names = ["units/athen/infantry_spearman_b", "units/pers/infantry_archer_b"]
    templates, match, page = folder / "units.json", folder / "battle.json", folder / "battle.html"
    run_tool("import_0ad", game, *names, "-o", templates)
    status, _, error = run_tool("new_match", "--size", 64, 48, "--templates", templates, "--turns", 120, "--units", f"1={names[0]}:40",
                                "--units", f"2={names[1]}:40", "-o", match)
    cases.holds("a match of forty against forty", status == 0, error)
    status, text = play(match)
    cases.case("it is played", (status, text.count("\n")), (0, 121))
    done = subprocess.run([program(), "state", match, "120", folder / "state"], capture_output=True, check=False)
    shown = subprocess.run([program(), "show", match, folder / "state"], capture_output=True, text=True, check=False).stdout
    cases.holds("they fought: not all eighty stand", done.returncode == 0 and shown.count("entity") < 80, shown[:80])
    status, out, error = run_tool("view", match, "--every", 10, "-o", page)
    cases.holds("it is drawn", status == 0 and page.stat().st_size > 10000, (out, error))


def main():
    """Runs the check."""
    if len(sys.argv) < 2:
        sys.exit(__doc__)
    if len(sys.argv) > 2:
        os.environ["SIMCORE"] = os.path.abspath(sys.argv[2])
    cases = Cases()
    with tempfile.TemporaryDirectory() as folder:
        if program():
            read_all(cases, sys.argv[1], pathlib.Path(folder))
            battle(cases, sys.argv[1], pathlib.Path(folder))
        else:
            cases.holds("a program is there", False, "build it, or name it")
    cases.end()


if __name__ == "__main__":
    main()
