#!/usr/bin/env python3
"""What a session costs: 100,000 steps of eight clients, whose 160 soldiers fight for 893 turns; and a client that joins,
loads a state of 4,096 soldiers on their ways and is cut, again and again.

Usage: python3 bench/sessions.py [PROGRAM [BEFORE]] [--part N]

PROGRAM is by default the one that ./simcore has built; with BEFORE an older program runs beside it, by turns, and must print
the same lines. With --part only one N-th of the steps, rows and joinings is made, to try the script. The matches and steps
follow a fixed rule, so they are the same in every run. It prints figures of processor time, and stops where a program fails.
For reference: a fast program without proofs took 540 ms for a session of as many steps, plays and soldiers, of which MD5 took
a fifth; what its soldiers did is not known, so that figure is only near to what ours does.
"""

import json
import pathlib
import sys
import tempfile

from battles import SOLDIER, groups
from runs import least_of, md5_seconds

TOP = pathlib.Path(__file__).resolve().parent.parent
CLIENTS, OWN, STEPS, ROWS, JOININGS, ROUNDS, ENOUGH = 8, 20, 100_000, 4096, 40, 5, 20
# Its shots take so little that nobody falls, and each turn costs as much as the one before.
FIGHTER = SOLDIER | {"Health": {"Max": 16_000}, "Attack": SOLDIER["Attack"] | {"Hack": "0.05", "Pierce": 0}}


def match(**given):
    """A match without commands of its own, as a session has it."""
    base = {"size": [128, 128], "closed": [], "cap": ROWS, "delay": 1, "turns": 1000, "seed": 7, "commands": []}
    return base | given


def place(i):
    """Where the i-th fighter begins: eight blocks in two rows, so near to each other that everyone has an enemy in reach."""
    return 56 + 4 * (i % 4) + i // 8 % 5 * 2, 56 + 8 * (i % 8 // 4) + i // 40 * 2


def fight():
    """Eight players, each the enemy of all others, with 20 fighters each."""
    players = [[each for each in range(1, CLIENTS + 1) if each != own] for own in range(1, CLIENTS + 1)]
    entities = [["fighter", 1 + i % CLIENTS, *place(i)] for i in range(CLIENTS * OWN)]
    return match(players=players, templates=[FIGHTER | {"@name": "fighter"}], entities=entities)


def walk(client, turn):
    """The order of a client in a turn: one of its fighters goes to its place or a step or two beside it."""
    i = client - 1 + CLIENTS * (turn % OWN)
    x, z = place(i)
    return ["order", client, "walk", [2 + i], x + turn // OWN % 5 - 2, z + turn // 5 % 5 - 2]


def fighting(count):
    """So many steps. In each round every client plays a turn and gives an order, the server hears all that they say, and every
    client hears what all have ordered and that the turn is released."""
    steps, turn = [], 0
    while len(steps) < count:
        steps += [["play", c] for c in range(1, CLIENTS + 1)]
        steps += [walk(c, turn) for c in range(1, CLIENTS + 1)]
        steps += [["up", c] for c in range(1, CLIENTS + 1) for _ in range(3)]
        steps += [["down", c] for c in range(1, CLIENTS + 1) for _ in range(CLIENTS + 1)]
        turn += 1
    return steps[:count]


def crowd(rows):
    """So many soldiers of one player, and a second player who has none."""
    entities = [["soldier", 1, i % 64, i // 64] for i in range(rows)]
    return match(size=[256, 256], players=[[], []], templates=[SOLDIER], entities=entities)


def joining(rows, count):
    """Client 1 sends its soldiers far away, and plays two turns. Then client 2 joins, loads the state and is cut, so many
    times, and once more it joins, and its state is left in the pipe."""
    walks = [["order", 1, "walk", ids, "100.5", "31.5"] for ids in groups([1] * rows, 1)]
    told = len(walks)
    steps = walks + [["up", 1]] * told + [["play", 1]] + [["up", 1]] * 2 + [["down", 1]] * (told + 1)
    steps += [["play", 1]] + [["up", 1]] * 2 + [["down", 1]]
    asked = [["join", 2], ["up", 2], ["down", 1], ["up", 1]]
    return steps + (asked + [["down", 2], ["cut", 2]]) * count + asked


def timed(folder, programs, match, clients, steps):
    """The least seconds of each program over a session, and the lines that it prints."""
    for name, content in (("match", match), ("steps", {"clients": clients, "steps": steps})):
        (folder / name).write_text(json.dumps(content, separators=(",", ":")))
    least, text = least_of(ROUNDS, programs, ["session", folder / "match", folder / "steps"], ENOUGH)
    return least, text.decode().splitlines()


def show(name, seconds, more):
    print(f"{name:<46}" + "".join(f"{1e3 * took:9.2f} ms" for took in seconds) + f"  {more}", flush=True)


def measure_fight(folder, programs, part):
    """A whole run, the reading of its two files included."""
    steps = fighting(STEPS // part)
    least, lines = timed(folder, programs, fight(), CLIENTS, steps)
    plays = sum(line.split()[2] == "play" for line in lines if line.startswith("client"))
    assert plays == sum(step[0] == "play" for step in steps), "a turn was not played"
    show(f"{len(steps)} steps, {CLIENTS * OWN} soldiers, {plays} plays", least, f"{1e6 * least[0] / plays:.1f} us a play, all in all")


def measure_loads(folder, programs, part):
    """A load, from the question for the state until the client is on, the digest that is printed of it included."""
    rows, count = ROWS // part, max(1, JOININGS // part)
    few, _ = timed(folder, programs, crowd(rows), 1, joining(rows, 0))
    many, lines = timed(folder, programs, crowd(rows), 1, joining(rows, count))
    assert sum(line.startswith("client 2 load") for line in lines) == count, "a state was not loaded"
    size = int(lines[-1].split()[3]) - 9
    digest = 1e3 * md5_seconds(size, 20)
    show(f"a load of {rows} rows, {size} bytes", [(after - before) / count for before, after in zip(few, many)],
         f"MD5 of them alone, OpenSSL: {digest:.2f} ms")


def main():
    words = sys.argv[1:]
    part = int(words.pop(words.index("--part") + 1)) if "--part" in words else 1
    words = [word for word in words if word != "--part"]
    programs = [pathlib.Path(word).resolve() for word in words] or [TOP / "crates/simcore/out/simcore"]
    print(f"least of at most {ROUNDS} runs, processor time")
    with tempfile.TemporaryDirectory() as name:
        for measure in (measure_fight, measure_loads):
            measure(pathlib.Path(name), programs, part)


if __name__ == "__main__":
    main()
