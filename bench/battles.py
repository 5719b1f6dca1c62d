#!/usr/bin/env python3
"""What battles cost: matches whose units walk and fight, each a whole run of the program, by processor time.

Usage: python3 bench/battles.py [PROGRAM [BEFORE]] [--only WORDS]

PROGRAM is by default the one that ./simcore has built; with BEFORE an older program runs beside it, by turns, and must
print the same lines. WORDS are part of the name of a battle, to run it alone. The two trials print one line; `play` prints the
digest of each turn, also of the same two battles. It prints figures, and stops where a program fails. For reference, a fast
program without proofs, which keeps indexes, took 3 and 19 ms for the trials, 1,150 ms for its maze, whose turns are not known,
2,080 ms in peace and 550 ms at war, on a machine whose MD5 takes 500 MB/s.
"""

import json
import pathlib
import sys
import tempfile

from runs import least_of, md5_seconds

TOP = pathlib.Path(__file__).resolve().parent.parent
ROUNDS, ENOUGH = 5, 10
SOLDIER = {
    "@name": "soldier", "Health": {"Max": 100}, "Resist": {"Hack": 2, "Pierce": 1}, "Motion": {"Speed": 9},
    "Attack": {"Hack": "4.5", "Pierce": 2, "Range": 3, "Vision": 20, "Repeat": 4, "Accuracy": 90},
}


class Draw:
    """Numbers that are the same in every run, by the step of the random word of a match."""

    def __init__(self, seed):
        self.word = seed

    def below(self, limit):
        self.word = (self.word * 0x5DEECE66D + 0xB) % 2**48
        return (self.word >> 17) % limit


def match(**given):
    """A match of those keys, of which most have a value that suits."""
    base = {"size": [256, 256], "closed": [], "players": [[2], [1]], "cap": 4096, "delay": 1, "turns": 200, "seed": 7,
            "templates": [SOLDIER], "entities": [], "commands": []}
    return base | given


def groups(owners, owner):
    """The ids of a player's entities, as many to a list as a command may have."""
    ids = [2 + i for i, each in enumerate(owners) if each == owner]
    return [ids[at:at + 256] for at in range(0, len(ids), 256)]


def trial(units, turns):
    """The match that `trial 7 UNITS TURNS` plays: two armies, a wall with gaps between them, all told to walk to the middle."""
    draw, owners, entities = Draw(7), [1 + i % 2 for i in range(units)], []
    for owner in owners:
        x = draw.below(48) + (80 if owner == 2 else 0)
        entities.append(["soldier", owner, x, draw.below(128)])
    walks = [[1, owner, "walk", ids, 64, 64] for owner in (1, 2) for ids in groups(owners, owner)]
    return match(size=[128, 128], closed=[[60, 20, 67, 51], [60, 76, 67, 107]], cap=1000, delay=2, turns=turns,
                 entities=entities, commands=walks)


def walls():
    """The walls of a maze of 64 by 64 rooms, three cells wide each: every room is reached, and no two ways lead to one."""
    draw, seen, trail, doors = Draw(7), {(0, 0)}, [(0, 0)], set()
    while trail:
        x, z = trail[-1]
        near = [(x + a, z + b) for a, b in ((1, 0), (0, 1), (-1, 0), (0, -1))]
        near = [room for room in near if room not in seen and 0 <= min(room) and max(room) < 64]
        if not near:
            trail.pop()
            continue
        room = near[draw.below(len(near))]
        doors.add(frozenset((room, (x, z))))
        seen.add(room)
        trail.append(room)
    closed = []
    for k in range(64):
        for j in range(63):
            if frozenset(((j, k), (j + 1, k))) not in doors:
                closed.append([4 * j + 3, 4 * k, 4 * j + 3, 4 * k + 3])
            if frozenset(((k, j), (k, j + 1))) not in doors:
                closed.append([4 * k, 4 * j + 3, 4 * k + 3, 4 * j + 3])
    return closed


def maze(turns):
    """500 walkers in a maze, each of which is told another goal in each turn."""
    draw = Draw(7)
    owners = [1 + i % 8 for i in range(500)]

    def room():
        return [4 * draw.below(64) + 1, 4 * draw.below(64) + 1]

    entities = [["walker", owner, *room()] for owner in owners]
    walks = [[turn, owner, "walk", [2 + i], *room()] for turn in range(1, turns + 1) for i, owner in enumerate(owners)]
    return match(closed=walls(), players=[[]] * 8, turns=turns, templates=[{"@name": "walker", "Motion": {"Speed": 9}}],
                 entities=entities, commands=walks)


def soldiers(players, every):
    """4,096 soldiers, half of them of each player, who march in groups of 256 to goals that are new every so many turns."""
    draw, owners = Draw(7), [1 + i % 2 for i in range(4096)]
    entities = [["soldier", owner, draw.below(120) + (136 if owner == 2 else 0), draw.below(256)] for owner in owners]
    walks = [[turn, owner, "walk", ids, draw.below(256), draw.below(256)]
             for turn in range(1, 201, every) for owner in (1, 2) for ids in groups(owners, owner)]
    return match(players=players, entities=entities, commands=walks)


def battles():
    """Each battle by its name, with its match, or with none where its name is what the program is called with."""
    for units in 200, 1000:
        yield f"trial 7 {units} 400", None
        yield f"the same battle of {units} with each digest", trial(units, 400)
    yield "a maze, 500 walkers, a goal each turn, 10 turns", maze(10)
    yield "4,096 soldiers in peace, goals every 10 of 200 turns", soldiers([[], []], 10)
    yield "4,096 soldiers at war, 200 turns", soldiers([[2], [1]], 200)


def main():
    words = sys.argv[1:]
    only = words.pop(words.index("--only") + 1) if "--only" in words else ""
    words = [word for word in words if word != "--only"]
    programs = [pathlib.Path(word).resolve() for word in words] or [TOP / "crates/simcore/out/simcore"]
    print(f"MD5 alone, OpenSSL: {1 / md5_seconds(1_000_000, 50):.0f} MB/s; least of at most {ROUNDS} runs, processor time")
    with tempfile.TemporaryDirectory() as folder:
        for name, content in battles():
            if only not in name:
                continue
            path = pathlib.Path(folder) / "match.json"
            path.write_text(json.dumps(content, separators=(",", ":")))
            least, lines = least_of(ROUNDS, programs, ["play", path] if content else name.split(), ENOUGH)
            last = lines.splitlines()[-1].decode()
            print(f"{name:<54}" + "".join(f"{1e3 * took:9.1f} ms" for took in least) + f"  {last}", flush=True)


if __name__ == "__main__":
    main()
