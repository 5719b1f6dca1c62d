#!/usr/bin/env python3
"""What templates cost: matches of 256 templates in chains of 16, and of hostile trees, some as long as a file may be.

Usage: python3 bench/trees.py [PROGRAM]

PROGRAM is by default the one that ./simcore has built. Each figure is a whole run of `play`, the reading of the JSON
included, as the best of three, and the most memory that it held; what this script itself holds is the least figure that
can show there. It prints figures and asserts nothing. The target for the first is 100 ms; it ends with a refusal of code
7, since trees of 200 nodes have more than a template's parts, and all of them are resolved before.
"""

import json
import os
import pathlib
import subprocess
import sys
import tempfile
import time

TOP = pathlib.Path(__file__).resolve().parent.parent
PROGRAM = pathlib.Path(sys.argv[1] if len(sys.argv) > 1 else TOP / "crates/simcore/out/simcore").resolve()


MOST = 16_777_216


def match(templates):
    return json.dumps({"size": [4, 4], "closed": [], "players": [[]], "cap": 0, "delay": 1, "turns": 0, "seed": 0,
                       "templates": templates, "entities": [], "commands": []}, separators=(",", ":"))


def chained(nodes):
    """256 templates: 16 chains of 16, each template with so many nodes of its own."""
    trees = []
    for i in range(256):
        tree = {"@name": f"t{i}"}
        if i % 16:
            tree["@parent"] = f"t{i - 1}"
        for k in range(nodes // 4):
            tree[f"part{k}"] = {"a": str(i), "b": "1 2 3", "c": {"@op": "add", "_": 1} if i % 16 else 1}
        trees.append(tree)
    return trees


def deep(levels):
    tree = {"Max": 1}
    for _ in range(levels):
        tree = {"x": tree}
    return {"@name": "deep", "y": tree}


def listed(words):
    """A list of so many words over another: a third of them takes words away, the others are added."""
    lower = " ".join(f"{i:06}" for i in range(words))
    upper = " ".join(f"-{i:06}" if i % 3 == 0 else f"x{i:06}" for i in range(words))
    return [{"@name": "lower", "Train": {"Units": lower}},
            {"@name": "upper", "@parent": "lower", "Train": {"Units": {"@tokens": 1, "_": upper}}}]


def children(count):
    return {f"c{i:07}": 0 for i in range(count)}


def deep_children(count, levels):
    """A tree of so many children, each of so many levels."""
    tree = 1
    for _ in range(levels - 1):
        tree = {"a": tree}
    return {"@name": "deep", **{f"c{i:07}": tree for i in range(count)}}


def heirs(base, own):
    """A template and 255 that inherit it, each with these children of its own."""
    return [{"@name": "base", **base}] + [{"@name": f"h{i}", "@parent": "base", **own} for i in range(255)]


def one_word_over(words):
    lower = " ".join(f"{i:06}" for i in range(words))
    return heirs({"Train": {"Units": lower}}, {"Train": {"Units": {"@tokens": 1, "_": "x"}}})


CASES = [
    ("256 templates, chains of 16, 200 nodes", lambda: match(chained(200))),
    ("the same with 20 nodes", lambda: match(chained(20))),
    ("256 posts", lambda: match([{"@name": f"t{i}", "Health": {"Max": 50}} for i in range(256)])),
    ("256 posts that inherit", lambda: match(
        [{"@name": f"t{i}", "Health": {"Max": 50}} if i % 16 == 0 else
         {"@name": f"t{i}", "@parent": f"t{i - 1}", "Health": {"Max": {"@op": "add", "_": 1}}} for i in range(256)])),
    ("100,000 templates of one part", lambda: match([{"@name": f"t{i}", "Health": {"Max": 50}} for i in range(100_000)])),
    ("a tree of 20,000 children", lambda: match([{"@name": "wide", "Health": {f"c{i:06}": i for i in range(20_000)}}])),
    ("2,000 trees of 30 levels", lambda: match([deep(28) for _ in range(2_000)])),
    ("100,000 words over 100,000", lambda: match(listed(100_000))),
    ("1,000,000 words over 1,000,000", lambda: match(listed(1_000_000))),
    ("90,000 children of 28 levels", lambda: match([deep_children(90_000, 28)])),
    ("1,200,000 children", lambda: match([{"@name": "wide", **children(1_200_000)}])),
    ("255 heirs of 2,000 children", lambda: match(heirs(children(2_000), {}))),
    ("255 heirs of 20,000 children", lambda: match(heirs(children(20_000), {}))),
    ("255 heirs with a word over 10,000", lambda: match(one_word_over(10_000))),
    ("255 heirs with a word over 100,000", lambda: match(one_word_over(100_000))),
    ("a list of 1,000,000 words", lambda: match([{"@name": "w", "Train": {"Units": "w " * 1_000_000}}])),
]


def run(path):
    """How long a run takes, the most memory that it holds in MB, and its first line."""
    with tempfile.TemporaryFile() as out:
        start = time.perf_counter()
        child = subprocess.Popen([PROGRAM, "play", path], stdout=out)
        _, status, used = os.wait4(child.pid, 0)
        took = time.perf_counter() - start
        child.returncode = os.waitstatus_to_exitcode(status)
        out.seek(0)
        return took, used.ru_maxrss / 1024, out.readline().decode().strip()


def main():
    with tempfile.TemporaryDirectory() as name:
        path = pathlib.Path(name) / "m"
        for title, made in CASES:
            size = path.write_text(made())
            assert size <= MOST, title
            took, held, said = min(run(path) for _ in range(3))
            print(f"{title:<40} {size:>9} bytes {took * 1e3:9.1f} ms {held:7.0f} MB   {said[:24]}")


if __name__ == "__main__":
    main()
