#!/usr/bin/env python3
"""The program with the words that a viewer wants beside its own, for tests of how the viewer reads them.

Usage: wider_program.py WORDS.. with $SIMCORE the program. `check` agrees with every log; `record` writes the log of $RECORDED; by
`sight` player 1 has explored the western half; by `realm` he holds 8 cells. All other words go to the program.
"""

import os
import pathlib
import shutil
import subprocess
import sys

sys.path.insert(0, str(pathlib.Path(__file__).resolve().parent.parent.parent / "tools"))

from simtools.ground import read_json
from simtools.program import Program


def main(words):
    """Answers the words."""
    program = Program(os.environ["SIMCORE"])
    match words:
        case ["check", _, _]:
            print("agree 1")
        case ["record", _, _, out]:
            shutil.copy(os.environ["RECORDED"], out)
        case ["sight", match, _, out]:
            width, depth = read_json(match)["size"]
            half = bytes(int(cell % width < width // 2) for cell in range(width * depth))
            pathlib.Path(out).write_bytes(half * len(read_json(match)["players"]))
        case ["realm", _, _]:
            print("realm 1 held 8 rooted 5")
        case _:
            return subprocess.run([program.path, *words], check=False).returncode
    return 0


if __name__ == "__main__":
    sys.exit(main(sys.argv[1:]))
