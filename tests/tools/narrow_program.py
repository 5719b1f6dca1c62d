#!/usr/bin/env python3
"""The program without its words `film` and `parts`, for tests of how the viewer does without them.

Usage: narrow_program.py WORDS.. with $SIMCORE the program, to which all other words go.
"""

import os
import subprocess
import sys

MISSING = ("film", "parts")


def main(words):
    """Answers the words."""
    if words and words[0] in MISSING:
        print("usage: simcore play MATCH")
        return 2
    return subprocess.run([os.environ["SIMCORE"], *words], check=False).returncode


if __name__ == "__main__":
    sys.exit(main(sys.argv[1:]))
