#!/usr/bin/env python3
"""All tests of the tools; the last line is `N passed, M failed`.

Usage: python3 tests/tools/run.py [--all] [PROGRAM]

PROGRAM is by default $SIMCORE, or the one that the gate leaves in crates/simcore/out. What needs something that is not there is
skipped: its line begins with `skipped`, and says what it needs. With --all that counts as a failure.
"""

import os
import sys
import traceback

WORDS = [it for it in sys.argv[1:] if it != "--all"]
if len(WORDS) > 1 or not all(os.path.isfile(it) and os.access(it, os.X_OK) for it in WORDS):
    print(f"run.py: it takes --all and one program, and {WORDS[-1]} is none", file=sys.stderr)
    sys.exit(2)
if WORDS:
    os.environ["SIMCORE"] = os.path.abspath(WORDS[0])

import chromium
import stand_in_kit
import test_explain
import test_import
import test_launcher
import test_new_match
import test_release
import test_view
from cases import Cases, program


def tell_needs():
    """A line for each thing that tests need of the machine, and whether it is there."""
    for name, found in (("the program", program()), ("Debian's gcc, libc6-dev, binutils, git and util-linux", not stand_in_kit.lacking()),
                        ("Debian's chromium", chromium.find())):
        print(f"{'found  ' if found else 'MISSING'} {name}", flush=True)


tell_needs()
ALL = Cases()
for module in (test_new_match, test_explain, test_import, test_launcher, test_release, test_view):
    print(f"== {module.__doc__.splitlines()[0]}", flush=True)
    try:
        module.test(ALL)
    except Exception:  # A fault of one part is told, and the others are tried.
        ALL.case(f"{module.__name__} goes through", traceback.format_exc(), "")
if "--all" in sys.argv:
    ALL.case("nothing was skipped", ALL.skipped, [])
ALL.end()
