"""How the tests of the tools count: a line a case, and a last line `N passed, M failed`."""

import os
import pathlib
import subprocess
import sys

TOP = pathlib.Path(__file__).resolve().parent.parent.parent
sys.path.insert(0, str(TOP / "tools"))
BUILT = TOP / "crates/simcore/out/simcore"


def program():
    """The program that tests run: $SIMCORE, or the built one; None where there is neither."""
    path = os.environ.get("SIMCORE") or BUILT
    return str(path) if os.access(path, os.X_OK) else None


# What tests start beside a tool finds the same program.
if program():
    os.environ["SIMCORE"] = program()


class Cases:
    """Cases that passed and failed."""

    def __init__(self):
        self.passed = self.failed = 0
        self.skipped = []

    def case(self, name, got, wanted):
        """One line for one case, which passes where both values are equal."""
        good = got == wanted
        self.passed, self.failed = self.passed + good, self.failed + (not good)
        print(f"{'ok    ' if good else 'FAILED'} {name}" + ("" if good else f": got {got!r}, wanted {wanted!r}"), flush=True)

    def holds(self, name, truth, said=""):
        """One line for one case that is true or false."""
        self.case(name, (bool(truth), "" if truth else said), (True, ""))

    def skip(self, name, why):
        """One line for what can't be tried here."""
        self.skipped.append(why)
        print(f"skipped {name}: {why}", flush=True)

    def end(self):
        """The last line, and the status."""
        print(f"{self.passed} passed, {self.failed} failed")
        sys.exit(1 if self.failed else 0)


def run_tool(name, *words, stdin=subprocess.DEVNULL):
    """The status, standard output and standard error of a tool."""
    done = subprocess.run([sys.executable, TOP / "tools" / name, *map(str, words)], stdin=stdin, capture_output=True, text=True, check=False)
    return done.returncode, done.stdout, done.stderr


def bad_input(cases, tool, *rows):
    """A case for each row: words that the tool refuses with status 2 and one line on standard error with some text in it."""
    for name, words, text in rows:
        status, out, error = run_tool(tool, *words)
        good = (status, out, error.count("\n")) == (2, "", 1) and text in error and error.startswith(f"{tool}: ")
        cases.holds(f"{tool} on {name}", good, (status, out, error))
    status, out, error = run_tool(tool, "--help")
    cases.holds(f"{tool} --help", status == 0 and out.startswith("usage:") and not error, (status, out, error))
