"""The program, run by a tool: which one it is, what it printed, and a fault in words where it refused."""

import os
import pathlib
import subprocess

from .faults import ToolFault

TOP = pathlib.Path(__file__).resolve().parent.parent.parent
BUILT = TOP / "crates/simcore/out/simcore"
USAGE = 2
STATUSES = {2: "the program does not know these words", 3: "a file can't be read", 4: "the output can't be written",
            5: "a file is too long", 9: "the program found no memory", 11: "a file is not there", 125: "the program was not built"}


def add_option(parser):
    """The option by which a user names the program."""
    parser.add_argument("--program", metavar="FILE", default=os.environ.get("SIMCORE"),
                        help="the program to run (default: $SIMCORE, or else the one that ./simcore builds)")


class Program:
    """A program with its path."""

    def __init__(self, path=None):
        self.path = pathlib.Path(path) if path else BUILT
        if not os.access(self.path, os.X_OK) or self.path.is_dir():
            build = "" if path else "; ./simcore builds it, and --program names another, as out/unproved/simcore"
            raise ToolFault(f"no program stands at {self.path}{build}")

    def _words(self, words):
        return [str(self.path.resolve()), *map(str, words)]

    def try_run(self, *words):
        """The status and the text of a run."""
        done = subprocess.run(self._words(words), stdin=subprocess.DEVNULL, capture_output=True, check=False)
        return done.returncode, done.stdout.decode("utf-8", "replace")

    def run(self, *words, good=(0,)):
        """The text of a run that is to end with a good status."""
        status, text = self.try_run(*words)
        if status not in good:
            raise self.fault(status, text, words)
        return text

    def fault(self, status, text, words):
        """What is said of a run that did not end well."""
        why = text.strip() if status not in STATUSES and text else STATUSES.get(status, f"status {status}")
        hint = " (tools/explain says more)" if " refused " in why else ""
        return ToolFault(f"{' '.join(map(str, words[1:2]))}: {why}{hint}")

    def lines(self, *words):
        """The lines of a run as they come, or None where the program does not know the word. A run that fails is a fault."""
        run = subprocess.Popen(self._words(words), stdin=subprocess.DEVNULL, stdout=subprocess.PIPE, text=True, errors="replace")
        first = run.stdout.readline()
        if first.startswith("usage:"):
            run.communicate()
            return None
        return self._rest(run, first, words)

    def _rest(self, run, first, words):
        with run:
            if first:
                yield first
            if " refused " not in first:
                yield from run.stdout
        if run.returncode:
            raise self.fault(run.returncode, first if " refused " in first else "", words)
