"""tools/view: plays a match and writes one HTML file that draws it.

The program's word `film` tells all turns in one run. A program that does not know it is asked for the `state` of each chosen
turn, which plays the match anew each time.
"""

import hashlib
import json
import pathlib
import sys
import tempfile

from . import knowledge
from .faults import ToolFault, Words, read_bytes, write_text
from .frames import ShownText, shown_row
from .ground import read_ground, read_json, template_line
from .page import page_text
from .program import USAGE, Program, add_option
from .replay import match_of, read_log
from .sessions import read_session
from .stored import StoredFault, frame_of, read_stored


def parse(words):
    """The words of the command line."""
    parser = Words(prog="view", description="Draw a match as one HTML file that needs no network.",
                   epilog="docs/VIEWER.md says what the page shows.")
    parser.add_argument("match", metavar="MATCH", help="a match file")
    what = parser.add_mutually_exclusive_group()
    what.add_argument("--steps", metavar="STEPS", help="draw a session: the clients' events, and the turns that the server kept")
    what.add_argument("--log", metavar="LOG", help="draw a replay log of the match")
    what.add_argument("--states", nargs=2, metavar=("A", "B"), help="draw two stored states, with what differs in red")
    parser.add_argument("-o", metavar="FILE", dest="out", help="the file to write (default: MATCH with .html; - is standard output)")
    parser.add_argument("--every", type=int, default=1, metavar="N", help="draw each Nth turn, and the last (default: each)")
    add_option(parser)
    asked = parser.parse_args(words)
    if asked.every < 1:
        parser.error("--every takes a number from 1")
    return asked


def main(words):
    """Draws what the words ask for."""
    asked = parse(words)
    program = Program(asked.program)
    drawn = Drawing(program, asked.match, asked.every)
    if asked.states:
        text = drawn.states(*asked.states)
    elif asked.log:
        text = drawn.log(asked.log, f"{asked.match}, log {asked.log}")
    else:
        text = drawn.session(asked.steps) if asked.steps else drawn.match()
    out = asked.out or f"{pathlib.PurePath(asked.match).stem}.html"
    write_text(out, text)
    if out != "-":
        print(f"{out}: {len(text) / 1e6:.1f} MB")


def stored_frame(name):
    """The frame of a stored state. Its digest is MD5 of the bytes as they are stored."""
    data = read_bytes(name)
    try:
        return frame_of(read_stored(data), hashlib.md5(data).hexdigest())
    except StoredFault as fault:
        raise ToolFault(f"{name} is no stored state: {fault.why}") from None


def row_in(frame, identity, names):
    """The row of an entity as `show` prints it, or nothing where it is not there."""
    return shown_row(frame, frame.ids.index(identity), names) if identity in frame.ids else ""


class Drawing:
    """A match that is drawn by a program."""

    def __init__(self, program, match, every):
        self.program, self.path, self.every = program, match, every

    def page(self, title, frames, ground=None, **more):
        """The page of some frames."""
        ground = ground or read_ground(self.program, self.path)
        return page_text(title, ground, frames, [template_line(it) for it in ground.templates], **more)

    def match(self):
        """The page of the match as it is played, with what the program tells beside."""
        ground, turns = read_ground(self.program, self.path), read_json(self.path)["turns"]
        more = {"explored": knowledge.explored(self.program, self.path, turns), "realm": knowledge.realm(self.program, self.path, turns)}
        return self.page(self.path, self.film(self.path, ground), ground, kind="match", **more)

    def film(self, path, ground, turns=None):
        """The frames of each chosen turn of a match file."""
        lines = self.program.lines("film", path, self.every)
        if lines is not None:
            return ShownText(ground.names).frames(lines)
        return self.states_of(path, turns if turns is not None else read_json(path)["turns"])

    def states_of(self, path, turns):
        """The frames of chosen turns, each from the state that the program stores of it."""
        chosen = sorted({*range(0, turns + 1, self.every), turns})
        if len(chosen) > 200:
            print(f"view: this program has no `film`, so the match is played {len(chosen)} times; --every N takes fewer turns", file=sys.stderr)
        with tempfile.TemporaryDirectory() as folder:
            for turn in chosen:
                out = f"{folder}/state"
                line = self.program.run("state", path, turn, out)
                yield frame_of(read_stored(read_bytes(out)), line.split()[3])

    def states(self, left, right):
        """The page of two stored states, as `compare` sees them."""
        said = self.program.run("compare", self.path, left, right, good=(0, 1))
        frames = [stored_frame(name) for name in (left, right)]
        lines = said.splitlines()
        first = None
        ground = read_ground(self.program, self.path)
        if len(lines) == 3:
            words = lines[0].split()
            rows = [row_in(frame, int(words[2]), ground.names) for frame in frames]
            first = {"entity": int(words[2]), "part": words[4], "text": "\n".join([*lines, *filter(None, rows)])}
        title = f"{self.path}: {left} and {right}"
        return self.page(title, frames, ground, kind="states", labels=[f"A: {left}", f"B: {right}"], difference=first)

    def log(self, name, title, **more):
        """The page of a replay log: the log's commands are played in place of the match's."""
        log = read_log(read_bytes(name).decode("utf-8", "replace"), name)
        said = self.program.run("check", self.path, name, good=(0, 1)).strip()
        more.setdefault("kind", "log")
        if said.startswith("differ"):
            more["difference"] = {"entity": 0, "part": "", "text": f"the log is not true:\n{said}"}
        return self.page(title, self.log_frames(log), **more)

    def log_frames(self, log):
        """The frames of a log, each with the digest that the log says."""
        with tempfile.TemporaryDirectory() as folder:
            path = f"{folder}/match.json"
            write_text(path, json.dumps(match_of(read_json(self.path), log)))
            for frame in self.film(path, read_ground(self.program, path), len(log.digests) - 1):
                frame.digest = log.digests[frame.turn]
                yield frame

    def session(self, steps):
        """The page of a session: the server's turns on the ground, the clients' events beside it."""
        session = read_session(self.program.run("session", self.path, steps))
        ground = read_ground(self.program, self.path)
        more = {"kind": "session", "events": session.events, "difference": session.difference}
        title = f"{self.path}, steps {steps}"
        with tempfile.TemporaryDirectory() as folder:
            status, text = self.program.try_run("record", self.path, steps, f"{folder}/log")
            if status == 0:
                return self.log(f"{folder}/log", title, **more)
        if status != USAGE:
            raise self.program.fault(status, text, ("record", self.path, steps))
        print("view: this program has no `record`, so the ground is drawn as it is at the start", file=sys.stderr)
        return self.page(title, self.states_of(self.path, 0), ground, **more)
