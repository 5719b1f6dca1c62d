"""The text of `session`, read into what a page shows: the events of each client, and where clients differ."""

import re
from dataclasses import dataclass, field

_EVENT = re.compile(r"client (\d+) (start|play|load|bend) (\d+) ([0-9a-f]{32})")
_PLAIN = re.compile(r"client (\d+) (.+)")
_NOTICE = re.compile(r"notice (\d+) (\d+)(?: (\w+))?")
_DIFFER = re.compile(r"differ (\d+) (\d+) entity (\d+) part (\w+)")


@dataclass
class Session:
    """The events in order, each a client, a text and whether it is off; what is released; the first difference or None."""

    events: list = field(default_factory=list)
    released: int = 0
    difference: dict | None = None


class _Reader:
    """Follows which clients stand for the server's turns: a bent one does not, nor one that loaded its state."""

    def __init__(self):
        self.session, self.first, self.bent = Session(), {}, {}

    def hear(self, client, what, turn, digest):
        """One event with a digest. A digest that an unbent client printed first is that of the turn."""
        if what == "bend":
            self.bent[client] = True
        elif what == "load":
            self.bent[client] = self.first.get(turn, digest) != digest
        if not self.bent.get(client):
            self.first.setdefault(turn, digest)
        off = self.first.get(turn) != digest
        self.session.events.append([client, f"{what} {turn} {digest[:8]}", off])

    def line(self, line):
        """One line of the text."""
        if found := _EVENT.fullmatch(line):
            self.hear(int(found[1]), found[2], int(found[3]), found[4])
        elif found := _NOTICE.fullmatch(line):
            kind = f" {found[3]}" if found[3] else ""
            self.session.events.append([int(found[2]), f"notice of turn {found[1]}{kind}", True])
        elif found := _PLAIN.fullmatch(line):
            self.session.events.append([int(found[1]), found[2], False])
        elif line.startswith("released "):
            self.session.released = int(line.split()[1])
        elif (found := _DIFFER.fullmatch(line)) and self.session.difference is None:
            text = f"clients {found[1]} and {found[2]} differ first at entity {found[3]}, part {found[4]}"
            self.session.difference = {"entity": int(found[3]), "part": found[4], "text": text}


def read_session(text):
    """What the text of `session` says."""
    reader = _Reader()
    for line in text.splitlines():
        reader.line(line)
    return reader.session
