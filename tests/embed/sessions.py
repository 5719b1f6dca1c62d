#!/usr/bin/env python3
"""Sessions through the library: clients and a server that are held, beside the program's `session`.

Usage: python3 tests/embed/sessions.py LIBRARY PROGRAM FOLDER

Every match NAME.json of the folder that has steps NAME-steps.json beside it is played by handles, step by step, with the pipes between them
kept here. The whole text must be that of `PROGRAM session NAME.json NAME-steps.json`: the events and their digests, what is released and
kept, where two clients differ, how all end, and what is still in the pipes. What the program refuses is left out, and so is not counted.
A bend, which no call of a client makes, is done by a load: the client is cut, hears its own state with another health, and again all that
it knew. The last line is `N passed, M failed`.
"""

import collections
import json
import pathlib
import subprocess
import sys

sys.path.insert(0, str(pathlib.Path(__file__).resolve().parent.parent.parent / "examples/embed"))
from handles import STAGES, Client, Server, frames  # noqa: E402
from simcore import Core, Refused  # noqa: E402

COMMAND_UP, STATE_DOWN, COMMAND_DOWN, NOTICE, REFUSED = 2, 2, 3, 5, 6
ROWS = {1: 6, 2: 12, 3: 5, 4: 8, 5: 15, 6: 10, 7: 5}


def number_at(data, offset):
    """Four bytes, the lowest first."""
    return int.from_bytes(data[offset:offset + 4], "little")


def raw_of(leaf):
    """The number that a fixed leaf is, in units of 1/65536; it is rounded down where it is not negative."""
    whole, _, rest = str(leaf).partition(".")
    value = int(whole + rest) * 65536 // 10 ** len(rest) if not whole.startswith("-") else -1
    return value if value < 1 << 31 else -1


def health_at(state, entity):
    """Where the health of an entity stands in a state, or None. Only the rows of motion have no length of their own."""
    offset = 40
    for tag in range(1, 5):
        count = number_at(state, offset + 1)
        rows = range(offset + 5, offset + 5 + count * ROWS[tag], ROWS[tag])
        found = [row + 4 for row in rows if tag == 4 and number_at(state, row) == entity]
        offset += 5 + count * ROWS[tag]
    return found[0] if found else None


class Session:
    """Clients, a server, the pipes between them, and the lines of what happens."""

    def __init__(self, core, data, steps):
        self.match, active = core.match(data), steps["clients"]
        self.server, self.all = Server(core, data, active), range(1, self.match.facts.players + 1)
        self.clients = {it: Client(core, data, it, begins=it <= active) for it in self.all}
        self.up, self.down, self.known = ({it: collections.deque() for it in self.all} for _ in range(3))
        self.ordered, self.kept = collections.Counter(), collections.Counter()
        self.lines = [f"client {it} start 0 {self.clients[it].stamp().digest}" for it in range(1, active + 1)]
        for step, client, *rest in steps["steps"]:
            getattr(self, f"do_{step}")(client, *rest)

    def tell(self, client, what):
        """A line of an event, with the turn and the digest of the client's state."""
        digest, turn = self.clients[client].stamp()
        self.lines.append(f"client {client} {what} {turn} {digest}")

    def stage(self, client):
        """The stage of a client by its name."""
        return STAGES[self.clients[client].standing().stage]

    def said(self, client):
        """What a client said goes into its pipe."""
        self.up[client] += frames(self.clients[client].take())

    def posted(self):
        """What the server said goes into the pipes; all of it."""
        posts = {it: list(frames(self.server.take(it))) for it in self.all}
        for client, told in posts.items():
            self.down[client] += told
        noticed = {(number_at(it, 5), it[9]) for told in posts.values() for it in told if it[4] == NOTICE}
        self.lines += [f"notice {turn} {client} {'quick' if turn % 20 else 'full'}" for turn, client in sorted(noticed)]
        return posts

    def do_order(self, client, kind, *rest):
        """An order."""
        turn = self.clients[client].standing().done + 1
        if self.clients[client].order(kind, *rest):
            self.ordered[client] += 1
            self.lines.append(f"client {client} order {turn}")
            self.said(client)

    def do_up(self, client):
        """The server hears a frame. A command that comes back to its sender was accepted, and is kept."""
        if self.up[client]:
            frame = self.up[client].popleft()
            self.server.hear(client, frame)
            if any(it[4] == COMMAND_DOWN for it in self.posted()[client]) and frame[4] == COMMAND_UP:
                self.kept[number_at(frame, 5)] += 1

    def do_down(self, client):
        """A client hears a frame."""
        if not self.down[client]:
            return
        frame, stage = self.down[client].popleft(), self.stage(client)
        happened = self.clients[client].hear(frame)
        if frame[4] == COMMAND_DOWN and happened:
            self.known[client].append(frame)
        if frame[4] == STATE_DOWN and happened:
            self.known[client].clear()
            self.ordered[client] = 0
            self.tell(client, "load")
        if frame[4] == REFUSED:
            self.lines.append(f"client {client} refused {frame[5]}")
        assert happened or self.stage(client) == stage
        self.said(client)

    def do_play(self, client):
        """A turn is played."""
        done = self.clients[client].standing().done
        if self.clients[client].play(1):
            self.ordered[client] *= self.clients[client].standing().done == done
            self.tell(client, "play")
            self.said(client)

    def do_join(self, client):
        """A client wishes to join."""
        if self.clients[client].join():
            self.lines.append(f"client {client} join")
            self.said(client)

    def do_cut(self, client):
        """A connection ends."""
        if self.stage(client) != "off":
            self.clients[client].cut()
            self.server.cut(client)
            self.up[client].clear()
            self.down[client].clear()
            self.lines.append(f"client {client} cut")
            self.posted()

    def do_bend(self, client, entity, health):
        """The health of an entity becomes another one, where that is a state of the match."""
        if self.stage(client) != "on":
            return
        state = self.clients[client].state().bytes
        place, raw = health_at(state, entity), raw_of(health)
        bent = state if place is None or raw < 0 else state[:place] + raw.to_bytes(4, "little") + state[place + 4:]
        try:
            self.match.digest(bent)
        except Refused:
            return
        if place is not None and raw >= 0:
            self.load(client, bent)
            self.tell(client, "bend")

    def load(self, client, state):
        """Has a client begin anew at a state, with all else as it was."""
        held, stands = self.clients[client], self.clients[client].standing()
        held.cut()
        held.join()
        hear = [stands.done.to_bytes(4, "little") + state, stands.released.to_bytes(4, "little")]
        for tag, body in zip((2, 4), hear):
            held.hear((len(body) + 1).to_bytes(4, "little") + bytes([tag]) + body)
        for frame in self.known[client]:
            held.hear(frame)
        for _ in range(self.ordered[client]):
            held.order("resign")
        held.take()

    def differences(self):
        """A line for each pair of clients that are on at equal turns and differ."""
        states = {it: self.clients[it].state().bytes for it in self.all if self.stage(it) == "on"}
        for left in states:
            for right in states:
                if left < right and number_at(states[left], 24) == number_at(states[right], 24) and states[left] != states[right]:
                    entity, part = self.match.compare(states[left], states[right])
                    yield f"differ {left} {right} entity {entity} part {part}"

    def ends(self):
        """How each client ends, and what is in its pipes."""
        for it in self.all:
            stamp = self.clients[it].stamp() if self.stage(it) == "on" else None
            yield f"end {it} on {stamp.turn} {stamp.digest}" if stamp else f"end {it} {self.stage(it)}"
        for it in self.all:
            yield from ("".join([f"pipe {it} {name}", *(f" {len(frame)}" for frame in pipe)]) for name, pipe in (("up", self.up[it]), ("down", self.down[it])))

    def text(self):
        """All lines."""
        kept = [f"kept {turn} {count}" for turn, count in sorted(self.kept.items())]
        return "\n".join([*self.lines, f"released {self.server.released()}", *kept, *self.differences(), *self.ends(), ""])


def compare(core, program, match, steps):
    """The text of the program and that of the library; or None where the program refuses the match or the steps."""
    ran = subprocess.run([program, "session", match, steps], capture_output=True, text=True, check=False, timeout=60)
    return None if ran.returncode else (ran.stdout, Session(core, match.read_bytes(), json.loads(steps.read_text(encoding="utf-8"))).text())


def main(library, program, folder):
    """Compares all sessions of a folder."""
    core, found = Core(library), collections.Counter()
    for steps in sorted(pathlib.Path(folder).glob("*-steps.json")):
        texts = compare(core, program, steps.with_name(steps.name.replace("-steps", "")), steps)
        if texts is None:
            continue
        found[texts[0] == texts[1]] += 1
        if texts[0] != texts[1]:
            apart = next((pair for pair in zip(*(text.splitlines() for text in texts)) if pair[0] != pair[1]), "one is longer")
            print(f"FAILED {steps.name}: {apart}", flush=True)
    print(f"{found[True]} passed, {found[False]} failed")
    return 1 if found[False] else 0


if __name__ == "__main__":
    sys.exit(main(*sys.argv[1:]))
