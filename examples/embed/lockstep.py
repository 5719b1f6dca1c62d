#!/usr/bin/env python3
"""A networked match by the core's own protocol: a server and its clients, over TCP on the loopback. docs/EMBEDDING.md tells it step by step.

    python3 examples/embed/lockstep.py LIBRARY serve                                the server, whose first line is its port
    python3 examples/embed/lockstep.py LIBRARY PORT PLAYER [waits|joins|lags|lies]  a client; LIBRARY is PREFIX/lib/libsimcore.so

What travels are the frames of docs/PROTOCOL.md, as the core made them, behind one byte that says whose connection it is. The server knows
no rule of the game, and each client computes every turn by itself. examples/embed/networked.py starts them all, and kills one.
"""

import asyncio
import json
import sys
import time

from handles import MOST_FRAME, STAGES, Client, Server, frame_length
from simcore import Core, Refused

PLAYERS, DELAY, TURNS, BACK, LIE, SECONDS = 4, 3, 60, 10, 14, 60
ASK, COMMAND, NOTICE = 1, 3, 5
MATCH = json.dumps({
    "size": [64, 16], "closed": [[30, 0, 33, 5], [30, 10, 33, 15]], "players": [[2, 3, 4], [1, 3, 4], [1, 2, 4], [1, 2, 3]], "cap": 0,
    "delay": DELAY, "turns": TURNS, "seed": 3,
    "templates": [{"@name": "guard", "Health": {"Max": 60}, "Motion": {"Speed": 3}, "Resist": {"Hack": 2},
                   "Attack": {"Hack": 8, "Range": 1, "Vision": 6, "Repeat": 2}}],
    "entities": [["guard", player, x, z] for player, x in ((1, 2), (2, 61), (3, 18), (4, 45)) for z in (6, 7, 8, 9)],
    "commands": []}).encode()


async def frames_of(reader):
    """The frames of a connection, to its end or its loss, or to what cannot be one."""
    try:
        while frame_length(head := await reader.readexactly(4)) <= MOST_FRAME:
            yield head + await reader.readexactly(frame_length(head) - 4)
    except (asyncio.IncompleteReadError, ConnectionError):
        pass


class Host:
    """What the server's process does beside the server: it carries frames, and cuts off whose connection has ended."""

    def __init__(self, core):
        self.server, self.writers, self.told = Server(core, MATCH, PLAYERS), {}, []

    async def serve(self, reader, writer):
        """A connection, from the byte that says whose it is to its end."""
        client = int.from_bytes(await reader.read(1), "little")
        self.leave(client, self.writers.get(client))
        self.writers[client] = writer
        self.send()
        async for frame in frames_of(reader):
            if self.writers.get(client) is not writer or not self.hear(client, frame):
                break
            self.send()
        self.leave(client, writer)

    def hear(self, client, frame):
        """Whether the server could hear what a client sent. It has cut the client off where that is no frame."""
        try:
            return self.server.hear(client, frame)
        except Refused as refused:
            print("client", client, refused, file=sys.stderr)
            return False

    def send(self):
        """What the server said goes to whom it is for. What client 1 is told is kept: it is a replay."""
        for client, writer in self.writers.items():
            said = self.server.take(client)
            self.told += [said] if client == 1 else []
            if said and not writer.is_closing():
                writer.write(said)

    def leave(self, client, writer):
        """A connection is over, unless another one of the client has come in its place: the others go on without it."""
        if writer is not None and self.writers.get(client) is writer:
            del self.writers[client]
            self.server.cut(client)
            self.send()
        if writer is not None:
            writer.close()


async def serve(host):
    """The server process: it ends when the match is over and all clients have gone, or its time is over."""
    listening = await asyncio.start_server(host.serve, "127.0.0.1", 0)
    print(listening.sockets[0].getsockname()[1], flush=True)
    end = time.monotonic() + SECONDS
    while (host.server.released() < TURNS or host.writers) and time.monotonic() < end:
        await asyncio.sleep(0.02)
    for client, writer in list(host.writers.items()):
        host.leave(client, writer)
    print(b"".join(host.told).hex())


class Player:
    """A client's process: it carries frames, plays what is released, and orders what its player wants."""

    def __init__(self, core, number, habit):
        self.client, self.number, self.habit = Client(core, MATCH, number, begins=habit != "joins"), number, habit
        self.asked, self.ordered, self.noticed, self.states = False, 0, False, {}

    async def play(self, port):
        """Plays the match to its end."""
        reader, writer = await asyncio.open_connection("127.0.0.1", port)
        writer.write(bytes([self.number]))
        if self.habit == "joins":
            self.client.join()
        await self.go_on(writer)
        async for frame in frames_of(reader):
            self.hear(frame)
            if await self.go_on(writer) == TURNS:
                break
        await writer.drain()
        writer.close()

    def hear(self, frame):
        """The client hears a frame. One that lies keeps from its core what player 1 orders from a turn on."""
        kind, turn = frame[4], int.from_bytes(frame[5:9], "little")
        if self.habit == "lies" and kind == COMMAND and turn >= LIE and frame[9] == 1:
            return
        self.client.hear(frame)
        self.asked |= kind == ASK
        if kind == NOTICE:
            self.tell_notice(turn, frame[9])

    def tell_notice(self, turn, client):
        """A notice is told; at the first one with the state of that turn, which is one of the last DELAY + 1."""
        print("notice", turn, client, flush=True)
        if not self.noticed and turn in self.states:
            print("state", turn, self.states[turn].hex(), flush=True)
        self.noticed = True

    async def go_on(self, writer):
        """Plays the turns that may be played, orders behind each, and sends what the client said; the turn that it came to."""
        standing = self.client.standing()
        while STAGES[standing.stage] == "on":
            self.order(standing)
            if self.waits_at(standing.turn) or not self.client.play(1):
                break
            standing = self.client.standing()
            self.keep(standing.turn)
            await asyncio.sleep(0.05 if self.habit == "lags" and standing.turn % 10 == 0 else 0)
        writer.write(self.client.take())
        return standing.turn

    def waits_at(self, turn):
        """Whether it waits for one who was killed to come back: it is silent, and so holds up all."""
        return self.habit == "waits" and turn == BACK and not self.asked

    def keep(self, turn):
        """Tells the digest of a turn, and keeps the states of the last ones: a notice is never about an older one, but of who joined."""
        state = self.client.state()
        print("turn", turn, state.digest, flush=True)
        self.states[turn] = state.bytes
        self.states.pop(turn - DELAY - 1, None)

    def order(self, standing):
        """Every tenth turn all go elsewhere, and who stands idle comes after. It is ordered once for each turn that is not done yet."""
        if standing.done == self.ordered:
            return
        self.ordered = standing.done
        own = [row for row in self.client.entities() if row.owner == self.number]
        chosen = [row.id for row in own if standing.turn % 10 == 0 or not (row.going or row.target)]
        if chosen:
            self.client.order("walk", chosen, "31.5", f"{6 + standing.turn // 10 % 4}.5")


if __name__ == "__main__":
    library = Core(sys.argv[1])
    serves = sys.argv[2:] == ["serve"]
    asyncio.run(serve(Host(library)) if serves else Player(library, int(sys.argv[3]), "".join(sys.argv[4:])).play(int(sys.argv[2])))
