#!/usr/bin/env python3
"""Carries `simcore relay` over TCP, as an example for any language.

Usage: python3 examples/relay_over_tcp.py PROGRAM PORT CLIENTS ACTIVE DELAY TURNS

A client connects, sends its number as one byte and then its frames, and hears the frames of the server. The end of its connection is a
cut. PORT 0 takes a free one; the first line that is printed is the port. Who may be which client is not asked here.
"""

import asyncio
import json
import sys

# How many bytes a frame may have, with the four that say how many follow.
MOST_FRAME = 2_400_000


class Carrier:
    """The relay, and who listens as which client."""

    def __init__(self, relay):
        self.relay, self.turn, self.writers = relay, asyncio.Lock(), {}

    async def say(self, *arrival):
        """Hands an arrival over, and each frame that is answered to its client. One at a time: the next waits for the mark."""
        async with self.turn:
            self.relay.stdin.write(json.dumps(arrival).encode() + b"\n")
            await self.relay.stdin.drain()
            while not (line := await self.relay.stdout.readline()).startswith((b"ok ", b"refused ")):
                if not line:
                    raise ConnectionError("the relay has ended")
                _, client, frame = line.split()
                if int(client) in self.writers:
                    self.writers[int(client)].write(bytes.fromhex(frame.decode()))

    async def serve(self, reader, writer):
        """One connection, to its end."""
        client = (await reader.readexactly(1))[0]
        if client in self.writers:
            writer.close()
            return
        self.writers[client] = writer
        try:
            while True:
                head = await reader.readexactly(4)
                # A frame that says it is longer is handed on as far as a frame may go: it is none, and the relay cuts the client.
                body = await reader.readexactly(min(int.from_bytes(head, "little"), MOST_FRAME - len(head)))
                await self.say(client, "bytes", (head + body).hex())
        except (asyncio.IncompleteReadError, ConnectionError):
            await self.say(client, "cut")
        finally:
            del self.writers[client]
            writer.close()


async def main(program, port, *rules):
    """Serves until the relay or the process ends."""
    pipe = asyncio.subprocess.PIPE
    relay = await asyncio.create_subprocess_exec(program, "relay", *rules, stdin=pipe, stdout=pipe, limit=1 << 23)
    await relay.stdout.readline()
    carrier = Carrier(relay)
    server = await asyncio.start_server(carrier.serve, "127.0.0.1", int(port))
    print(server.sockets[0].getsockname()[1], flush=True)
    await relay.wait()


asyncio.run(main(*sys.argv[1:]))
