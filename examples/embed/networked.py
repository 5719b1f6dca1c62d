#!/usr/bin/env python3
"""A whole networked match: a server process and four client processes of lockstep.py.

    python3 examples/embed/networked.py PREFIX/lib/libsimcore.so

Client 2 is killed in the midst of it and joins again, client 3 lags, and client 4 lies: from one turn on its core does not hear what player
1 orders. What comes of it is printed, and the status is 0 where it is as it should be.
"""

import asyncio
import pathlib
import sys
import time

from handles import Client, frames
from lockstep import LIE, MATCH, PLAYERS, SECONDS, TURNS
from simcore import Core

KILLED = 6


def start(*words):
    """A process of lockstep.py, whose lines can be read."""
    script = pathlib.Path(__file__).with_name("lockstep.py")
    return asyncio.create_subprocess_exec(sys.executable, script, *words, stdout=asyncio.subprocess.PIPE, limit=1 << 23)


async def lines_of(client):
    """The lines that a client prints, as words, to its end."""
    return [line.decode().split() async for line in client.stdout]


async def run(library, running):
    """Runs the match; what the server told client 1, and the lines of each client."""
    async def begin(*words):
        running.append(await start(library, *words))
        return running[-1]

    server = await begin("serve")
    port = (await server.stdout.readline()).decode().strip()
    others = [await begin(port, *words) for words in (["1", "waits"], ["3", "lags"], ["4", "lies"])]
    second = await begin(port, "2")
    async for line in second.stdout:
        if line.startswith(b"turn %d " % KILLED):
            second.kill()
            break
    back = await begin(port, "2", "joins")
    first, third, fourth, second = await asyncio.gather(*map(lines_of, [*others, back]))
    told = (await server.stdout.read()).decode()
    await asyncio.gather(*(it.wait() for it in running))
    return bytes.fromhex(told), {1: first, 2: second, 3: third, 4: fourth}


def replay(core, told):
    """The digest behind each turn, by a client without a connection that hears once more what client 1 was told."""
    found = {}
    with Client(core, MATCH, 1, begins=True) as client:
        for frame in frames(told):
            client.hear(frame)
            while client.play():
                digest, turn = client.stamp()
                found[turn] = digest
    return found


def liars(lines):
    """The first turn that was noticed, and who was apart there: whoever differs from the first report, or else that one and its like."""
    notices = {(int(words[1]), int(words[2])) for words in lines if words[0] == "notice"}
    turn = min((it[0] for it in notices), default=0)
    differ = {client for at, client in notices if at == turn}
    return turn, differ if 2 * len(differ) < PLAYERS else set(range(1, PLAYERS + 1)) - differ


def place_of(match, seen, turn):
    """Where the states of clients 1 and 4 behind a turn differ."""
    found = {client: bytes.fromhex(words[2]) for client in (1, 4) for words in seen[client] if words[:2] == ["state", str(turn)]}
    return match.compare(found[1], found[4]) if len(found) == 2 else None


async def main(library):
    """Runs all, with a limit of time; what is still there then is killed."""
    running, core, begun = [], Core(library), time.monotonic()
    try:
        told, seen = await asyncio.wait_for(run(library, running), SECONDS)
    finally:
        for it in running:
            if it.returncode is None:
                it.kill()
    right, turns = replay(core, told), {client: [words for words in lines if words[0] == "turn"] for client, lines in seen.items()}
    apart = {client: [int(turn) for _, turn, digest in lines if right.get(int(turn)) != digest] for client, lines in turns.items()}
    noticed, place = liars(seen[1]), place_of(core.match(MATCH), seen, LIE)
    print(f"{TURNS} turns of {PLAYERS} clients took {time.monotonic() - begun:.1f} s")
    print(f"client 2 was killed behind turn {KILLED}, and played {len(turns[2])} turns after it had come back")
    print(f"turns in which a client differs from the replay: { {client: len(differ) for client, differ in apart.items()} }")
    print(f"the first notice is of turn {noticed[0]}, where {noticed[1]} stands apart; the two states differ at {place}")
    good = len(right) == TURNS and all(lines and lines[-1][1] == str(TURNS) for lines in turns.values()) and not any(apart[it] for it in (1, 2, 3))
    good = good and apart[4][:1] == [LIE] and noticed == (LIE, {4}) and place
    print("all is as it should be" if good else "something is wrong")
    return 0 if good else 1


if __name__ == "__main__":
    sys.exit(asyncio.run(main(sys.argv[1])))
