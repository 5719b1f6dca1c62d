"""What is held from call to call, in Python: level two of include/simcore.h over the Core of simcore.py.

    server, client = Server(core, data, 2), Client(core, data, 1, begins=True)
    client.order("walk", [2], "10.5", "4")
    for frame in frames(client.take()):
        server.hear(1, frame)
    for frame in frames(server.take(1)):
        client.hear(frame)
    client.play()

`data` is the bytes of a match file. Each is closed by `close`, at the end of a `with`, or when nothing names it. One thread at a time uses it.
A step that does nothing answers False, and one that is refused raises Refused.
"""

import ctypes
import json
import typing

from simcore import IDLE, NO_ROOM, OK, Entity, Fault, Refused, State, pair

STAGES, MOST_FRAME = ["off", "joining", "on"], 2400000


class Handle(ctypes.Structure):
    """A handle, closed as it is made."""

    _fields_ = [("held", ctypes.c_void_p)]


class Standing(ctypes.Structure):
    """Where a client stands."""

    _fields_ = [(name, ctypes.c_uint32) for name in "stage turn released done".split()]


class Stamp(typing.NamedTuple):
    """The digest and the turn of a state."""

    digest: str
    turn: int


def frame_length(data):
    """How long the first frame of bytes is, or 0 where that cannot be said yet."""
    return 4 + int.from_bytes(data[:4], "little") if len(data) >= 4 else 0


def frames(data):
    """The frames that stand one behind another in bytes, each whole."""
    while data:
        length = frame_length(data)
        yield data[:length]
        data = data[length:]


class Held:
    """A handle, open until it is closed."""

    def __init__(self, core, name, *arguments):
        self.core, self.handle, self.room = core, Handle(), {}
        fault = Fault()
        status = getattr(core.library, f"simcore_{name}")(ctypes.byref(self.handle), *arguments, ctypes.byref(fault))
        if status != OK:
            raise Refused(status, fault)

    def step(self, name, *arguments, also=(), fault=None):
        """Makes a call on the handle; its status, which is OK or among the others."""
        behind = [ctypes.byref(fault)] if fault else []
        status = getattr(self.core.library, f"simcore_{name}")(ctypes.byref(self.handle), *arguments, *behind)
        if status != OK and status not in also:
            raise Refused(status, fault or Fault())
        return status

    def items(self, kind, name, *arguments, behind=()):
        """What a call puts into a room, which grows until it is large enough."""
        written = ctypes.c_uint64()
        while True:
            length = self.room.setdefault(kind, 4096)
            room = (kind * length)()
            if self.step(name, *arguments, room, ctypes.c_size_t(length), ctypes.byref(written), *behind, also=(NO_ROOM,)) == OK:
                return bytes(memoryview(room)[:written.value]) if kind is ctypes.c_uint8 else room[:written.value]
            self.room[kind] = max(written.value, 2 * length)

    def close(self):
        """Gives all back. What is closed already stays so."""
        if self.handle.held:
            self.step("close")

    def __enter__(self):
        return self

    def __exit__(self, *_):
        self.close()

    __del__ = close


class Looked(Held):
    """What has a state to be looked at; a client that is not on has none, and raises Refused."""

    def state(self):
        """The bytes of the state, and their digest."""
        digest = (ctypes.c_uint8 * 16)()
        data = self.items(ctypes.c_uint8, "held_state", behind=[ctypes.byref(digest)])
        return State(data, bytes(digest).hex())

    def stamp(self):
        """The digest of the state and its turn."""
        digest, turn = (ctypes.c_uint8 * 16)(), ctypes.c_uint32()
        self.step("held_digest", ctypes.byref(digest), ctypes.byref(turn))
        return Stamp(bytes(digest).hex(), turn.value)

    def entities(self):
        """The entities of the state."""
        return self.items(Entity, "held_entities")

    def show(self):
        """The text of the state."""
        return self.items(ctypes.c_uint8, "held_show").decode()


class Client(Looked):
    """A client of a match for one of its players. After Refused for want of memory it is off: it was cut."""

    def __init__(self, core, data, player, begins=False):
        super().__init__(core, "client_open", *pair(data), ctypes.c_uint32(player), ctypes.c_uint32(begins))

    def join(self):
        """Wishes to join."""
        return self.step("client_join", also=(IDLE,)) == OK

    def order(self, kind, *rest):
        """Orders: the kind of a command, and what follows it, for the turn behind `standing().done`."""
        return self.step("client_order", *pair(json.dumps([kind, *rest]).encode()), also=(IDLE,)) == OK

    def hear(self, frame):
        """Hears a frame of the server."""
        return self.step("client_hear", *pair(frame), also=(IDLE,)) == OK

    def play(self, most=1):
        """Plays the turns that are released, at most so many; how many these were."""
        played = ctypes.c_uint32()
        return played.value if self.step("client_play", ctypes.c_uint32(most), ctypes.byref(played), also=(IDLE,)) == OK else 0

    def cut(self):
        """Its connection has ended."""
        self.step("client_cut")

    def take(self):
        """Takes the frames that wait to be sent."""
        return self.items(ctypes.c_uint8, "client_take")

    def standing(self):
        """Where it stands: its stage as a number of STAGES, its turn, and what is released and done."""
        standing = Standing()
        self.step("client_standing", ctypes.byref(standing))
        return standing


class Server(Held):
    """The server of a match, in which so many clients begin. After Refused for want of memory it is as it was."""

    def __init__(self, core, data, active):
        super().__init__(core, "server_open", *pair(data), ctypes.c_uint32(active))

    def hear(self, client, frame):
        """Hears a frame of a client; bytes that are none raise Refused, and the client was cut off."""
        return self.step("server_hear", ctypes.c_uint32(client), *pair(frame), also=(IDLE,)) == OK

    def cut(self, client):
        """The connection of a client has ended."""
        return self.step("server_cut", ctypes.c_uint32(client), also=(IDLE,)) == OK

    def take(self, client):
        """Takes the frames that wait for a client."""
        return self.items(ctypes.c_uint8, "server_take", ctypes.c_uint32(client))

    def released(self):
        """The last turn that is released."""
        turn = ctypes.c_uint32()
        self.step("server_released", ctypes.byref(turn))
        return turn.value


class Game(Looked):
    """A match that is played on in memory: at its first state, or at the one that bytes stand for."""

    def __init__(self, core, data, state=None):
        super().__init__(core, "game_open" if state is None else "game_load", *pair(data), *([] if state is None else pair(state)))

    def play(self, commands=()):
        """A turn with these commands, each a list of the player, the kind and what follows it."""
        self.step("game_play", *pair(json.dumps(list(commands)).encode()), fault=Fault())

    def play_own(self, most):
        """Turns with the commands of the match file, at most so many; how many these were."""
        played = ctypes.c_uint32()
        return played.value if self.step("game_play_own", ctypes.c_uint32(most), ctypes.byref(played), also=(IDLE,)) == OK else 0
