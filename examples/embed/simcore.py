"""The core in Python, by ctypes: each call of level one of include/simcore.h as a method, with bytes in and bytes out. Threads may share
it. What is held from call to call, level two, is in handles.py beside this file.

    core = Core("PREFIX/lib/libsimcore.so")
    match = core.match(open("match.json", "rb").read())
    state, digest = match.first()
    state, digest = match.turn(state, [[1, "walk", [2], "10.5", "4"]])
    status, text, out = core.run("play", "match.json", files={"match.json": match.data})
"""

import ctypes
import json
import typing

OK, DIFFERS, LIST_REFUSED, NO_MEMORY, NO_ROOM, FILES_REFUSED = 0, 1, 8, 9, 100, 106
BAD_HANDLE, IDLE, FRAME_REFUSED, NO_PLAYER, NOT_ON = range(101, 106)
CAUSES = {6: "match refused", 7: "state refused", 8: "list refused", 9: "no memory", 10: "no turn", 106: "files refused",
          101: "no handle for this call", 103: "frame refused", 104: "no such player", 105: "the client is not on"}
PARTS = ["Clock", "Entity", "Position", "Owner", "Health", "Motion", "Attack", "Stance"]
VERSION = 0x00010002


class Fault(ctypes.Structure):
    """Why a call was refused."""

    _fields_ = [("code", ctypes.c_uint32), ("index", ctypes.c_uint32)]


class Facts(ctypes.Structure):
    """The numbers of a match."""

    _fields_ = [(name, ctypes.c_uint32) for name in "width depth players turns delay cap templates entities commands".split()]


class Entity(ctypes.Structure):
    """An entity; a cell is 65536 wide."""

    _fields_ = [(name, ctypes.c_int32 if name in ("x", "z", "health", "goal_x", "goal_z") else ctypes.c_uint32)
                for name in "id kind owner x z health going goal_x goal_z target holds".split()]


class Refused(Exception):
    """A call has no answer: `status`, and `code` and `index` as the header has them."""

    def __init__(self, status, fault):
        super().__init__(f"{CAUSES.get(status, status)} {fault.code} {fault.index}")
        self.status, self.code, self.index = status, fault.code, fault.index


class State(typing.NamedTuple):
    """A stored state, and the digest of it."""

    bytes: bytes
    digest: str


class Ran(typing.NamedTuple):
    """How a command ended, what it printed, and what is then held under the name of OUT."""

    status: int
    text: bytes
    out: bytes


def pair(data):
    """A pointer and a length, as the header has them."""
    return [ctypes.c_char_p(data), ctypes.c_size_t(len(data))]


def packed(files):
    """Files as simcore_run takes them, from their bytes by their names."""
    pieces = [piece for name, data in files.items() for piece in (name.encode(), data)]
    return b"".join(len(piece).to_bytes(4, "little") + piece for piece in pieces)


class Core:
    """The library."""

    def __init__(self, path):
        self.library = ctypes.CDLL(str(path))
        self.library.simcore_version.restype = ctypes.c_uint32
        version = self.library.simcore_version()
        if version >> 16 != VERSION >> 16 or version < VERSION:
            raise OSError(f"{path} has the version {version:#x}, and this is of {VERSION:#x}")

    def match(self, data):
        """The match that bytes are."""
        return Match(self, data)

    def run(self, *words, files=None):
        """Any command of the program, but a talk, over files in memory, which are handed in by their names."""
        given = [*pair(b"".join(word.encode() + b"\0" for word in words)), *pair(packed(files or {}))]
        lengths, needed = (4096, 4096), (ctypes.c_uint64(), ctypes.c_uint64())
        while True:
            rooms = [(ctypes.c_uint8 * length)() for length in lengths]
            places = [it for room, length, count in zip(rooms, lengths, needed) for it in (room, ctypes.c_size_t(length), ctypes.byref(count))]
            status = self.library.simcore_run(*given, *places)
            if status in (NO_MEMORY, FILES_REFUSED):
                raise Refused(status, Fault())
            if status != NO_ROOM:
                return Ran(status, *(bytes(memoryview(room)[:count.value]) for room, count in zip(rooms, needed)))
            lengths = tuple(max(length, count.value) for length, count in zip(lengths, needed))

    def call(self, name, *arguments, also=()):
        """Calls, and answers the status; one that is neither OK nor among the others is an exception."""
        fault = Fault()
        status = getattr(self.library, f"simcore_{name}")(*arguments, ctypes.byref(fault))
        if status != OK and status not in also:
            raise Refused(status, fault)
        return status


class Match:
    """A match: its bytes, and its numbers."""

    def __init__(self, core, data):
        self.core, self.data, self.facts, self.room = core, data, Facts(), {}
        core.call("match", *pair(data), ctypes.byref(self.facts))

    def _items(self, kind, name, *arguments, behind=()):
        """What a call puts into a room, which grows until it is large enough."""
        written = ctypes.c_uint64()
        while True:
            length = self.room.setdefault(kind, 4096)
            room = (kind * length)()
            words = [*pair(self.data), *arguments, room, ctypes.c_size_t(length), ctypes.byref(written), *behind]
            if self.core.call(name, *words, also=(NO_ROOM,)) == OK:
                return memoryview(room)[:written.value] if kind is ctypes.c_uint8 else room[:written.value]
            self.room[kind] = max(written.value, 2 * length)

    def _state(self, name, *arguments):
        digest = (ctypes.c_uint8 * 16)()
        data = self._items(ctypes.c_uint8, name, *arguments, behind=[ctypes.byref(digest)])
        return State(bytes(data), bytes(digest).hex())

    def first(self):
        """The state in which the match begins."""
        return self._state("first")

    def turn(self, state, commands=()):
        """The state behind a turn with these commands, each a list of the player, the kind and what follows it."""
        return self._state("turn", *pair(state), *pair(json.dumps(list(commands)).encode()))

    def play(self, state, commands):
        """The same without the items that are no commands, as those of a stranger may be: everybody leaves out the same ones."""
        while True:
            try:
                return self.turn(state, commands)
            except Refused as refused:
                if refused.status != LIST_REFUSED:
                    raise
                commands = commands[:refused.index - 1] + commands[refused.index:] if refused.index else []

    def digest(self, state):
        """The digest of a state, and its turn."""
        digest, turn = (ctypes.c_uint8 * 16)(), ctypes.c_uint32()
        self.core.call("digest", *pair(self.data), *pair(state), ctypes.byref(digest), ctypes.byref(turn))
        return bytes(digest).hex(), turn.value

    def compare(self, left, right):
        """Where two states differ: the entity and the name of the part; or None."""
        entity, part = ctypes.c_uint32(), ctypes.c_uint32()
        out = [ctypes.byref(entity), ctypes.byref(part)]
        if self.core.call("compare", *pair(self.data), *pair(left), *pair(right), *out, also=(DIFFERS,)) == OK:
            return None
        return entity.value, PARTS[part.value]

    def entities(self, state):
        """The entities of a state."""
        return self._items(Entity, "entities", *pair(state))

    def show(self, state):
        """The text of a state."""
        return bytes(self._items(ctypes.c_uint8, "show", *pair(state))).decode()
