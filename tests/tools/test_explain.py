#!/usr/bin/env python3
"""tools/explain on every refusal of the tables of docs/FORMATS.md: the place in the file, and words that say what is wrong.

Each row has a file that is refused, the line that the tables give for it, and what the explanation has to say. Where a program
is there it is asked too, so that the lines are its own.
"""

import copy
import hashlib
import json
import pathlib
import subprocess
import tempfile

from cases import Cases, bad_input, program, run_tool

from simtools.explaining import explain_line

POST = {"@name": "post", "Health": {"Max": 50}}
MATCH = {"size": [4, 4], "closed": [[1, 1, 2, 2]], "players": [[2], [1]], "cap": 0, "delay": 1, "turns": 2, "seed": 0, "templates": [POST],
         "entities": [["post", 1, 1, 1], ["post", 2, "2.5", 2]], "commands": [[1, 1, "delete", [2]], [2, 1, "stop", [2]]]}
KEYS = list(MATCH)


def but(**changes):
    """The match with some keys changed, as bytes."""
    return json.dumps(copy.deepcopy(MATCH) | changes).encode()


def without(key):
    """The match without a key."""
    return json.dumps({name: value for name, value in MATCH.items() if name != key}).encode()


def templates(*listed):
    """The match with these templates, and no entities."""
    return but(templates=list(listed), entities=[], commands=[])


def named(name, parent=None, **parts):
    """A template."""
    return {"@name": name} | ({"@parent": parent} if parent else {}) | parts


def command(*rest):
    """The match with one command."""
    return but(commands=[list(rest)])


def deep(levels):
    """A template whose values lie on so many levels."""
    value = {}
    for _ in range(levels - 2):
        value = {"a": value}
    return named("deep", a=value)


WRONG_KINDS = {"size": [1, 2, 3], "closed": [[1, 1, 2]], "players": [1], "cap": "1", "delay": 1.0, "turns": None, "seed": "x", "templates": {},
               "entities": 5, "commands": "none"}
KIND_WORDS = {"size": "two whole numbers", "closed": "four whole numbers", "players": "enemies of a player", "templates": "a list",
              "entities": "a list", "commands": "a list"}
PAST_LIMITS = [("size", [0, 4], "from 1 to 256"), ("size", [4, 257], "is 257"), ("closed", [[2, 1, 1, 1]], "x0 <= x1"),
               ("closed", [[0, 0, 4, 1]], "x1 < 4"), ("players", [], "at least one"), ("players", [[1]], "not himself"),
               ("players", [[2], [3]], "0 to 2"), ("players", [[]] * 9, "8 is the most"), ("cap", 4097, "from 0 to 4096"),
               ("delay", 0, "from 1 to 8"), ("turns", 65536, "from 0 to 65535"), ("seed", 1 << 48, "is to be from 0"),
               ("templates", [POST, POST], "templates[0]"), ("templates", [named(f"t{i}") for i in range(257)], "256 is the most"),
               ("entities", [["post", 0, 1, 1]] * 4097, "4096 is the most")]
TEMPLATES = [
    ("a template that is no object", 5, 2, 16, "is no object"),
    ("no name", {}, 2, 16, "@name"),
    ("a name with a space", named("a b"), 2, 16, "@name"),
    ("a bad parent", named("a", parent="b c"), 2, 16, "@parent"),
    ("null in a tree", named("a", Health=None), 2, 16, "Health"),
    ("a number with a point", named("a", Health={"Max": 1.5}), 2, 16, "Health/Max"),
    ("two marks", named("a", Health={"@merge": 1, "@replace": 1}), 2, 16, "two marks"),
    ("an unknown mark", named("a", Health={"@add": 1}), 2, 16, "@add"),
    ("a mark with another value", named("a", Health={"@merge": 2}), 2, 16, "@merge"),
    ("an op without a value", named("a", Health={"Max": {"@op": "add"}}), 2, 16, "must have _"),
    ("a child whose name is no Name", named("a", **{"x y": 1}), 2, 16, "'x y'"),
    ("a mark at the root", named("a", **{"@merge": 1}), 2, 16, "root"),
    ("33 levels", deep(33), 2, 16, "more than 32 levels"),
    ("no such parent", named("a", parent="b"), 4, 0, "parent b"),
    ("its own parent", named("a", parent="a"), 5, 0, "a -> a"),
    ("an op over nothing", named("a", Health={"Max": {"@op": "add", "_": 1}}), 6, 0, "nothing below it has a value"),
    ("no such part", named("a", Heal={}), 7, 0, "Heal is no part"),
    ("no such child", named("a", Health={"Max": 1, "Min": 1}), 7, 0, "Health/Min has no place"),
    ("a part with a value", named("a", Health={"_": 1, "Max": 1}), 7, 0, "no value of its own"),
    ("a missing child", named("a", Obstruct={"Width": 2}), 7, 0, "Obstruct/Depth is missing"),
    ("a child past its range", named("a", Resist={"Hack": 41}), 7, 0, "from 0 to 40"),
    ("a level that is not whole", named("a", Resist={"Hack": "1.5"}), 7, 0, "whole number"),
    ("a text that is no number", named("a", Health={"Max": "much"}), 7, 0, "no number text"),
    ("an unknown unit", named("a", Train={"Units": "b"}), 7, 0, "names b"),
    ("motion and obstruction", named("a", Motion={"Speed": 1}, Obstruct={"Width": 1, "Depth": 1}), 7, 0, "both Motion and Obstruct")]
CHAIN = [named(f"t{i}", parent=f"t{i - 1}" if i else None) for i in range(17)]
ENTITIES = [("an entity of three", ["post", 1, 1], "list of four"), ("an unknown name", ["hut", 1, 1, 1], "'hut' is the name of no template"),
            ("an owner who is no player", ["post", 3, 1, 1], "no owner"), ("a place that is no leaf", ["post", 1, 1.5, 1], "no fixed leaf"),
            ("a place outside", ["post", 1, 1, 4], "outside of the ground")]
COMMANDS = [("a command that is no list", "x", "a command is a list"), ("a turn past the last", [3, 1, "stop", []], "from 1 to 2"),
            ("a player who is none", [1, 3, "stop", []], "the player is 3"), ("an unknown kind", [1, 1, "heal", []], "no kind of command"),
            ("too few values", [1, 1, "walk", [2], 1], "walk takes ids, x, z"), ("ids that are no list", [1, 1, "stop", 2], "the ids"),
            ("257 ids", [1, 1, "delete", [2] * 257], "at most 256"), ("a target that is a text", [1, 1, "attack", [2], "3"], "the target"),
            ("a coordinate that is no leaf", [1, 1, "walk", [2], 1.5, 1], "x is 1.5"),
            ("a template past 65,535", [1, 1, "place", 65536, 1, 1], "the template"), ("resign with a value", [1, 1, "resign", 1], "takes nothing")]


def match_rows():
    """A name, the bytes of a match, its code and index, and what is to be said."""
    yield from (("an empty file", b"", 1, 0, "ends where a value"), ("a comma too many", b'{"size":[1,]}', 1, 0, "m.json:1:12"),
                ("bytes that are no UTF-8", b'{"\xff":1}', 1, 0, "no UTF-8"), ("half of a pair", b'"\\ud800"', 1, 0, "half of a pair"),
                ("a number past all floats", b"1e999", 1, 0, "too large"), ("128 lists", b"[" * 128 + b"]" * 128, 1, 0, "more than 127"),
                ("a list", b"[]", 2, 0, "to be an object"), ("another key", but(x=1), 2, 10, "'x'"))
    for place, key in enumerate(KEYS):
        yield f"no {key}", without(key), 2, place, f"the key {key}: is missing"
        yield f"{key} of another kind", but(**{key: WRONG_KINDS[key]}), 2, place, KIND_WORDS.get(key, "whole number")
    for key, value, said in PAST_LIMITS:
        more = {} if key not in ("players", "templates") else {"entities": [], "commands": []}
        yield f"{key} past its limits: {str(value)[:20]}", but(**{key: value}, **more), 3, KEYS.index(key), said
    for name, template, code, index, said in TEMPLATES:
        yield name, templates(template), code, index, said
    yield "a chain of seventeen", templates(*CHAIN), 5, 16, "too long"
    yield "a bad op of a parent", templates(named("a", parent="b"), TEMPLATES[15][1] | {"@name": "b"}), 6, 0, "b: has @op add"
    yield from ((name, but(entities=[MATCH["entities"][0], item]), 8, 1, said) for name, item, said in ENTITIES)
    yield from ((name, command(*item) if isinstance(item, list) else but(commands=[item]), 9, 0, said) for name, item, said in COMMANDS)
    yield "the 65th command", but(commands=[[1, 1, "resign"]] * 65), 9, 64, "command 65 of player 1 in turn 1"
    yield "turns that fall", but(commands=[[2, 1, "resign"], [1, 1, "resign"]]), 10, 1, "that of the command before it is 2"


POSTS = (b'{"size":[4,4],"closed":[],"players":[[],[]],"cap":0,"delay":1,"turns":2,"seed":0,"templates":[{"@name":"post","Health":{"Max":50}}],'
         b'"entities":[["post",1,1,1],["post",2,2,2]],"commands":[[1,1,"delete",[2,3,2]]]}')
# The state of POSTS at turn 1, section by section: head, Entity, Position, Owner, Health, Motion, Attack.
HEAD = b"RSIM\x01\0\0\0" + hashlib.md5(POSTS).digest() + b"\x01\0\0\0\x04\0\0\0" + bytes(8)
SECTIONS = [bytes.fromhex(it) for it in ("0101000000030000000000", "0201000000030000000000020000000200", "03010000000300000002",
                                         "04010000000300000000003200", "0500000000", "0600000000")]
STORED = HEAD + b"".join(SECTIONS)


def changed(at, *values):
    """The stored state with some bytes changed."""
    return STORED[:at] + bytes(values) + STORED[at + len(values):]


STATES = [("no bytes", b"", 1, "has 0 bytes"), ("23 bytes", STORED[:23], 1, "has 23 bytes"), ("another beginning", changed(0, 0), 1, "RSIM"),
          ("version 9", changed(4, 9), 1, "version is 9"), ("another match", changed(8, STORED[8] ^ 1), 2, hashlib.md5(POSTS).hexdigest()),
          ("cut in the head", STORED[:30], 3, "first 40 bytes"), ("cut in a row", STORED[:60], 3, "the bytes end in the row of entity 3"),
          ("a byte more", STORED + b"\0", 3, "1 bytes follow"), ("another tag", changed(40, 2), 3, "tag 1, and here stands 2"),
          ("a turn past the last", changed(24, 3), 3, "the turn is 3, and the match has 2"), ("next below 2", changed(28, 1), 3, "next is 1"),
          ("a word of 49 bits", changed(38, 1), 3, "below 2^48"), ("an id that is next", changed(28, 3), 3, "below next"),
          ("an unknown template", changed(49, 1), 3, "the template 1"), ("a place outside", changed(63, 4), 3, "outside of the ground"),
          ("an owner who is no player", changed(77, 3), 3, "the owner 3"), ("no health", changed(89, 0), 3, "the health 0"),
          ("more health than there is", changed(89, 51), 3, "at most 50"), ("no row of health", HEAD + b"".join(SECTIONS[:3]) + bytes.fromhex("0400000000")
           + b"".join(SECTIONS[4:]), 3, "missing in the section Health"),
          ("a row of another id", changed(73, 2), 3, "missing in the section Owner")]

WALKERS = {"size": [8, 8], "closed": [], "players": [[], []], "cap": 0, "delay": 1, "turns": 2, "seed": 0, "templates": [POST], "entities": [],
           "commands": []}
GOOD_STEP, GOOD_ARRIVAL = ["up", 1], [1, "join"]


def steps(*items, **changes):
    """A list of steps."""
    return json.dumps({"clients": 2, "steps": [GOOD_STEP, *items]} | changes).encode()


def arrivals(*items, **changes):
    """A schedule."""
    return json.dumps({"clients": 2, "active": 1, "delay": 1, "turns": 4, "arrivals": [GOOD_ARRIVAL, *items]} | changes).encode()


LISTS = [("session", "no JSON", b"{", 0, "key in quotes"), ("session", "a list", b"[]", 0, "an object"),
         ("session", "no steps", b'{"clients":1}', 0, "steps is missing"), ("session", "another key", steps(x=1), 0, "the key x"),
         ("session", "no clients", steps(clients=0), 0, "is 0"), ("session", "a step that is none", steps(["leap", 1]), 2, "a step is"),
         ("session", "a client who is none", steps(["up", 3]), 2, "no client"),
         ("session", "a bend of no leaf", steps(["bend", 1, 2, 1.5]), 2, "no fixed leaf"),
         ("session", "an order of no kind", steps(["order", 1]), 2, "kind of command"),
         ("session", "a bad order", steps(["order", 1, "walk", [2], 1]), 2, "walk takes"),
         ("session", "a play with more", steps(["play", 1, 1]), 2, "nothing else"),
         ("serve", "active past clients", arrivals(active=3), 0, "from 0 to 2"), ("serve", "no delay", arrivals(delay=0), 0, "from 1 to 8"),
         ("serve", "turns past the most", arrivals(turns=65536), 0, "65535"), ("serve", "an arrival that is none", arrivals([1, "leap"]), 2, "an arrival is"),
         ("serve", "a client past clients", arrivals([3, "join"]), 2, "no client"), ("serve", "a join with more", arrivals([1, "join", 1]), 2, "a list of 2"),
         ("serve", "a turn below 0", arrivals([1, "done", -1]), 2, "the turn"),
         ("serve", "a short report", arrivals([1, "report", 1, "00"]), 2, "32 characters"),
         ("serve", "a capital letter", arrivals([1, "state", 2, 1, "AA"]), 2, "0-9a-f"),
         ("serve", "client 256", arrivals([1, "state", 256, 1, ""]), 2, "0 to 255"),
         ("serve", "half a byte", arrivals([1, "bytes", "0"]), 2, "even number"),
         ("serve", "a command of no kind", arrivals([1, "command", 1, "x"]), 2, "no kind of command")]


class Explaining:
    """A folder of refused files, and the program, where there is one."""

    def __init__(self, cases, folder):
        self.cases, self.folder, self.program = cases, pathlib.Path(folder), program()

    def put(self, name, data):
        """Writes a file."""
        (self.folder / name).write_bytes(data)
        return self.folder / name

    def check(self, name, line, words, files, said, players=8):
        """The program prints the line, and the tool says what it is to say of it."""
        if self.program:
            done = subprocess.run([self.program, *words], cwd=self.folder, capture_output=True, text=True, check=False)
            if done.stdout != line + "\n":
                self.cases.case(f"the program on {name}", done.stdout, line + "\n")
                return
        out = "\n".join(explain_line([*line.split(), *map(str, files)], players))
        self.cases.holds(f"{name}: {line}", said in out, (out, said))

    def matches(self):
        """Every refusal of a match."""
        for name, data, code, index, said in match_rows():
            path = self.put("m.json", data)
            self.check(name, f"match refused {code} {index}", ["play", "m.json"], [path], said)
        path = self.put("m.json", but())
        self.put("s.json", b"{}")
        self.check("a session's match with commands", "match refused 11 0", ["session", "m.json", "s.json"], [path], "has 2 commands")

    def states(self):
        """Every refusal of a stored state."""
        match = self.put("m.json", POSTS)
        for name, data, code, said in STATES:
            path = self.put("s", data)
            self.check(name, f"state refused {code} s", ["resume", "m.json", "s"], [match, path], said)

    def lists(self):
        """Every refusal of a list."""
        match = self.put("m.json", json.dumps(WALKERS).encode())
        for word, name, data, index, said in LISTS:
            path = self.put("l.json", data)
            words = [word, *([match] if word == "session" else []), "l.json"]
            self.check(f"{word}: {name}", f"list refused {index}", words, [path], said, 2 if word == "session" else 8)

    def runs(self):
        """The tool runs the program itself."""
        if not self.program:
            self.cases.skip("explain runs the program", "no program is built")
            return
        match = self.put("m.json", POSTS)
        state = self.put("s", STORED + b"\0")
        for name, words, said in (("a stored state", ["show", match, state], "1 bytes follow"), ("a turn", ["rejoin", match, 5], "turns 0 to 2")):
            status, out, error = run_tool("explain", "--program", self.program, *words)
            self.cases.holds(f"explain runs the program on {name}", status == 0 and said in out, (status, out, error))


def test(cases):
    """All cases."""
    with tempfile.TemporaryDirectory() as folder:
        explaining = Explaining(cases, folder)
        if not explaining.program:
            cases.skip("the lines of the program itself", "no program is built")
        explaining.matches()
        explaining.states()
        explaining.lists()
        explaining.runs()
        missing = f"{folder}/none"
        bad_input(cases, "explain", ("no words", [], "required"), ("another line", ["match", "accepted"], "no such line"),
                  ("a code that is none", ["match", "refused", 12, 0], "codes are 1 to 11"), ("a word for a number", ["list", "refused", "x"], "no number"),
                  ("a file that is not there", ["match", "refused", 1, 0, missing], "can't be read"))
        for line, said in (("match refused 8 3", "entities[3]"), ("match refused 2 18", "templates[2]"), ("match refused 3 4", "delay"),
                           ("no turn 9 of 5", "turns 0 to 5"), ("sight refused 1", "one byte for each player"), ("log refused 4", "line 4"),
                           ("economy refused 2", "deeds[1]"), ("state refused 2 s", "another match"), ("list refused 5", "item 4")):
            status, out, error = run_tool("explain", *line.split())
            cases.holds(f"without a file: {line}", status == 0 and said in out and not error, (status, out, error))


if __name__ == "__main__":
    counted = Cases()
    test(counted)
    counted.end()
