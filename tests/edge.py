#!/usr/bin/env python3
"""The built program on real files: what no contract can say of the system.

Usage: python3 tests/edge.py [PROGRAM]

PROGRAM is by default the one that the gate leaves in crates/simcore/out. One line a case, and a last line
'N passed, M failed'. The exit status is 0 where none failed. The digests were worked out apart from the program, as
MD5 of the bytes that docs/FORMATS.md lays out.
"""

import concurrent.futures
import contextlib
import hashlib
import json
import os
import pathlib
import re
import resource
import signal
import subprocess
import sys
import tempfile
import threading
import time

TOP = pathlib.Path(__file__).resolve().parent.parent
PROGRAM = pathlib.Path(sys.argv[1] if len(sys.argv) > 1 else TOP / "crates/simcore/out/simcore").resolve()
MAX_FILE = 16_777_216
# By the clock, for one run of the program: many times what any takes, since a machine can be full.
SECONDS = 600

EMPTY = (b'{"size":[4,4],"closed":[],"players":[[]],"cap":0,"delay":1,"turns":2,"seed":0,'
         b'"templates":[],"entities":[],"commands":[]}')
EMPTY_LINES = (b"turn 0 5b806e0a0bade72a51c70140518a0ad1\n"
               b"turn 1 a04b5eab7964089994f7c0397fb83f96\n"
               b"turn 2 ecaa1e1ccacbb4004f81e22fb1d95364\n")
POSTS = (b'{"size":[4,4],"closed":[],"players":[[],[]],"cap":0,"delay":1,"turns":2,"seed":0,'
         b'"templates":[{"@name":"post","Health":{"Max":50}}],'
         b'"entities":[["post",1,1,1],["post",2,2,2]],"commands":[[1,1,"delete",[2,3,2]]]}')
POSTS_LINES = (b"turn 0 17328fba69143d17c79259ab7d40e803\n"
               b"turn 1 8fe2300087879a3c47e3af011e612274\n"
               b"turn 2 d81f0e51244512e9cd24c374c62ecb18\n")
STORED_ID = hashlib.md5(POSTS).digest()
# The state of POSTS at turn 1, section by section.
STORED = (b"RSIM\x02\0\0\0" + STORED_ID + b"\x01\0\0\0\x04\0\0\0" + bytes(8)
          + bytes.fromhex("0101000000030000000000") + bytes.fromhex("0201000000030000000000020000000200")
          + bytes.fromhex("03010000000300000002") + bytes.fromhex("04010000000300000000003200")
          + bytes.fromhex("050000000006000000000700000000"))
RESUMED_LINES = b"".join(POSTS_LINES.splitlines(True)[1:])
# Where the number of rows of each of its sections stands, behind the tag.
STORED_COUNTS = (41, 52, 69, 79, 92, 97, 102)
# A walker on its way, and its state at turn 1: a place, an owner and a way of two points.
WALK = (b'{"size":[8,8],"closed":[],"players":[[]],"cap":0,"delay":1,"turns":2,"seed":0,'
        b'"templates":[{"@name":"walker","Motion":{"Speed":10}}],"entities":[["walker",1,"2.5","2.5"]],'
        b'"commands":[[1,1,"walk",[2],"6.5","2.5"]]}')
WALKING = (b"RSIM\x02\0\0\0" + hashlib.md5(WALK).digest() + b"\x01\0\0\0\x03\0\0\0" + bytes(8)
           + bytes.fromhex("0101000000020000000000") + bytes.fromhex("0201000000020000000080040000800200")
           + bytes.fromhex("03010000000200000001") + bytes.fromhex("0400000000")
           + bytes.fromhex("050100000002000000010080060000800200010200800500008002000080060000800200")
           + bytes.fromhex("06000000000700000000"))
WALKING_LINE = b"state 1 129 20d725bf6dad6057d64ca4efab99a4e1\n"
SHOWN = b"turn 1 next 4 word 0 rows 1\nentity 3 template post owner 2 at 2 2 health 50\n"
# POSTS, padded with spaces to the greatest length of a file.
PADDED_LINES = (b"turn 0 f6b267bf53249cb79382e6e0d0bd2788\n"
                b"turn 1 f39acfa05f6ce432b143088be299e1c0\n"
                b"turn 2 0e29496b3b59c10b0614f95aef081b95\n")
# Seventeen templates, each the child of the one before it.
CHAIN = b",".join(b'{"@name":"t%d"%s,"Health":{"Max":50}}' % (i, b',"@parent":"t%d"' % (i - 1) if i else b"") for i in range(17))
SIXTEEN_LINES = (b"turn 0 9a04f97dba882e653a5c2b68d1b7a550\n"
                 b"turn 1 5c9bfe1fae98a8a8c7c56b54384f7e9c\n"
                 b"turn 2 41da49ad32c3a3b804043048af84bcc8\n")
# A template that takes half as much again, where it can.
BIG = b'{"@name":"post","Health":{"Max":50}},{"@name":"big","@parent":"post","Health":{"Max":{"@op":"mul","_":"1.5"}}}'
BIG_LINES = (b"turn 0 2a210907dd85990cb6c371f3ba46ded0\n"
             b"turn 1 56af84353b151dd574518d9c84d0536f\n"
             b"turn 2 648326c68bda470bb06f5c2cbf1d46ec\n")
# Three guards of two enemies, of whom two strike each other down in the first turn.
GUARDS = (b'{"size":[16,16],"closed":[],"players":[[2],[1]],"cap":0,"delay":1,"turns":2,"seed":0,'
          b'"templates":[{"@name":"guard","Health":{"Max":15},"Resist":{"Hack":1},'
          b'"Attack":{"Hack":20,"Range":2,"Vision":10,"Repeat":0}}],'
          b'"entities":[["guard",1,"5.5","5.5"],["guard",2,"6.5","5.5"],["guard",2,"7.5","5.5"]],"commands":[]}')
GUARDS_LINES = (b"turn 0 2c148956ad618e21cfa40971c4c0a453\n"
                b"turn 1 348bbbf702e78d64ec67b7cab01e8fc6\n"
                b"turn 2 f236dab12f13ebe2b8be5dc697e8f1fa\n")
GUARDS_SHOWN = (b"turn 1 next 5 word 11718085204285 rows 1\n"
                b"entity 4 template guard owner 2 at 7.50000 5.50000 health 15 attack target 0 cooldown 0\n")
# Four huts are placed, of which two find no place, and then their player resigns.
HUTS = (b'{"size":[16,16],"closed":[],"players":[[]],"cap":4,"delay":1,"turns":1,"seed":0,'
        b'"templates":[{"@name":"hut","Obstruct":{"Width":2,"Depth":2}}],"entities":[],'
        b'"commands":[[1,1,"place",0,"5.5","5.5"],[1,1,"place",0,"6.5","5.5"],[1,1,"place",0,"7.5","5.5"],'
        b'[1,1,"place",0,"0.5","0.5"],[1,1,"resign"]]}')
HUTS_LINES = (b"turn 0 bc011c526afb5bc4756cb8f53721e51c\n"
              b"turn 1 3b505723b94edd38fa8f90828241b1da\n")
# The digest of each turn of examples/camp.json.
CAMP_DIGESTS = (b"bb275af1349e7ec2bcd54bee60ed3797", b"65413f4061d551fc9139f5b509603a1f", b"127a837cf0dd9df738c1c4b7a0fb6fb1",
                b"a458831fc60120d3d18b505f1161fe63", b"f9828403c8a09cf2b9f5aa204b49ac8b", b"00b9c66683d9b718892a5f448d3e3561",
                b"008ad14d92efed427c11571c576a49b0", b"f482728f5b8103fe6c9632e842758a16")
# Two players with a walker each, and no command: in a session they come from its clients.
WALKERS = (b'{"size":[16,16],"closed":[],"players":[[],[]],"cap":0,"delay":2,"turns":5,"seed":0,'
           b'"templates":[{"@name":"walker","Motion":{"Speed":10}}],'
           b'"entities":[["walker",1,"2.5","2.5"],["walker",2,"2.5","5.5"]],"commands":[]}')
# Its first turns, in which nobody was told to walk.
WALKERS_DIGESTS = b"73e3470f5addc8ca29a65fd51b7bcd2f", b"35320ef0d4b872585577f4e1c68b3ade", b"d974b9e19e034e0c7fcd88e3c93a7a56"
# A frame of each kind that a client may send, and of each kind of command.
FRAMES = tuple(map(bytes.fromhex, (
    "0100000001", "14000000020200000001010002000000" "0080060000800200", "0c0000000202000000020100" "03000000",
    "1000000002020000000301000200000003000000", "1000000002020000000402000200000003000000",
    "1000000002020000000501000080060000800200", "0c00000002020000000605000000" "0100", "06000000020200000007",
    "050000000302000000", "15000000040100000000000000000000000000000000000000", "09000000050301000000525349")))
USAGE = b"""usage: simcore play MATCH
       simcore state MATCH TURN OUT
       simcore resume MATCH STATE
       simcore rejoin MATCH TURN
       simcore serve SCHEDULE
       simcore session MATCH STEPS
       simcore compare MATCH A B
       simcore show MATCH STATE
       simcore trial SEED UNITS TURNS
       simcore sight MATCH TURN OUT
       simcore resight MATCH STATE MAP
       simcore log MATCH OUT
       simcore record MATCH STEPS OUT
       simcore check MATCH LOG
       simcore stock MATCH ECONOMY
       simcore realm MATCH TURN
       simcore film MATCH EVERY
       simcore parts MATCH
       simcore live MATCH CLIENTS
       simcore relay CLIENTS ACTIVE DELAY TURNS
"""

passed = failed = 0


def run(words, folder, stdout=subprocess.PIPE, before=None, name=str(PROGRAM)):
    """The status, standard output and standard error of the program in that folder, started by that name."""
    done = subprocess.run([name, *words], executable=PROGRAM, cwd=folder, stdin=subprocess.DEVNULL, stdout=stdout,
                          stderr=subprocess.PIPE, preexec_fn=before, timeout=SECONDS)
    return done.returncode, done.stdout, done.stderr


def case(name, got, status, text):
    """One line for one case: the status and the text are the wanted ones, and nothing is on standard error."""
    global passed, failed
    good = got == (status, text, b"")
    passed, failed = passed + good, failed + (not good)
    print(f"{'ok    ' if good else 'FAILED'} {name}" + ("" if good else f": {got}"))


def held(path):
    """The bytes of a file, or none where there is no such file."""
    return path.read_bytes() if path.exists() else None


def files(folder):
    """Every file of the folder with its bytes, so that a case can show that none has changed."""
    return {path.name: path.read_bytes() for path in folder.iterdir() if path.is_file()}


def templates(folder):
    """Matches whose templates inherit."""
    listed = b'"templates":[%s]'
    (folder / "chain.json").write_bytes(EMPTY.replace(listed % b"", listed % CHAIN))
    (folder / "short.json").write_bytes(EMPTY.replace(listed % b"", listed % CHAIN.rpartition(b",{")[0]))
    (folder / "big.json").write_bytes(EMPTY.replace(listed % b"", listed % BIG))
    (folder / "bad.json").write_bytes(EMPTY.replace(listed % b"", listed % BIG.replace(b"1.5", b"x")))
    case("a chain of seventeen templates", run(["play", "chain.json"], folder), 6, b"match refused 5 16\n")
    case("a chain of sixteen", run(["play", "short.json"], folder), 0, SIXTEEN_LINES)
    case("half as much again of a word", run(["play", "bad.json"], folder), 6, b"match refused 6 1\n")
    case("half as much again of a number", run(["play", "big.json"], folder), 0, BIG_LINES)


def schedule(clients, active, arrivals):
    """A schedule of a match with delay 1 and four turns."""
    head = b'{"clients":%d,"active":%d,"delay":1,"turns":4,"arrivals":[' % (clients, active)
    return head + b",".join(arrivals) + b"]}"


def schedules(folder):
    """Schedules run through the server: two that were worked out, refused ones, and a client that sends what it may not."""
    zero, one = b"0" * 32, b"0" * 31 + b"1"
    reports = [b'[1,"done",3]', b'[1,"done",2]', b'[1,"done",3]', b'[2,"report",2,"%s"]' % one, b'[2,"done",2]',
               b'[1,"report",2,"%s"]' % zero, b'[2,"report",2,"%s"]' % one, b'[2,"report",2,"%s"]' % one,
               b'[1,"report",2,"%s"]' % zero, b'[1,"report",2,"%s"]' % one]
    notice = b"to 1 notice 2 %d quick\nto 2 notice 2 %d quick\n"
    (folder / "reports.json").write_bytes(schedule(2, 2, reports))
    case("reports are compared with the first of their turn", run(["serve", "reports.json"], folder), 0,
         b"to 1 refused 2\nto 1 refused 2\nto 2 refused 2\nto 1 release 2\nto 2 release 2\n" + 2 * (notice % (2, 2))
         + notice % (1, 1) + b"released 2\n")
    joining = [b'[1,"command",2,"stop",[2]]', b'[3,"join"]', b'[1,"done",2]', b'[2,"command",2,"resign"]',
               b'[1,"state",3,1,"00"]',
               b'[3,"command",2,"stop",[]]', b'[2,"cut"]', b'[2,"done",3]']
    (folder / "joining.json").write_bytes(schedule(3, 2, joining))
    case("a client joins late and another is cut", run(["serve", "joining.json"], folder), 0,
         b"to 1 command turn 2 player 1 stop 2\nto 2 command turn 2 player 1 stop 2\nto 1 ask 3\n"
         b"to 1 command turn 2 player 2 resign\nto 2 command turn 2 player 2 resign\nto 3 state done 2 bytes 1\n"
         b"to 3 command turn 2 player 1 stop 2\nto 3 command turn 2 player 2 resign\nto 3 release 1\nto 3 refused 2\n"
         b"to 1 release 2\nto 3 release 2\nto 2 refused 1\nreleased 2\nkept 2 2\n")
    (folder / "nobody.json").write_bytes(schedule(2, 0, [b'[1,"join"]']))
    case("nobody is there to be asked", run(["serve", "nobody.json"], folder), 0, b"to 1 refused 4\nreleased 1\n")
    for name, bad in (("no list", b"[]"), ("more active than there are", schedule(2, 3, [])),
                      ("too many arrivals", schedule(2, 2, [b'[1,"join"]'] * 100_001))):
        (folder / "bad.json").write_bytes(bad)
        case(f"a schedule is refused: {name}", run(["serve", "bad.json"], folder), 8, b"list refused 0\n")
    (folder / "bad.json").write_bytes(schedule(2, 2, [b'[1,"join"]', b'[3,"join"]', b'[0,"join"]']))
    case("a schedule is refused: the second arrival", run(["serve", "bad.json"], folder), 8, b"list refused 2\n")
    case("a missing schedule", run(["serve", "none.json"], folder), 11, b"")
    most = b"4294967295"
    wrong = [b'[1,"done",%s]' % most, b'[1,"report",%s,"%s"]' % (most, zero), b'[1,"command",%s,"resign"]' % most,
             b'[1,"state",200,%s,"00"]' % most]
    hostile = ([b'[1,"command",2,"resign"]'] * 65 + wrong * 25_000)[:100_000]
    refusals = sum(b"state" not in arrival for arrival in hostile[65:])
    (folder / "hostile.json").write_bytes(schedule(2, 2, hostile))
    told = b"to 1 command turn 2 player 1 resign\nto 2 command turn 2 player 1 resign\n"
    case("100,000 arrivals of a hostile client, in a gigabyte", run(["serve", "hostile.json"], folder, before=limit_memory), 0,
         64 * told + b"to 1 refused 3\n" + refusals * b"to 1 refused 2\n" + b"released 1\nkept 2 64\n")


def raw_bytes(folder):
    """What clients send as it came: frames are heard, anything else cuts its client off, and nobody else loses anything by it."""
    sent = [b'[3,"join"]', b'[1,"bytes","050000000302000000"]', b'[1,"bytes","0100000001"]', b'[1,"bytes","05000000030200000000"]',
            b'[1,"done",3]', b'[2,"bytes","1000000002020000000202000200000003000000"]', b'[2,"bytes",""]']
    (folder / "sent.json").write_bytes(schedule(3, 2, sent))
    case("bytes that are a done, a join, and none", run(["serve", "sent.json"], folder), 0,
         b"to 1 ask 3\nto 2 ask 3\nto 1 refused 1\nto 2 command turn 2 player 2 stop 2,3\nto 3 refused 4\nreleased 1\nkept 2 1\n")
    damaged_frames(folder)


def damaged():
    """10,000 frames, each changed in one byte: all places of all kinds in turn, so that no two are equal."""
    places = [(frame, place) for frame in FRAMES for place in range(len(frame))]
    for number in range(10_000):
        frame, place = places[number % len(places)]
        yield frame[:place] + bytes([(frame[place] + 1 + number // len(places)) % 256]) + frame[place + 1:]


def damaged_frames(folder):
    """A client sends damaged frames, and joins again each time that it is cut: 3,924 times. The others play on."""
    lies = b",".join(b'[8,"bytes","%s"],[8,"join"],[1,"state",8,1,"00"]' % frame.hex().encode() for frame in damaged())
    honest = [b'[%d,%s]' % (client, said % turn) for turn in (2, 3, 4) for said in (b'"command",%d,"resign"', b'"done",%d')
              for client in range(1, 8)]
    for name, other in (("lies", [lies, b'[8,"cut"]']), ("cut", [b'[8,"cut"]'])):
        (folder / f"{name}.json").write_bytes(schedule(8, 8, honest[:5] + other + honest[5:]))
    cut = served(folder, "seven clients play on where one is cut", "cut.json", b"177 lines 3a4a4f102e90fd247fffa7d6b8b08b71")
    text = served(folder, "10,000 damaged frames", "lies.json", b"70741 lines a84cd42255595650669fe83655da8179")
    case("of them the others hear what is sent in their place, and nothing else", (0, to_others(text), b""), 0, to_others(cut))


def served(folder, name, file, wanted):
    """A schedule whose text is told by the number of its lines and its MD5."""
    status, text, error = run(["serve", file], folder)
    case(name, (status, b"%d lines %s" % (text.count(b"\n"), hashlib.md5(text).hexdigest().encode()), error), 0, wanted)
    return text


def to_others(text):
    """What the server says to all clients but the eighth, save for its commands, its wrong reports and that it joins."""
    of_eighth = re.compile(rb"to 8 |to \d (ask 8|notice \d 8 quick|command turn \d player 8 .*)$")
    return b"\n".join(line for line in text.splitlines() if line.startswith(b"to ") and not of_eighth.match(line))

def battles(folder):
    """Matches whose units fight, build and resign, and trials."""
    (folder / "guards.json").write_bytes(GUARDS)
    (folder / "huts.json").write_bytes(HUTS)
    case("guards strike each other down", run(["play", "guards.json"], folder), 0, GUARDS_LINES)
    status, text, error = run(["state", "guards.json", "1", "g"], folder)
    case("their state is stored", (status, text, error), 0, b"state 1 121 " + GUARDS_LINES.splitlines(True)[1].split()[2] + b"\n")
    case("the one who is left is shown", run(["show", "guards.json", "g"], folder), 0, GUARDS_SHOWN)
    case("and played on", run(["resume", "guards.json", "g"], folder), 0, b"".join(GUARDS_LINES.splitlines(True)[1:]))
    case("huts are placed where there is room", run(["play", "huts.json"], folder), 0, HUTS_LINES)
    case("a trial of one", run(["trial", "7", "1", "0"], folder), 0, b"trial 7 1 0 alive 1 fc182b73d9d39f82f2a95e32289ac21c\n")
    case("a trial of 200", run(["trial", "000000007", "200", "400"], folder), 0,
         b"trial 7 200 400 alive 13 5dc464161955ccb6f14e9bf995057072\n")
    for words in (["7", "0", "0"], ["7", "1001", "0"], ["7", "1", "10001"], ["0000000007", "1", "0"], ["-7", "1", "0"], ["7", "1"]):
        case(f"no trial: {' '.join(words)}", run(["trial", *words], folder), 2, USAGE)
    with open("/dev/full", "wb") as full:
        case("a trial that finds no room", run(["trial", "7", "1", "0"], folder, full), 4, None)


def lines_of(word, first):
    """The lines of a client who plays the camp from a turn on."""
    return b"".join(b"%s %d %s\n" % (word, turn, digest) for turn, digest in enumerate(CAMP_DIGESTS) if turn >= first)


def rejoins(folder):
    """A second client joins a match at a turn, and plays on with the digests of the first."""
    camp = str(TOP / "examples/camp.json")
    for turn in (0, 3, 5, 7):
        case(f"a client joins the camp at turn {turn}", run(["rejoin", camp, str(turn)], folder), 0,
             lines_of(b"first", 0) + lines_of(b"second", turn))
    case("a turn with zeros before it", run(["rejoin", camp, "000000003"], folder), 0, lines_of(b"first", 0) + lines_of(b"second", 3))
    case("nobody joins behind the last turn", run(["rejoin", camp, "8"], folder), 10, b"no turn 8 of 7\n")
    case("nobody joins a match that is not there", run(["rejoin", "none.json", "1"], folder), 11, b"")
    for words in ([camp], [camp, ""], [camp, "-1"], [camp, "0000000001"], [camp, "1", "1"]):
        case(f"no words of a joining: {' '.join(words[1:])!r}", run(["rejoin", *words], folder), 2, USAGE)
    with open("/dev/full", "wb") as full:
        case("a joining that finds no room", run(["rejoin", camp, "3"], folder, full), 4, None)


def full_ground():
    """A match whose ground of 256 by 256 cells is full of halls, of which two players delete some in turn 1."""
    owners = [1 + i * 5 % 8 for i in range(4096)]
    north = [[2 + i for i in range(2048) if owners[i] == player] for player in (3, 8)]
    return json.dumps({
        "size": [256, 256], "closed": [], "players": [[]] * 8, "cap": 4096, "delay": 1, "turns": 1, "seed": 0,
        "templates": [{"@name": "hall", "Obstruct": {"Width": 2, "Depth": 2}, "Train": {"Units": "hall"}}],
        "entities": [["hall", owner, i % 64 * 4 + 2, i // 64 * 4 + 2] for i, owner in enumerate(owners)],
        "commands": [[1, player, "delete", ids] for player, ids in zip((3, 8), north)],
    }).encode()


def realm_lines(cells, digest):
    """What is told of players all of whose cells are rooted."""
    return b"".join(b"realm %d held %d rooted %d\n" % (1 + i, held, held) for i, held in enumerate(cells)) + b"map %s\n" % digest


def territories(folder):
    """Who holds the ground of the greatest match, before and after halls are gone."""
    (folder / "full.json").write_bytes(full_ground())
    case("a ground full of halls", run(["realm", "full.json", "0"], folder), 0,
         realm_lines([10240, 10240, 10240, 8192, 8192, 6144, 6144, 6144], b"62f1e95222a9d5d5298c2e313fad0639"))
    case("some of its halls are gone", run(["realm", "full.json", "1"], folder), 0,
         realm_lines([10240, 10240, 4824, 8192, 12472, 10504, 6144, 2920], b"74088a75239727c5480cb31fb151d75f"))
    case("a turn that it has not", run(["realm", "full.json", "2"], folder), 10, b"no turn 2 of 1\n")
    with open("/dev/full", "wb") as full:
        case("territories that find no room", run(["realm", "full.json", "0"], folder, full), 4, None)


def films(folder):
    """A film and the templates of a match whose lines find no room, and a film whose text is longer than a pipe."""
    camp, many = TOP / "examples/camp.json", folder / "many.json"
    with open("/dev/full", "wb") as full:
        case("a film that finds no room", run(["film", camp, "1"], folder, full), 4, None)
        case("templates that find no room", run(["parts", camp], folder, full), 4, None)
    many.write_bytes(EMPTY.replace(b'"templates":[]', b'"templates":[{"@name":"post"}]')
                     .replace(b'"entities":[]', b'"entities":[%s]' % b",".join([b'["post",1,1,2]'] * 4096)))
    rows = b"".join(b"entity %d template post owner 1 at 1 2\n" % (2 + i) for i in range(4096))
    status, text, error = run(["film", "many.json", "1"], folder)
    told = b"".join(line for line in text.splitlines(True) if line[:6] == b"entity")
    case("a film of 4,096 posts", (status, told, error), 0, rows * 3)


def logs(folder):
    """Logs that find no room, of a match and of a session; the one that lies in examples; and one that is too long to be checked."""
    camp = TOP / "examples/camp.json"
    with open("/dev/full", "wb") as full:
        case("a log whose line finds no room", run(["log", camp, "camp.log"], folder, full), 4, None)
    kept = (folder / "camp.log").read_bytes()
    case("it is saved whole before its line", run(["check", camp, "camp.log"], folder), 0, b"agree 7\n")
    case("a log that finds no room", run(["log", camp, "/dev/full"], folder), 4, b"")
    lies = (TOP / "examples/camp-lies.log").read_bytes()
    case("the log that lies differs in a digit", (sum(a != b for a, b in zip(kept, lies)), len(kept) == len(lies), b""), 1, True)
    case("the log that lies", run(["check", camp, TOP / "examples/camp-lies.log"], folder), 1,
         b"differ turn 3\nlog a458831fc60120d3d18b505f1161fe63\nplay 08e55b0d148887ca83ed93911c4fd866\n")
    resigned = b",".join(b'[%d,%d,"resign"]' % (1 + i // 512, 1 + i // 64 % 8) for i in range(1000 * 512))
    (folder / "resigning.json").write_bytes(EMPTY.replace(b'"players":[[]]', b'"players":[[],[],[],[],[],[],[],[]]')
                                       .replace(b'"turns":2', b'"turns":1000').replace(b'"commands":[]', b'"commands":[%s]' % resigned))
    status, text, error = run(["log", "resigning.json", "resigning.log"], folder)
    size = (folder / "resigning.log").stat().st_size
    case("a log of more than 16,777,216 bytes", (status, text, error), 0, b"log 1000 %d\n" % size)
    case("is too long to be checked", (run(["check", "resigning.json", "resigning.log"], folder)[0], size > 16777216, b""), 5, True)


def step_list(clients, *steps):
    """A list of steps, in which so many clients begin."""
    return b'{"clients":%d,"steps":[%s]}' % (clients, b",".join(steps))


def sessions_of_walkers(folder):
    """Sessions of two walkers, that of docs/FORMATS.md among them."""
    (folder / "walkers.json").write_bytes(WALKERS)
    first, second, third = WALKERS_DIGESTS
    starts = b"client 1 start 0 %s\nclient 2 start 0 %s\n" % (first, first)

    def printed(name, clients, steps, events, ending):
        (folder / "steps.json").write_bytes(step_list(clients, *steps))
        case(f"a session: {name}", run(["session", "walkers.json", "steps.json"], folder), 0, events + ending)

    printed("both order and play a turn", 2,
            [b'["order",1,"walk",[2],"6.5","2.5"]', b'["up",1]', b'["order",2,"stop",[3]]', b'["up",2]', b'["play",1]', b'["play",2]'],
            starts + b"client 1 order 3\nclient 2 order 3\nclient 1 play 1 %s\nclient 2 play 1 %s\n" % (second, second),
            b"released 2\nkept 3 2\nend 1 on 1 %s\nend 2 on 1 %s\n" % (second, second)
            + b"pipe 1 up 25 9\npipe 1 down 25 17\npipe 2 up 25 9\npipe 2 down 25 17\n")
    printed("a turn that is not released is not played", 2, [b'["play",1]'] * 3,
            starts + b"client 1 play 1 %s\nclient 1 play 2 %s\n" % (second, third),
            b"released 2\nend 1 on 2 %s\nend 2 on 0 %s\n" % (third, first)
            + b"pipe 1 up 25 9 25 9\npipe 1 down\npipe 2 up\npipe 2 down\n")
    printed("nobody is there whose state could be had", 1, [b'["cut",1]', b'["join",2]', b'["up",2]', b'["down",2]', b'["up",2]'],
            b"client 1 start 0 %s\nclient 1 cut\nclient 2 join\nclient 2 refused 4\n" % first,
            b"released 2\nend 1 off\nend 2 off\npipe 1 up\npipe 1 down\npipe 2 up\npipe 2 down\n")
    again = [b'["cut",1]', b'["join",1]', b'["up",1]', b'["down",2]', b'["up",2]'] + [b'["down",1]'] * 66
    printed("the 65th command of a turn, from a client that was cut and came back", 2,
            [b'["order",1,"resign"]', b'["up",1]'] * 64 + [b'["down",2]'] * 64 + again
            + [b'["order",1,"resign"]', b'["up",1]', b'["down",1]', b'["down",2]'],
            starts + b"client 1 order 3\n" * 64 + b"client 1 cut\nclient 1 join\nclient 1 load 0 %s\n" % first
            + b"client 1 order 3\nclient 1 refused 3\n",
            b"released 2\nkept 3 64\nend 1 on 0 %s\nend 2 on 0 %s\n" % (first, first)
            + b"pipe 1 up\npipe 1 down\npipe 2 up\npipe 2 down\n")


def refused_sessions(folder):
    """Sessions that come to nothing: each has its status and at most a line, and no file is changed."""
    up = b'["up",1]'
    lists = {"none": (b"", 0), "of no client": (step_list(0, up), 0), "of a client too many": (step_list(3, up), 0),
             "with a key too many": (step_list(1, up)[:-1] + b',"x":0}', 0), "with too many steps": (step_list(1, *[up] * 100_001), 0),
             "of a third player": (step_list(1, up, b'["up",3]', b"[]"), 2), "with a word that is none": (step_list(1, b'["leap",1]'), 1),
             "with a point that is none": (step_list(1, up, up, b'["order",1,"walk",[2],"6.5"]'), 3),
             "with a health that is none": (step_list(2, b'["bend",2,2,"x"]'), 1)}
    for at, (bytes_of_list, _) in enumerate(lists.values()):
        (folder / f"list{at}.json").write_bytes(bytes_of_list)
    (folder / "most.json").write_bytes(step_list(1, *[up] * 100_000))
    (folder / "good.json").write_bytes(step_list(1, up))
    before = files(folder)

    def ends(name, words, status, text):
        case(f"no session: {name}", run(["session", *words], folder), status, text)

    for at, (name, (_, index)) in enumerate(lists.items()):
        ends(f"a list {name}", ["walkers.json", f"list{at}.json"], 8, b"list refused %d\n" % index)
    ends("a match that has commands", ["posts.json", "good.json"], 6, b"match refused 11 0\n")
    ends("that match is refused before its list is looked for", ["posts.json", "none"], 6, b"match refused 11 0\n")
    ends("no match", ["none", "none"], 11, b"")
    ends("no list", ["walkers.json", "none"], 11, b"")
    ends("a folder as its match", ["folder", "none"], 3, b"")
    ends("a folder as its list", ["walkers.json", "folder"], 3, b"")
    ends("an empty match", ["nothing.json", "good.json"], 6, b"match refused 1 0\n")
    ends("a match that is too long", ["long.json", "good.json"], 5, b"")
    ends("a list that is too long", ["walkers.json", "long.json"], 5, b"")
    ends("a list of the greatest length", ["walkers.json", "full.json"], 8, b"list refused 0\n")
    for words in ([], ["walkers.json"], ["walkers.json", "good.json", "good.json"]):
        ends(f"{len(words)} words", words, 2, USAGE)
    with open("/dev/full", "wb") as full:
        case("a session that finds no room", run(["session", "walkers.json", "good.json"], folder, full), 4, None)
        case("a session that is refused, and no room", run(["session", "walkers.json", "none"], folder, full), 11, None)
    first = WALKERS_DIGESTS[0]
    case("a session of as many steps as there may be", run(["session", "walkers.json", "most.json"], folder), 0,
         b"client 1 start 0 %s\nreleased 2\nend 1 on 0 %s\nend 2 off\n" % (first, first)
         + b"pipe 1 up\npipe 1 down\npipe 2 up\npipe 2 down\n")
    case("no session has changed a file", (0, b"", b""), 0, b"" if files(folder) == before else b"changed")


def limit_memory(most=1 << 30):
    """A gigabyte for all that the program takes, as `ulimit -v 1048576` gives it, or so many bytes."""
    resource.setrlimit(resource.RLIMIT_AS, (most, most))


def memory(folder):
    """A match and a schedule that take more memory than there is, and states that only claim to."""
    # A large template with as many heirs as there may be.
    heirs = b"".join(b',{"@name":"h%d","@parent":"base"}' % i for i in range(255))
    before, after = EMPTY.replace(b'"templates":[]', b'"templates":[{"@name":"base"}%s]' % heirs).split(b"}", 1)
    children = b"".join(b',"c%07d":0' % i for i in range((MAX_FILE - len(before) - len(after) - 1) // 13))
    (folder / "heirs.json").write_bytes(before + children + b"}" + after)
    case("heirs of a large template, in a gigabyte", run(["play", "heirs.json"], folder, before=limit_memory), 9, b"")
    case("a match of posts, in a gigabyte", run(["play", "posts.json"], folder, before=limit_memory), 0, POSTS_LINES)
    # Each joining is answered with all commands, of which there are as many: 3.6 GB of text.
    turns = [64 * [b'[1,"command",%d,"resign"]' % turn] + [b'[1,"done",%d]' % turn] for turn in range(2, 159)]
    joinings = 10_000 * [b'[2,"join"]', b'[1,"state",2,0,""]', b'[2,"cut"]']
    (folder / "square.json").write_bytes(schedule(2, 1, sum(turns, []) + joinings).replace(b'"turns":4', b'"turns":65535'))
    case("10,000 commands for each of 10,000 joinings, in a gigabyte", run(["serve", "square.json"], folder, before=limit_memory), 9, b"")
    for section, place in enumerate(STORED_COUNTS, 1):
        for rows in (0xFFFFFFFF, 4097):
            (folder / "claim").write_bytes(STORED[:place] + rows.to_bytes(4, "little") + STORED[place + 4:] + bytes(24 * 4097))
            case(f"a state that claims {rows} rows of section {section}, in 64 MB",
                 run(["show", "posts.json", "claim"], folder, before=lambda: limit_memory(1 << 26)), 7, b"state refused 3 claim\n")
    no_memory(folder)


def no_memory(folder):
    """Before it looks for a file, the program takes memory for its words and systems: one that finds none ends with 9."""
    page = resource.getpagesize()

    def ends(pages):
        try:
            return run(["play", "none.json"], folder, before=lambda: limit_memory(pages * page))
        except (OSError, subprocess.SubprocessError):
            return None, b"", b"it could not be started"

    low, high = 1, 1 << 14
    while low < high:
        middle = (low + high) // 2
        low, high = (low, middle) if ends(middle)[0] == 11 else (middle + 1, high)
    case("as much memory as it takes to say that a file is missing", ends(low), 11, b"")
    case("a page less", ends(low - 1), 9, b"")


def memory_of_sessions(folder):
    """Sessions that ask for more memory than there is: by their match, and by states that nobody takes out of a pipe."""
    (folder / "one.json").write_bytes(step_list(1, b'["up",1]'))
    case("heirs in a session, in a gigabyte", run(["session", "heirs.json", "one.json"], folder, before=limit_memory), 9, b"")
    crowd = b",".join(b'["post",1,%d,%d]' % (i % 4, i // 4 % 4) for i in range(4096))
    (folder / "crowd.json").write_bytes(EMPTY.replace(b'"players":[[]]', b'"players":[[],[]]').replace(
        b'"templates":[],"entities":[]', b'"templates":[{"@name":"post","Health":{"Max":50}}],"entities":[%s]' % crowd))
    # Client 1 answers with 0.1 MB each time.
    asked = [b'["join",2]', b'["up",2]', b'["down",1]', b'["cut",2]']
    (folder / "few.json").write_bytes(step_list(1, *asked * 10))
    (folder / "many.json").write_bytes(step_list(1, *asked * 12_000))
    digest = b"a74cf93a876ee1bba08ad613570d6d58"
    case("ten states in a pipe, in a gigabyte", run(["session", "crowd.json", "few.json"], folder, before=limit_memory), 0,
         b"client 1 start 0 %s\n" % digest + 10 * b"client 2 join\nclient 2 cut\n"
         + b"released 1\nend 1 on 0 %s\nend 2 off\npipe 1 up" % digest + 10 * b" 127061" + b"\npipe 1 down\npipe 2 up\npipe 2 down\n")
    case("12,000 states in a pipe, in a gigabyte", run(["session", "crowd.json", "many.json"], folder, before=limit_memory), 9, b"")


def commands_of(page):
    """The commands that a page shows at a prompt, each with the lines that follow it there."""
    for block in re.findall(r"^```\n(.*?)^```", (TOP / page).read_text(), re.M | re.S):
        for part in re.split(r"^\$ ", block, flags=re.M)[1:]:
            command, _, lines = part.partition("\n")
            yield command, lines


@contextlib.contextmanager
def at_terminal(typed):
    """A terminal at which this is typed. It shows what is typed itself, so a program that reads there tells only what it answers."""
    master, slave = os.openpty()
    os.write(master, typed.encode())
    yield slave
    os.close(slave)
    os.close(master)


def pages(folder):
    """What the pages show is what the program prints, in a folder that looks like the top of the repository."""
    (folder / "simcore").symlink_to(PROGRAM)
    (folder / "examples").symlink_to(TOP / "examples")
    for page in ("README.md", "examples/README.md", "docs/DESYNC.md", "docs/LIVE.md", "docs/REPLAYS.md", "docs/STOCKS.md", "docs/TERRITORY.md", "docs/VISION.md"):
        for command, lines in commands_of(page):
            typed = "".join(re.findall(r"^> (.*\n)", lines, re.M)) if command.startswith("./simcore live") else ""
            with at_terminal(typed) if typed else open(os.devnull) as stdin:
                done = subprocess.run(["bash", "-c", command.replace("/tmp/", "")], cwd=folder, stdin=stdin,
                                      stdout=subprocess.PIPE, stderr=subprocess.PIPE, timeout=SECONDS)
            told = re.sub(r"^> .*\n", "> ", lines, flags=re.M) if typed else lines
            case(f"{page}: {command[:60]}", (0, done.stdout, done.stderr), 0, told.encode())


def stored_states(folder):
    """Stored states on real files: written, read again, compared and refused."""
    before = files(folder)
    line = b"state 1 106 8fe2300087879a3c47e3af011e612274\n"
    case("a state is stored", run(["state", "posts.json", "1", "s"], folder), 0, line)
    case("its bytes are the worked ones", (0, held(folder / "s"), b""), 0, STORED)
    case("a stored state is shown", run(["show", "posts.json", "s"], folder), 0, SHOWN)
    case("a stored state is played on", run(["resume", "posts.json", "s"], folder), 0, RESUMED_LINES)
    case("a state is stored in place of another", run(["state", "posts.json", "2", "s"], folder), 0,
         b"state 2 106 d81f0e51244512e9cd24c374c62ecb18\n")
    case("the last turn is played on", run(["resume", "posts.json", "s"], folder), 0, POSTS_LINES.splitlines(True)[2])
    (folder / "s").write_bytes(STORED)
    (folder / "cut").write_bytes(STORED[:-1])
    (folder / "other").write_bytes(STORED[:8] + b"\0" * 16 + STORED[24:])
    (folder / "hurt").write_bytes(STORED.replace(bytes.fromhex("0300000000003200"), bytes.fromhex("0300000000003100")))
    case("a turn that the match lacks", run(["state", "posts.json", "3", "t"], folder), 10, b"no turn 3 of 2\n")
    case("and nothing is stored", (0, held(folder / "t"), b""), 0, None)
    case("a place that is no folder", run(["state", "posts.json", "1", "none/t"], folder), 4, b"")
    case("a folder as the place", run(["state", "posts.json", "1", "folder"], folder), 4, b"")
    case("an empty stored state", run(["show", "posts.json", "nothing.json"], folder), 7, b"state refused 1 nothing.json\n")
    case("a state of another match", run(["show", "posts.json", "other"], folder), 7, b"state refused 2 other\n")
    case("a state that is cut", run(["resume", "posts.json", "cut"], folder), 7, b"state refused 3 cut\n")
    case("a missing state", run(["resume", "posts.json", "none"], folder), 11, b"")
    case("two equal states", run(["compare", "posts.json", "s", "s"], folder), 0, b"same\n")
    case("two states that differ", run(["compare", "posts.json", "s", "hurt"], folder), 1,
         b"differ entity 3 part Health\nleft 0300000000003200\nright 0300000000003100\n")
    case("the second of two is refused", run(["compare", "posts.json", "s", "cut"], folder), 7, b"state refused 3 cut\n")
    with open("/dev/full", "wb") as full:
        case("a state is stored, and its line finds no room", run(["state", "posts.json", "1", "u"], folder, full), 4, None)
    case("then its file is whole", (0, held(folder / "u"), b""), 0, STORED)
    (folder / "over.json").write_bytes(POSTS)
    case("a match is read before its file is written over", run(["state", "over.json", "1", "over.json"], folder), 0, line)
    case("then its file is the state", (0, held(folder / "over.json"), b""), 0, STORED)
    kept = {name: content for name, content in files(folder).items() if name in before}
    case("no file but those that were stored has changed", (0, b"", b""), 0, b"" if kept == before else b"changed")


def full_pipe():
    """The two ends of a pipe that takes no more bytes, and in which a write does not wait for room."""
    reader, writer = os.pipe()
    os.set_blocking(writer, False)
    try:
        while True:
            os.write(writer, bytes(4096))
    except BlockingIOError:
        return reader, writer


def pieces(folder):
    """A run whose match comes through a pipe, 50 bytes at a time."""
    os.mkfifo(folder / "fifo")

    def feed():
        with open(folder / "fifo", "wb", buffering=0) as pipe:
            for at in range(0, len(POSTS), 50):
                pipe.write(POSTS[at:at + 50])
                time.sleep(0.002)

    threading.Thread(target=feed, daemon=True).start()
    got = run(["play", "fifo"], folder)
    (folder / "fifo").unlink()
    return got


def resumed(place, state, folder):
    """What `resume` says of a state that is stored in a file of its own, which the text calls `it`."""
    name = f"at-{place}-{state[place:place + 1].hex()}"
    (folder / name).write_bytes(state)
    status, text, error = run(["resume", "walk.json", name], folder)
    (folder / name).unlink()
    return status, text.replace(name.encode(), b"it"), error


def code_of(place, state):
    """The code of a state that is refused for its byte at a place: for what it is, for its match, or for what stands behind."""
    if place < 8:
        return 3 if (place, state[place]) == (4, 1) else 1
    return 2 if place < 24 else 3


def answer_of_change(place, state, folder):
    """The status for a state that is changed at a place, or None where the answer is wrong. One that is loaded has the digest of
    its bytes, since it is the state that they spell."""
    status, text, error = resumed(place, state, folder)
    if status == 0:
        turn = int.from_bytes(state[24:28], "little")
        good = place >= 24 and text.startswith(b"turn %d %s\n" % (turn, hashlib.md5(state).hexdigest().encode()))
    else:
        good = (status, text) == (7, b"state refused %d it\n" % code_of(place, state))
    return status if good and not error else None


def damaged_states(folder):
    """Every cut of a stored state and every change of one of its bytes: refused with its code, or loaded as what it spells."""
    (folder / "walk.json").write_bytes(WALK)
    case("the state of a walker is stored", run(["state", "walk.json", "1", "w"], folder), 0, WALKING_LINE)
    case("its bytes are the worked ones as well", (0, held(folder / "w"), b""), 0, WALKING)
    cuts = [length for length in range(len(WALKING))
            if resumed(length, WALKING[:length], folder) != (7, b"state refused %d it\n" % (1 if length < 24 else 3), b"")]
    case("every cut of it is refused", (0, b"%d wrong" % len(cuts), b""), 0, b"0 wrong")
    changes = [(place, WALKING[:place] + bytes([value]) + WALKING[place + 1:])
               for place in range(len(WALKING)) for value in range(256) if value != WALKING[place]]
    with concurrent.futures.ThreadPoolExecutor(os.cpu_count()) as pool:
        answers = list(pool.map(lambda change: answer_of_change(*change, folder), changes))
    counts = tuple(map(answers.count, (0, 7, None)))
    case("every change of a byte of it", (0, b"%d loaded, %d refused, %d wrong" % counts, b""), 0,
         b"6463 loaded, 26432 refused, 0 wrong")


def limit_file(most):
    """No file becomes longer than so many bytes: a write beyond that is one that fails."""
    signal.signal(signal.SIGXFSZ, signal.SIG_IGN)
    resource.setrlimit(resource.RLIMIT_FSIZE, (most, most))


def cut_short(folder):
    """A file and an output that take no more bytes, at each length: what they hold is a beginning, and nothing else is changed."""
    stored, told = folder / "new", folder / "told"

    def saved(most, old):
        stored.unlink(missing_ok=True)
        if old:
            stored.write_bytes(old)
        answer = run(["state", "walk.json", "1", "new"], folder, before=lambda: limit_file(most))
        return answer == (4, b"", b"") and held(stored) == WALKING[:most]

    def printed(most):
        with open(told, "wb") as out:
            answer = run(["play", "posts.json"], folder, out, lambda: limit_file(most))
        return answer[0] == 4 and held(told) == POSTS_LINES[:most]

    wrong = sum(not saved(most, old) for most in range(len(WALKING)) for old in (None, POSTS))
    case("a state that is cut short at each length", (0, b"%d wrong" % wrong, b""), 0, b"0 wrong")
    case("then the same words save it whole", run(["state", "walk.json", "1", "new"], folder), 0, WALKING_LINE)
    kept = held(stored) == WALKING and held(folder / "walk.json") == WALK
    case("and its match is as it was", (0, b"" if kept else b"changed", b""), 0, b"")
    wrong = sum(not printed(most) for most in range(len(POSTS_LINES)))
    case("a text that is cut short at each length", (0, b"%d wrong" % wrong, b""), 0, b"0 wrong")


def main():
    if not PROGRAM.is_file():
        print(f"there is no program {PROGRAM}: build it first, as the README says")
        print("0 passed, 1 failed")
        return 1
    with tempfile.TemporaryDirectory() as name:
        folder = pathlib.Path(name)
        (folder / "empty.json").write_bytes(EMPTY)
        (folder / "posts.json").write_bytes(POSTS)
        (folder / "folder").mkdir()
        (folder / "nothing.json").write_bytes(b"")
        (folder / "late.json").write_bytes(EMPTY.replace(b'"delay":1', b'"delay":9'))
        (folder / "words.json").write_bytes(b"\xff")
        (folder / "long.json").write_bytes(b" " * (MAX_FILE + 1))
        (folder / "full.json").write_bytes(b" " * MAX_FILE)
        (folder / "padded.json").write_bytes(POSTS + b" " * (MAX_FILE - len(POSTS)))
        before = files(folder)

        case("a match without entities is played", run(["play", "empty.json"], folder), 0, EMPTY_LINES)
        case("a match of posts is played", run(["play", "posts.json"], folder), 0, POSTS_LINES)
        case("a missing file", run(["play", "none.json"], folder), 11, b"")
        case("a name that is empty", run(["play", ""], folder), 11, b"")
        case("a folder in place of a file", run(["play", "folder"], folder), 3, b"")
        case("a name below a file", run(["play", "posts.json/x"], folder), 3, b"")
        case("an empty file", run(["play", "nothing.json"], folder), 6, b"match refused 1 0\n")
        case("a file that is no text", run(["play", "words.json"], folder), 6, b"match refused 1 0\n")
        case("a delay past its limit", run(["play", "late.json"], folder), 6, b"match refused 3 4\n")
        case("a file one byte too long", run(["play", "long.json"], folder), 5, b"")
        case("a file of the greatest length", run(["play", "full.json"], folder), 6, b"match refused 1 0\n")
        case("a match of the greatest length", run(["play", "padded.json"], folder), 0, PADDED_LINES)
        case("no words", run([], folder), 2, USAGE)
        case("an unknown word", run(["fly", "posts.json"], folder), 2, USAGE)
        case("a word too many", run(["play", "posts.json", "x"], folder), 2, USAGE)
        case("the program's own name is no word", run(["posts.json"], folder, name="play"), 2, USAGE)
        case("whatever that name is", run(["play", "posts.json"], folder, name=""), 0, POSTS_LINES)
        case("a word that is not UTF-8", run(["play", b"\xff\xfe"], folder), 2, USAGE)
        (folder / "posts.json ").write_bytes(EMPTY)
        case("a space behind a name is part of it", run(["play", "posts.json "], folder), 0, EMPTY_LINES)
        case("a space before a name too", run(["play", " posts.json"], folder), 11, b"")
        (folder / "posts.json ").unlink()
        case("a match that comes in pieces", pieces(folder), 0, POSTS_LINES)
        with open("/dev/full", "wb") as full:
            case("a full standard output", run(["play", "posts.json"], folder, full), 4, None)
            case("a full standard output, and nothing to write", run(["play", "none.json"], folder, full), 11, None)
        case("a closed standard output", run(["play", "posts.json"], folder, None, lambda: os.close(1)), 4, None)
        reader, writer = os.pipe()
        os.close(reader)
        with os.fdopen(writer, "wb") as pipe:
            case("a pipe that nobody reads", run(["play", "posts.json"], folder, pipe), 4, None)
        reader, writer = full_pipe()
        case("a full pipe that does not block", run(["play", "posts.json"], folder, writer), 4, None)
        os.close(reader)
        os.close(writer)
        case("no file has changed", (0, b"", b""), 0, b"" if files(folder) == before else b"changed")
        stored_states(folder)
        damaged_states(folder)
        cut_short(folder)
        templates(folder)
        schedules(folder)
        raw_bytes(folder)
        battles(folder)
        rejoins(folder)
        territories(folder)
        films(folder)
        logs(folder)
        sessions_of_walkers(folder)
        refused_sessions(folder)
        memory(folder)
        memory_of_sessions(folder)
        pages(folder)
    print(f"{passed} passed, {failed} failed")
    return 1 if failed else 0


if __name__ == "__main__":
    sys.exit(main())
