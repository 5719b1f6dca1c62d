#!/usr/bin/env python3
"""Talks with the built program: `live` and `relay` over pipes, with faults on both sides, and by hand through a pseudo-terminal.

Usage: python3 tests/live.py [PROGRAM]

PROGRAM is by default the one that the gate leaves in crates/simcore/out. One line a case that fails, and a last line
'N passed, M failed'. The exit status is 0 where none failed. What `live` is to answer is taken from `session` over each beginning of
a list, and what `relay` is to answer from the layout of frames in docs/FORMATS.md.
"""

import json
import os
import pathlib
import pty
import resource
import select
import signal
import socket
import subprocess
import sys
import tempfile
import threading
import time

TOP = pathlib.Path(__file__).resolve().parent.parent
PROGRAM = str(pathlib.Path(sys.argv[1] if len(sys.argv) > 1 else TOP / "crates/simcore/out/simcore").resolve())
EXAMPLES = TOP / "examples"
LISTS = ("handover", "early-fall", "hidden-wound")
MAX_LINE = 1_048_576
ROOM = 65_536
FOUND = {"passed": 0, "failed": 0}


def check(name, good, told=""):
    """Counts a case, and prints one that fails."""
    FOUND["passed" if good else "failed"] += 1
    if not good:
        print(f"FAILED {name}: {told}")


def ran(words, data=b"", **more):
    """The status and the text of the program over this input."""
    done = subprocess.run([PROGRAM, *words], input=data, stdout=subprocess.PIPE, timeout=60, check=False, cwd=EXAMPLES, **more)
    return done.returncode, done.stdout


def lines_of(items):
    """A line of JSON for each item."""
    return b"".join(json.dumps(it).encode() + b"\n" for it in items)


def without_marks(text):
    """What is told but for the line behind each answer."""
    return b"".join(it for it in text.splitlines(True) if not it.startswith((b"ok ", b"refused ")))


def session(name, clients, steps):
    """What `session` prints of these steps."""
    with tempfile.NamedTemporaryFile("w", suffix=".json") as file:
        json.dump({"clients": clients, "steps": steps}, file)
        file.flush()
        return ran(["session", f"{name}.json", file.name])


class Talk:
    """A talk with the program, line by line."""

    def __init__(self, *words, **more):
        self.process = subprocess.Popen([PROGRAM, *words], stdin=subprocess.PIPE, stdout=subprocess.PIPE, bufsize=0, cwd=EXAMPLES, **more)
        self.kept = b""

    def line(self, timeout=20.0):
        """The next line, or what came of it until the time was over or the output ended."""
        end = time.monotonic() + timeout
        while b"\n" not in self.kept:
            if not select.select([self.process.stdout], [], [], max(0.0, end - time.monotonic()))[0]:
                break
            piece = os.read(self.process.stdout.fileno(), 65536)
            if not piece:
                break
            self.kept += piece
        line, feed, self.kept = self.kept.partition(b"\n")
        return line + feed

    def answer(self):
        """The lines up to the mark of an answer, and the mark."""
        lines = []
        while True:
            line = self.line()
            if line.startswith((b"ok ", b"refused ")) or not line.endswith(b"\n"):
                return b"".join(lines), line
            lines.append(line)

    def say(self, data):
        """Writes these bytes."""
        os.write(self.process.stdin.fileno(), data)

    def say_all(self, data):
        """Writes many bytes, in pieces that a pipe takes at once."""
        for at in range(0, len(data), 4096):
            self.say(data[at:at + 4096])

    def end(self):
        """Ends the input: the status, and what was told besides."""
        self.process.stdin.close()
        rest = self.kept + self.process.stdout.read()
        self.process.stdout.close()
        return self.process.wait(timeout=60), rest


def try_prefixes():
    """Each beginning of a list is told as `session` tells it, but for the marks."""
    for name in LISTS:
        whole = json.loads((EXAMPLES / f"{name}-steps.json").read_text())
        clients, steps = whole["clients"], whole["steps"]
        for count in range(len(steps) + 1):
            status, text = ran(["live", f"{name}.json", str(clients)], lines_of(steps[:count]))
            marks = [it for it in text.splitlines() if it.startswith(b"ok ")]
            good = (status, without_marks(text)) == session(name, clients, steps[:count])
            check(f"{name}, {count} steps", good and marks == [b"ok %d" % (i + 1) for i in range(count)], (status, text))


def try_steps():
    """Each answer comes before the next line is written, is that of the step, and comes whole however the line comes."""
    for name, pieces in (("handover", 0), ("early-fall", 1), ("hidden-wound", 3)):
        whole = json.loads((EXAMPLES / f"{name}-steps.json").read_text())
        clients, steps = whole["clients"], whole["steps"]
        talk = Talk("live", f"{name}.json", str(clients))
        told = b"".join(talk.line() for _ in range(clients))
        good = True
        for count, step in enumerate(steps):
            data = lines_of([step])
            for at in range(0, len(data), pieces or len(data)):
                talk.say(data[at:at + (pieces or len(data))])
            text, mark = talk.answer()
            good = good and mark == b"ok %d\n" % (count + 1)
            told += text
        status, rest = talk.end()
        check(f"{name} step by step, in pieces of {pieces or 'a line'}", good and (status, told + rest) == session(name, clients, steps), told + rest)


class Packets:
    """A talk over two sockets of packets: the program reads what one packet has, and each of its writes is one."""

    def __init__(self, *words):
        self.into, theirs = socket.socketpair(socket.AF_UNIX, socket.SOCK_SEQPACKET)
        self.out, other = socket.socketpair(socket.AF_UNIX, socket.SOCK_SEQPACKET)
        self.process = subprocess.Popen([PROGRAM, *words], stdin=theirs, stdout=other, cwd=EXAMPLES)
        theirs.close()
        other.close()
        self.out.settimeout(20.0)

    def end(self):
        """Ends the input: the status, and the packets that come yet."""
        self.into.close()
        rest = list(iter(lambda: self.out.recv(2 * ROOM), b""))
        self.out.close()
        return self.process.wait(timeout=60), rest


def try_pieces():
    """Answers are written in one piece while lines stand in what was read, and before more is waited for; never more than fits at once."""
    begun = b"".join(it for it in session("handover", 2, [])[1].splitlines(True) if b" start " in it)
    talk = Packets("live", "handover.json", "2")
    check("the beginning is written before a line is read", talk.out.recv(ROOM) == begun)
    for data, wanted in ((b'["up",1]\n', b"ok 1\n"), (b'["up",1]\n["up",2]\n["kept"]\nx\n', b"ok 2\nok 3\nreleased 1\nok 3\nrefused 4\n"),
                         (b'["up",1]\n["up"', b"ok 4\n"), (b",1]\n", b"ok 5\n"), (b"\n" * 1000, b"refused 6\n" * 1000)):
        talk.into.sendall(data)
        got = talk.out.recv(ROOM)
        check(f"answers to {data[:40]} come in one piece", got == wanted, got)
    status, rest = talk.end()
    check("the endings come in one piece", status == 0 and len(rest) == 1, rest)
    talk = Packets("live", "handover.json", "2")
    talk.out.recv(ROOM)
    talk.into.sendall(b'["join",3]\n["kept"]\n["up",3')
    status, rest = talk.end()
    check("what was answered before a fault is written", (status, rest) == (16, [b"client 3 join\nok 1\nreleased 1\nok 1\n"]), rest)
    talk = Packets("live", "handover.json", "2")
    talk.out.recv(ROOM)
    looks = b'["show",1]\n' * 300
    talk.into.sendall(looks)
    text = b""
    sizes = []
    while text.count(b"ok 0\n") < 300:
        piece = talk.out.recv(2 * ROOM)
        sizes.append(len(piece))
        text += piece
    check("no piece is longer than the room", len(sizes) > 1 and all(ROOM * 3 // 4 < it <= ROOM for it in sizes[:-1]) and talk.end()[0] == 0, sizes)
    check("the pieces are the answers", text == text[:len(text) // 300] * 300 == ran(["live", "handover.json", "2"], looks)[1][len(begun):len(begun) + len(text)])


def try_long_text():
    """A text that is longer than the room is told whole, between those before it and behind it."""
    entities = [["walker", 1, f"{column}.5", f"{row}.5"] for row in range(40) for column in range(40)]
    match = {"size": [64, 64], "closed": [], "players": [[], []], "cap": 0, "delay": 2, "turns": 9, "seed": 0,
             "templates": [{"@name": "walker", "Motion": {"Speed": 10}}], "entities": entities, "commands": []}
    lines = [b'["up",1]\n', b'["show",1]\n', b'["up",2]\n', b'["state",1]\n', b"x\n"]
    with tempfile.NamedTemporaryFile("w", suffix=".json") as file:
        json.dump(match, file)
        file.flush()
        talk = Talk("live", file.name, "2")
        told = talk.line() + talk.line()
        longest = 0
        for line in lines:
            talk.say(line)
            text, mark = talk.answer()
            longest = max(longest, len(text))
            told += text + mark
        status, rest = talk.end()
        check("a text longer than the room, line by line", status == 0 and longest > ROOM, longest)
        check("the same in one piece", ran(["live", file.name, "2"], b"".join(lines)) == (0, told + rest))


def cut_output(limit, data):
    """The status and the output of a talk whose output takes so many bytes and no more."""
    def bounded():
        signal.signal(signal.SIGXFSZ, signal.SIG_IGN)
        resource.setrlimit(resource.RLIMIT_FSIZE, (limit, limit))

    with tempfile.TemporaryFile() as file:
        done = subprocess.run([PROGRAM, "live", "handover.json", "2"], input=data, stdout=file, cwd=EXAMPLES, check=False, restore_signals=False,
                              preexec_fn=bounded, timeout=60)
        file.seek(0)
        return done.returncode, file.read()


def try_cut_outputs():
    """Of what was told a beginning is written where the output is full, and that is the status, whatever else comes to pass."""
    lines = lines_of([["order", 1, "walk", [2], "6.5", "1.5"], ["up", 1], ["play", 1], ["play", 2], ["kept"], ["show", 1]] * 3)
    whole = ran(["live", "handover.json", "2"], lines)[1]
    answers = ran(["live", "handover.json", "2"], lines + b"x")
    check("cut off behind answers", answers[0] == 16 and whole.startswith(answers[1]) and answers[1].endswith(b"ok 12\n"), answers[1][-200:])
    for limit in (0, 1, 50, len(answers[1]) // 2, len(answers[1]) - 1):
        for name, end in (("the end", b""), ("a line cut off", b"x"), ("no text", b"\xff\n"), ("a long line", b"x" * (MAX_LINE + 1))):
            got = cut_output(limit, lines + end)
            check(f"{limit} bytes are written, then {name}", got == (19, whole[:limit]), got)
    check("all bytes are written", cut_output(len(whole), lines) == (0, whole))


def try_slow_reader():
    """Nothing is lost where the reader waits until the pipe is full."""
    steps = [["play", 1], ["up", 1], ["down", 1]] * 4000
    talk = Talk("live", "handover.json", "1")
    writer = threading.Thread(target=lambda: (talk.say_all(lines_of(steps)), talk.process.stdin.close()))
    writer.start()
    time.sleep(1.0)
    text = b""
    while True:
        piece = os.read(talk.process.stdout.fileno(), 997)
        if not piece:
            break
        text += piece
    writer.join()
    check("slow reader", (talk.process.wait(), without_marks(text)) == session("handover", 1, steps), text[-200:])


def try_refusals():
    """What is no step and no look is refused, and changes nothing; a look changes nothing."""
    odd = [b"", b"x", b"[]", b"{}", b"null", b'["play"]', b'["play",4]', b'["play",0]', b'["play",1,2]', b'["digest"]', b'["digest",4]',
           b'["show",1,"x"]', b'["state",1,2]', b'["pipes",1]', b'["kept",1]', b'["order",1]', b'["order",1,"fly"]', b"[[[", b'["up",1] ',
           b'\t["up",1]', b'["up",1]["up",1]']
    for line in odd:
        talk = Talk("live", "handover.json", "2")
        first = talk.line() + talk.line()
        talk.say(line + b"\n")
        text, mark = talk.answer()
        spaced = line.strip() == b'["up",1]'
        check(f"{line} is refused", (text, mark) == (b"", b"ok 1\n" if spaced else b"refused 1\n"), (text, mark))
        status, rest = talk.end()
        check(f"{line} changes nothing", (status, first + rest) == session("handover", 2, []), rest)


def try_looks():
    """What each look answers, and that it changes nothing."""
    steps = [["order", 1, "walk", [2], "6.5", "1.5"], ["up", 1], ["play", 1], ["join", 3]]
    talk = Talk("live", "handover.json", "2")
    first = talk.line() + talk.line()
    for step in steps:
        talk.say(lines_of([step]))
        first += talk.answer()[0]
    told = {}
    for look in (["digest", 1], ["digest", 2], ["digest", 3], ["show", 1], ["show", 3], ["state", 1], ["state", 1, "name"], ["state", 3], ["pipes"], ["kept"]):
        talk.say(lines_of([look]))
        text, mark = talk.answer()
        told[json.dumps(look)] = text
        check(f"{look} keeps the count", mark == b"ok 4\n", mark)
    status, rest = talk.end()
    whole = session("handover", 2, steps)
    check("looks change nothing", (status, first + rest) == whole, first + rest)
    ends = [it for it in whole[1].splitlines(True) if it.startswith(b"end ")]
    check("digest", [told[f'["digest", {c}]'] for c in (1, 2, 3)] == ends, told)
    check("show of nobody", told['["show", 3]'] == ends[2] == told['["state", 3]'], told)
    check("pipes", told['["pipes"]'] == b"".join(it for it in whole[1].splitlines(True) if it.startswith(b"pipe ")), told)
    check("kept", told['["kept"]'] == b"".join(it for it in whole[1].splitlines(True) if it.startswith((b"released ", b"kept "))), told)
    check("a name changes nothing", told['["state", 1]'] == told['["state", 1, "name"]'], told)
    with tempfile.NamedTemporaryFile() as file:
        word, client, digits = told['["state", 1]'].split()
        file.write(bytes.fromhex(digits.decode()))
        file.flush()
        check("state", (word, client) == (b"state", b"1"), word)
        check("show", ran(["show", "handover.json", file.name]) == (0, told['["show", 1]']), told['["show", 1]'])


def try_faults():
    """Each fault of the input and of the output has its status, and what was told is whole lines up to it."""
    start = session("handover", 2, [])[1]
    start = b"".join(it for it in start.splitlines(True) if b" start " in it)
    step = b'["join",3]\n'
    good = start + b"client 3 join\nok 1\n"
    for name, data, status in (("cut off", step + b'["up",3', 16), ("one byte", step + b"x", 16), ("no text", step + b'["up",\xff]\n', 18),
                               ("a byte order mark", step + b'\xef\xbb\xbf["up",3]\n', 0), ("too long", step + b"x" * (MAX_LINE + 1), 17),
                               ("too long, with an end", step + b" " * (MAX_LINE + 1) + b"\n", 17), ("as long as may be", step + b" " * MAX_LINE + b"\n", 0),
                               ("as long as may be, cut", step + b" " * MAX_LINE, 16)):
        got = ran(["live", "handover.json", "2"], data)
        check(name, got[0] == status and (got[1].startswith(good + b"refused 2\n") if status == 0 else got[1] == good), (got[0], got[1][-200:]))
    folder = os.open(EXAMPLES, os.O_RDONLY)
    done = subprocess.run([PROGRAM, "live", "handover.json", "2"], stdin=folder, stdout=subprocess.PIPE, cwd=EXAMPLES, check=False)
    os.close(folder)
    check("an input that can't be read", (done.returncode, done.stdout) == (15, start), done)
    with open("/dev/full", "wb") as full:
        done = subprocess.run([PROGRAM, "live", "handover.json", "2"], input=step, stdout=full, cwd=EXAMPLES, check=False)
    check("a full output", done.returncode == 19, done)
    talk = Talk("live", "handover.json", "2")
    talk.line(), talk.line()
    talk.process.stdout.close()
    talk.say(step)
    check("a closed output", talk.process.wait(timeout=20) == 19, talk.process.returncode)
    talk.process.stdin.close()


def try_words():
    """Wrong words, matches that are refused, and numbers of clients."""
    for words, status in ((["live", "handover.json"], 2), (["live", "handover.json", "0"], 2), (["live", "handover.json", "9"], 2),
                          (["live", "handover.json", "x"], 2), (["live", "handover.json", "4"], 8), (["live", "nothing.json", "1"], 11),
                          (["live", "refused.json", "1"], 6), (["relay", "2", "3", "1", "5"], 2), (["relay", "9", "2", "1", "5"], 2),
                          (["relay", "2", "2", "0", "5"], 2), (["relay", "2", "2", "9", "5"], 2), (["relay", "2", "2", "1", "65536"], 2),
                          (["relay", "2", "2", "1"], 2)):
        got = ran(words)
        check(" ".join(words), got[0] == status, got)


def frame(body):
    """A frame: its length, and its body."""
    return len(body).to_bytes(4, "little") + body


def arrival(client, body):
    """A line of a frame that a client sent."""
    return json.dumps([client, "bytes", frame(body).hex()]).encode() + b"\n"


def try_relay():
    """The server by pipe: what it says to whom, for good frames and for others."""
    done = lambda turn: b"\x03" + turn.to_bytes(4, "little")
    release = lambda turn: frame(b"\x04" + turn.to_bytes(4, "little")).hex().encode()
    talk = Talk("relay", "2", "2", "2", "9")
    check("relay begins", talk.line() == b"released 2\n", talk.kept)
    for name, data, text, mark in (
            ("first done", arrival(1, done(3)), b"", b"ok 1\n"),
            ("second done", arrival(2, done(3)), b"post 1 %s\npost 2 %s\n" % (release(3), release(3)), b"ok 2\n"),
            ("no frame", b'[1,"bytes","00"]\n', b"", b"ok 3\n"),
            ("done of one who was cut", arrival(1, done(4)), None, b"ok 4\n"),
            ("an end", b'[2,"cut"]\n', None, b"ok 5\n"),
            ("words", b'[1,"join"]\n', b"", b"refused 6\n"), ("no arrival", b"x\n", b"", b"refused 6\n"), ("no client", b'[3,"cut"]\n', b"", b"refused 6\n"),
            ("the longest frame", b'[1,"bytes","%s"]\n' % (b"00" * 2_400_000), b"", b"ok 6\n"),
            ("longer than any frame", b'[1,"bytes","%s"]\n' % (b"00" * 2_400_001), b"", b"refused 7\n")):
        writer = threading.Thread(target=talk.say_all, args=(data,))
        writer.start()
        got = talk.answer()
        writer.join()
        check(f"relay: {name}", got[1] == mark and text in (None, got[0]), got)
    status, rest = talk.end()
    check("relay ends", status == 0 and rest.startswith(b"released "), rest)
    check("relay: a line too long", ran(["relay", "2", "2", "2", "9"], b"x" * 5_242_881)[0] == 17)


def try_sockets():
    """The example that carries the relay over TCP: two clients are done, and both hear that a turn is released; one goes."""
    carrier = subprocess.Popen([sys.executable, EXAMPLES / "relay_over_tcp.py", PROGRAM, "0", "2", "2", "2", "9"], stdout=subprocess.PIPE)
    port = int(carrier.stdout.readline())
    socks = [socket.create_connection(("127.0.0.1", port), timeout=20) for _ in range(2)]
    for client, sock in enumerate(socks, 1):
        sock.sendall(bytes([client]) + frame(b"\x03" + (3).to_bytes(4, "little")))
    wanted = frame(b"\x04" + (3).to_bytes(4, "little"))
    for client, sock in enumerate(socks, 1):
        check(f"relay over TCP: client {client}", sock.recv(len(wanted), socket.MSG_WAITALL) == wanted)
    socks[1].close()
    socks[0].sendall(frame(b"\x03" + (4).to_bytes(4, "little")))
    wanted = frame(b"\x04" + (4).to_bytes(4, "little"))
    check("relay over TCP: one has gone", socks[0].recv(len(wanted), socket.MSG_WAITALL) == wanted)
    socks[0].close()
    carrier.terminate()
    carrier.wait()
    carrier.stdout.close()


def typed(lines, words=("live", "handover.json", "2")):
    """What the program tells at a terminal where somebody types these lines, and its status."""
    child, master = pty.fork()
    if child == 0:
        os.chdir(EXAMPLES)
        os.execv(PROGRAM, [PROGRAM, *words])
    text = b""

    def until(mark):
        nonlocal text
        begun = len(text)
        while mark not in text[begun:]:
            if not select.select([master], [], [], 20)[0]:
                return False
            try:
                text += os.read(master, 65536)
            except OSError:
                return False
        return True

    until(b"> ")
    for line in lines:
        os.write(master, line + b"\n")
        if line != b"quit":
            until(b"> ")
    until(b"never")
    os.close(master)
    return os.waitstatus_to_exitcode(os.waitpid(child, 0)[1]), text.replace(b"\r\n", b"\n")


def try_terminal():
    """By hand: a prompt, help, and words beside JSON; a desync is made and found."""
    status, text = typed([b"help", b"order 1 walk 2 to 6.5 1.5", b"up 1", b"play 1", b"bend 1 2 12.5", b"play 2", b'["digest",1]', b"digest 2", b"fly", b"up 1", b"up 2", b"kept", b"quit"])
    check("terminal: status", status == 0, status)
    for name, part in (("prompt", b"> "), ("help", b"a line is a step, a look, help or quit"), ("an order in words", b"client 1 order 2\nok 1\n"),
                       ("a bend in words", b"client 1 bend 1 "), ("JSON beside words", b"end 1 on 1 "), ("a look in words", b"end 2 on 1 "),
                       ("what is no word", b"refused 6\n"), ("the end", b"pipe 3 down\n")):
        check(f"terminal: {name}", part in text, text)
    ends = [it.split()[-1] for it in text.splitlines() if b"end 1 on 1" in it or b"end 2 on 1" in it]
    check("terminal: the desync is seen", len(ends) >= 2 and ends[0] != ends[1], ends)
    check("terminal: the desync is told", b"differ 1 2 entity 2 part Health" in text, text)


def try_relay_terminal():
    """The server by hand: its help is its own, and what it names is taken."""
    status, text = typed([b"help", b"2 cut", b'[1,"bytes","00"]', b"play 1", b"quit"], ("relay", "2", "2", "2", "9"))
    check("terminal of relay: status", status == 0, status)
    for name, part in (("help", b"a line is an arrival, help or quit"), ("an arrival in words", b"ok 1\n"), ("one in JSON", b"ok 2\n"),
                       ("what is no arrival", b"refused 3\n"), ("the end", b"released ")):
        check(f"terminal of relay: {name}", part in text, text)
    check("terminal of relay: nothing of a session", b"a line is a step" not in text, text)


def try_closed_terminal():
    """Where the prompt can't be written the talk ends, as with any text that can't."""
    master, slave = pty.openpty()
    with open("/dev/full", "wb") as full:
        for words in (("live", "handover.json", "2"), ("relay", "2", "2", "2", "9")):
            done = subprocess.run([PROGRAM, *words], stdin=slave, stdout=full, cwd=EXAMPLES, check=False, timeout=60)
            check(f"terminal without an output: {words[0]}", done.returncode == 19, done)
    os.close(slave)
    os.close(master)


for trial in (try_prefixes, try_steps, try_pieces, try_long_text, try_cut_outputs, try_slow_reader, try_refusals, try_looks, try_faults, try_words, try_relay, try_sockets,
              try_terminal, try_relay_terminal, try_closed_terminal):
    trial()
print(f"{FOUND['passed']} passed, {FOUND['failed']} failed")
sys.exit(1 if FOUND["failed"] else 0)
