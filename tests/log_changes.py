#!/usr/bin/env python3
"""Every cut of a log, and every change of one byte of it to bytes of many kinds: at which line `check` refuses it, or that it does not.

Usage: python3 tests/log_changes.py [PROGRAM]

PROGRAM is by default the one that the gate leaves in crates/simcore/out. The log has 20 lines, with a command of each kind. What has to
come is found by a second reader, which is written here from docs/REPLAYS.md alone. Where a changed log still is one, `check` has to say
that it agrees exactly where each digest of it is that of the match without the change; a changed command may end either way, and a
changed digest has to be named. It prints what is wrong, and how many were tried; the exit status is 0 where nothing was wrong.
"""

import concurrent.futures
import os
import pathlib
import re
import subprocess
import sys
import tempfile

TOP = pathlib.Path(__file__).resolve().parent.parent
MATCH = (b'{"size":[16,16],"closed":[],"players":[[2],[1]],"cap":20,"delay":1,"turns":7,"seed":7,"templates":['
         b'{"@name":"walker","Health":{"Max":50},"Motion":{"Speed":2}},'
         b'{"@name":"post","Health":{"Max":50}}],'
         b'"entities":[["walker",1,"2.5","2.5"],["walker",2,9,9]],"commands":['
         b'[1,1,"walk",[2,4294967295],"6.5","0.00002"],[1,2,"stop",[]],[2,1,"attack",[2],3],[2,2,"delete",[7,7]],'
         b'[3,1,"place",1,"5.5","5.5"],[3,2,"train",3,0],[3,1,"stop",[2]],[4,2,"walk",[3],12,"7.25"],[5,2,"resign"],[6,1,"resign"],[7,1,"stop",[2]]]}')
PLAYERS, TURNS = 2, 7
PUT = b"\x00\n\r ,-.0159Afx\xff"  # what stands in the place of each byte in turn
IDS = rb"(?:-|(?:0|[1-9][0-9]*)(?:,(?:0|[1-9][0-9]*))*)"
POINT = rb"-?(?:0|[1-9][0-9]*)(?:\.[0-9]{5})? -?(?:0|[1-9][0-9]*)(?:\.[0-9]{5})?"
COMMAND = re.compile(rb"command turn (\d+) player (\d+) (?:walk (%s) to (%s)|(?:stop|delete) (%s)|attack (%s) on (0|[1-9][0-9]*)|"
                     rb"place (0|[1-9][0-9]*) at (%s)|train (0|[1-9][0-9]*) (0|[1-9][0-9]*)|resign)" % (IDS, POINT, IDS, IDS, POINT))
TURN = re.compile(rb"turn (\d+) ([0-9a-f]{32})")


def is_coordinate(text):
    """Whether a coordinate is one of 32 bits, and printed as the least number of five digits that is not below it."""
    whole, _, digits = text.lstrip(b"-").partition(b".")
    millionths = int(whole) * 100000 + int(digits or b"0")
    if digits == b"00000" or text in (b"-0", b"-0.00000"):
        return False
    raw = millionths * 65536 // 100000
    if raw > (2147483648 if text.startswith(b"-") else 2147483647):
        return False
    return printed_fraction(raw % 65536) == millionths % 100000 and raw // 65536 == millionths // 100000


def printed_fraction(part):
    """The five digits of so many parts of 65,536, rounded up."""
    return -(-part * 100000 // 65536)


def is_command(line, turn):
    """Whether a line is a command of the turn as it is printed."""
    found = COMMAND.fullmatch(line)
    if found is None or found[1] != b"%d" % turn or found[2] not in [b"%d" % p for p in range(1, PLAYERS + 1)]:
        return False
    ids = [number for group in (3, 5, 6) if found[group] not in (None, b"-") for number in found[group].split(b",")]
    wide = ids + [found[group] for group in (7, 10) if found[group] is not None]
    short = [found[group] for group in (8, 11) if found[group] is not None]
    points = [number for group in (4, 9) if found[group] is not None for number in found[group].split(b" ")]
    return (len(ids) <= 256 and all(int(number) < 2**32 for number in wide) and all(int(number) < 2**16 for number in short)
            and all(map(is_coordinate, points)))


def refused(text, header):
    """The line at which a text is refused, or None where it is a log."""
    lines = text.split(b"\n")
    rest, lines = lines[-1], lines[:-1]
    turn, orders = 0, {}
    for number, line in enumerate(lines, 1):
        if number == 1:
            if line != header:
                return 1
            continue
        ended = TURN.fullmatch(line)
        if turn > TURNS:
            return number
        if ended is not None and ended[1] == b"%d" % turn:
            turn, orders = turn + 1, {}
        elif turn > 0 and is_command(line, turn):
            player = COMMAND.fullmatch(line)[2]
            orders[player] = orders.get(player, 0) + 1
            if orders[player] > 64:
                return number
        else:
            return number
    return None if turn > 0 and not orders and rest == b"" else len(lines) + 1


def last_turn(text):
    """The last turn of a log."""
    return sum(line.startswith(b"turn ") for line in text.split(b"\n")) - 1


def wanted(whole, text):
    """The status and the first line that have to come, or None for each that may be either."""
    line = refused(text, whole.split(b"\n")[0])
    if line is not None:
        return 13, b"log refused %d" % line
    if whole.startswith(text):
        return 0, b"agree %d" % last_turn(text)
    for old, new in zip(whole.split(b"\n"), text.split(b"\n")):
        if old != new:
            return (1, b"differ turn " + new.split(b" ")[1]) if new.startswith(b"turn ") else (None, None)
    return None, None


def changes(whole):
    """All texts that are tried."""
    for length in range(len(whole) + 1):
        yield whole[:length]
    for place in range(len(whole)):
        for byte in PUT:
            if whole[place] != byte:
                yield whole[:place] + bytes([byte]) + whole[place + 1:]


def fault(program, folder, whole, text):
    """What is wrong with the answer to a text, or None."""
    with tempfile.NamedTemporaryFile(dir=folder, suffix=".log") as log:
        log.write(text)
        log.flush()
        done = subprocess.run([program, "check", "match", log.name], cwd=folder, stdin=subprocess.DEVNULL, capture_output=True, timeout=60)
    status, first = wanted(whole, text)
    said = done.stdout.split(b"\n")[0]
    if done.stderr or (status is None and done.returncode not in (0, 1)) or (status is not None and (done.returncode, said) != (status, first)):
        return f"{text!r}: {done.returncode} {said!r} for {status} {first!r}"
    return None


def main():
    program = os.path.abspath(sys.argv[1] if len(sys.argv) > 1 else TOP / "crates/simcore/out/simcore")
    with tempfile.TemporaryDirectory(prefix="log-changes-") as folder:
        pathlib.Path(folder, "match").write_bytes(MATCH)
        subprocess.run([program, "log", "match", "whole"], cwd=folder, stdout=subprocess.DEVNULL, check=True)
        whole = pathlib.Path(folder, "whole").read_bytes()
        texts = list(changes(whole))
        with concurrent.futures.ThreadPoolExecutor(os.cpu_count()) as pool:
            wrong = [found for found in pool.map(lambda text: fault(program, folder, whole, text), texts) if found]
    print("\n".join(wrong[:20]), end="\n" if wrong else "")
    lines = whole.count(b"\n")
    print(f"{len(texts)} cuts and changes of a log of {lines} lines, {len(wrong)} wrong")
    return 1 if wrong or lines != 20 else 0


if __name__ == "__main__":
    sys.exit(main())
