"""A replay log, read into the match whose own commands are those of the log, so that it can be drawn.

A log is what `log` and `record` write: `simlog 1 ID`, `turn 0 HEX`, and for each turn its commands, as
`command turn T player P COMMAND`, and `turn T HEX`. The program's `check` says whether it is true.
"""

import re
from dataclasses import dataclass

from .faults import ToolFault

_COMMAND = re.compile(r"command turn (\d+) player (\d+) (\w+)(?: (.*))?")
_TURN = re.compile(r"turn (\d+) ([0-9a-f]{32})")
_FORMS = {"walk": re.compile(r"(\S+) to (\S+) (\S+)"), "stop": re.compile(r"(\S+)"), "attack": re.compile(r"(\S+) on (\d+)"),
          "delete": re.compile(r"(\S+)"), "place": re.compile(r"(\d+) at (\S+) (\S+)"), "train": re.compile(r"(\d+) (\d+)"),
          "resign": re.compile(r"")}
_WITH_IDS = ("walk", "stop", "attack", "delete")


@dataclass
class Log:
    """A log: the match id in hexadecimal, the commands as a match file spells them, and the digest of each turn."""

    identity: str
    commands: list
    digests: list


def _ids(text):
    return [] if text == "-" else [int(word) for word in text.split(",")]


def _command(line):
    """The command of a line, as a match file spells it."""
    found = _COMMAND.fullmatch(line)
    form = _FORMS.get(found[3]) if found else None
    rest = form.fullmatch(found[4] or "") if form else None
    if rest is None:
        raise ValueError(line)
    words = rest.groups()
    if found[3] in _WITH_IDS:
        return [int(found[1]), int(found[2]), found[3], _ids(words[0]), *map(_number, words[1:])]
    return [int(found[1]), int(found[2]), found[3], *map(_number, words)]


def _number(word):
    """A whole number as one, and any other number as its text."""
    return int(word) if word.isdigit() else word


def read_log(text, name):
    """The log of a text."""
    lines = text.splitlines()
    if not lines or not re.fullmatch(r"simlog 1 [0-9a-f]{32}", lines[0]):
        raise ToolFault(f"{name} is no replay log: its first line is not `simlog 1 ID`")
    log = Log(lines[0].split()[2], [], [])
    for number, line in enumerate(lines[1:], 2):
        try:
            if found := _TURN.fullmatch(line):
                log.digests.append(found[2])
            else:
                log.commands.append(_command(line))
        except ValueError:
            raise ToolFault(f"{name} is no replay log: line {number} is neither a turn nor a command") from None
    if not log.digests:
        raise ToolFault(f"{name} is no replay log: it has no line `turn 0 HEX`")
    return log


def match_of(match, log):
    """The match with the commands of a log as its own, as far as the log goes."""
    return match | {"turns": len(log.digests) - 1, "commands": log.commands}
