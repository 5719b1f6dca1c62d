"""tools/explain: what a line by which the program refuses a file means, and the place in the file.

The program names one code and one index; docs/FORMATS.md has the tables. With the file at hand this says what stands there and
which rule it breaks. The program judges; this reads the same rules once more to find the words.
"""

import json
from dataclasses import dataclass

from . import match_rules as rules
from .faults import ToolFault, Words, read_bytes
from .ground import Ground
from .parts import templates_of, template_of
from .placed_json import JsonFault, line_of, read_placed
from .program import Program, add_option
from .state_rules import grammar_fault, head_fault, identity_fault
from .trees import TreeFault, chain_of, read_source, resolve

MATCH_CODES = {
    1: "the file is no JSON", 2: "a part of the file is missing, or is not of its kind", 3: "a number or a list is past its limits",
    4: "the parent of a template is not there", 5: "the parents of a template lead back to it, or are more than 15",
    6: "an @op of a template, or of one of its parents, can't be worked out", 7: "a template, with all that it inherits, is no whole template",
    8: "an entity is not spelled as one", 9: "a command is not spelled as one, or is the 65th of a player in a turn",
    10: "a command's turn is less than that of the command before it", 11: "a session's match has commands, and its clients give them"}
STATE_CODES = {1: "the file is no stored state", 2: "the state is of another match",
               3: "the bytes are no valid state of the match"}
SIGHT_CODES = {1: "the map has not one byte for each player and each cell", 2: "a byte of the map is neither 0 nor 1",
               3: "a cell that a player sees in the loaded state is not explored in the map"}


@dataclass
class Finding:
    """What is known of a refusal: which thing is at fault, why, and where it stands in the file."""

    thing: str
    why: str
    path: tuple = ()


class Explained:
    """A file that was refused, with the places of its values."""

    def __init__(self, path):
        self.path, self.data = path, read_bytes(path)
        try:
            self.root, self.text = read_placed(self.data)
            self.fault = None
        except JsonFault as fault:
            self.root, self.text, self.fault = None, self.data.decode("utf-8", "replace"), fault

    def json_finding(self):
        """Why the file is no JSON."""
        if self.fault is None:
            return Finding("the file", "this tool finds no fault in it; is it the file that the program was given?")
        line, column = line_of(self.text, self.fault.at)
        return Finding(f"{self.path}:{line}:{column}", self.fault.why)

    def lines(self, finding):
        """The lines that say a finding, the place first."""
        if self.root is None:
            return [f"{finding.thing}: {finding.why}"]
        placed, known = self.root, ()
        for key in finding.path:
            inner = placed.inner
            if inner is None or (key not in inner if isinstance(inner, dict) else not isinstance(key, int) or key >= len(inner)):
                break
            placed, known = placed[key], (*known, key)
        line, column = line_of(self.text, placed.start)
        shown = " ".join(self.text[placed.start:placed.end].split())
        return [f"{self.path}:{line}:{column}: {shown if len(shown) <= 160 else shown[:157] + '...'}", f"{finding.thing}: {finding.why}"]


def match_finding(code, index, file):
    """What is wrong in a match that is refused with a code and an index."""
    if code == 1 or file.root is None:
        return file.json_finding()
    match = file.root.value
    if not isinstance(match, dict):
        return Finding("the file", "is to be an object")
    if code in (2, 3):
        return _key_finding(code, index, match)
    if code in (4, 5, 6, 7):
        return _template_finding(code, index, match)
    if code == 11:
        return Finding("commands", f"has {len(match.get('commands', []))} commands, and is to have none", ("commands",))
    return _item_finding(code, index, match)


def _found(thing, fault, path=()):
    """A finding of a fault, or of none."""
    if fault is None:
        return Finding(thing, "this tool finds no fault here; is it the file that the program was given?", path)
    return Finding(thing, fault[1], (*path, *fault[0]))


def _key_finding(code, index, match):
    """What is wrong with a key, or with the spelling of a template."""
    if index >= 16:
        place = index - 16
        try:
            read_source(_item(match, "templates", place))
            fault = None
        except TreeFault as found:
            where = f"{'/'.join(found.path)} " if found.path else "it "
            fault = (found.path, where + found.why)
        return _found(f"templates[{place}]", fault, ("templates", place))
    if index == 10:
        strange = next((key for key in match if key not in rules.KEYS), None)
        return _found("the file", strange and ((strange,), f"the key {strange!r} has no place in a match"))
    key = rules.KEYS[index]
    if key not in match:
        return Finding(f"the key {key}", "is missing")
    judge = rules.kind_of_key(key, match[key]) if code == 2 else rules.limits_of_key(key, match)
    return _found(key + "".join(f"[{place}]" for place in judge[0]) if judge else key, judge, (key,))


def _item(match, key, index):
    """An item of a list of a match, which a fault names where it is not there."""
    items = match.get(key)
    if not isinstance(items, list) or index >= len(items):
        raise ToolFault(f"the file has no {key}[{index}]; is it the file that the program was given?")
    return items[index]


def _template_finding(code, index, match):
    """What is wrong with a template's parents, or with what it inherits."""
    _item(match, "templates", index)
    sources = [read_source(it) for it in match["templates"]]
    thing, path, fault = f"templates[{index}], {sources[index].name}", ("templates", index), None
    try:
        chain = chain_of(sources, index)
        if code == 5:
            names = " -> ".join(sources[place].name for place in chain)
            fault = ((), f"its parents are {names}, which is too long" if len(set(chain)) > 16 else f"its parents lead in a ring: {names}")
        else:
            tree = resolve(sources, index)
            template_of(sources[index].name, tree, {source.name: place for place, source in enumerate(sources)})
    except TreeFault as found:
        fault = (found.path, f"{'/'.join(found.path)} {found.why}" if found.path else found.why)
    return _found(thing, fault, path)


def _item_finding(code, index, match):
    """What is wrong with an entity or a command."""
    key = "entities" if code == 8 else "commands"
    item = _item(match, key, index)
    judge = {8: lambda: rules.entity_fault(match, item), 9: lambda: rules.command_fault(match, index),
             10: lambda: rules.order_fault(match, index)}[code]()
    return _found(f"{key}[{index}]", judge, (key, index))


def explain_match(code, index, path):
    """The lines about a match that is refused."""
    if code not in MATCH_CODES:
        raise ToolFault(f"no match is refused with the code {code}: the codes are 1 to {max(MATCH_CODES)}")
    lines = [f"code {code}: {MATCH_CODES[code]}"]
    if path is None:
        return [*lines, where_of_match(code, index)]
    file = Explained(path)
    return lines + file.lines(match_finding(code, index, file))


def where_of_match(code, index):
    """The place of a code and an index, where no file is at hand."""
    if code in (2, 3) and index < 10:
        return f"index {index}: the key {rules.KEYS[index]}"
    if code in (2, 3):
        return "index 10: a key that a match does not have" if index == 10 else f"index {index}: templates[{index - 16}], counted from 0"
    lists = {4: "templates", 5: "templates", 6: "templates", 7: "templates", 8: "entities", 9: "commands", 10: "commands"}
    return f"index {index}: {lists[code]}[{index}], counted from 0" if code in lists else f"index {index}: the whole file"


def explain_state(code, name, match_path, state_path):
    """The lines about a stored state that is refused."""
    if code not in STATE_CODES:
        raise ToolFault(f"no state is refused with the code {code}: the codes are 1 to 3")
    lines = [f"code {code}, {name}: {STATE_CODES[code]}"]
    if state_path is None:
        return lines
    data, match_bytes = read_bytes(state_path), read_bytes(match_path)
    if code == 1:
        found = head_fault(data)
    elif code == 2:
        found = identity_fault(data, match_bytes)
    else:
        match = json.loads(match_bytes)
        templates = templates_of([read_source(it) for it in match["templates"]])
        found = grammar_fault(data, Ground(match["size"], match["closed"], len(match["players"]), templates), match["turns"])
    if found is None:
        return [*lines, "this tool finds no fault in it; are these the files that the program was given?"]
    return [*lines, f"{state_path}, byte {found[0]}: {found[1]}"]


def explain_list(index, path, players=8):
    """The lines about a list of steps or a schedule that is refused."""
    head = "index 0: the list as a whole" if index == 0 else f"index {index}: item {index - 1} of steps or arrivals, counted from 0"
    if path is None:
        return [head]
    file = Explained(path)
    if file.root is None:
        return [head, *file.lines(file.json_finding())]
    value = file.root.value
    whole = rules.list_fault(value, players)
    if index == 0 or whole:
        return [head, *file.lines(_found("the list", whole))]
    key = "arrivals" if "arrivals" in value else "steps"
    item = _item(value, key, index - 1)
    judge = rules.arrival_fault(item, value["clients"]) if key == "arrivals" else rules.step_fault(item, players)
    return [head, *file.lines(_found(f"{key}[{index - 1}]", judge, (key, index - 1)))]


def number(text):
    """A number of a refusal."""
    if not text.isascii() or not text.isdigit():
        raise ToolFault(f"{text!r} is no number of a refusal")
    return int(text)


def explain_line(words, players=8):
    """The lines about a line that the program prints; files may follow it. Steps are of a match with so many players."""
    match words:
        case ["match", "refused", code, index, *files] if len(files) <= 1:
            return explain_match(number(code), number(index), *(files or [None]))
        case ["state", "refused", code, name, *files] if len(files) in (0, 1, 2):
            match_path, state_path = (files + [name])[:2] if files else (None, None)
            return explain_state(number(code), name, match_path, state_path)
        case ["list", "refused", index, *files] if len(files) <= 1:
            return explain_list(number(index), *(files or [None]), players)
        case ["no", "turn", asked, "of", last]:
            return [f"the match has the turns 0 to {number(last)}, and turn {number(asked)} was asked for"]
        case ["sight", "refused", code] if number(code) in SIGHT_CODES:
            return [f"code {code}: {SIGHT_CODES[number(code)]}"]
        case ["log", "refused", line]:
            return [f"line {number(line)} of the log, counted from 1, can't follow the lines before it in a log of this match, or is not ended"]
        case ["economy", "refused", index]:
            return ["index 0: the file as a whole" if number(index) == 0 else f"index {index}: deeds[{number(index) - 1}], counted from 0"]
    raise ToolFault(f"the program prints no such line: {' '.join(words)}")


COMMANDS = ("play", "resume", "show", "rejoin", "compare", "session", "serve", "state", "log", "record", "check")


def explain_run(words, program):
    """Runs the program with these words; where it refuses, what it prints and the lines about it."""
    status, text = Program(program).try_run(*words)
    said = text.strip()
    if status not in (6, 7, 8, 10, 13):
        raise ToolFault(f"the program refused nothing: it ended with status {status}")
    line = said.split(" ", 3) if said.startswith("state") else said.split()
    files = words[1:]
    if status == 6:
        return [said, *explain_line([*line, files[0]])]
    if status == 7:
        return [said, *explain_line([*line, files[0], line[3]])]
    if status in (10, 13):
        return [said, *explain_line(line)]
    players = 8 if words[0] == "serve" else len(json.loads(read_bytes(files[0]))["players"])
    return [said, *explain_list(number(line[2]), files[1] if words[0] == "record" else files[-1], players)]


def main(words):
    """Explains a line, or runs the program and explains what it refuses."""
    parser = Words(prog="explain", description="What a refusal of the program means, and the place in the file.",
                   epilog="Examples: explain match refused 8 3 m.json; explain state refused 3 s m.json s; explain list refused 4 steps.json; "
                          "explain play m.json, which runs the program itself.")
    parser.add_argument("words", nargs="+", metavar="WORD", help="the line that the program printed and then the files, or a command with its files")
    parser.add_argument("--players", type=int, default=8, metavar="N", help="how many players the match of a list of steps has (default 8)")
    add_option(parser)
    asked = parser.parse_args(words)
    runs = asked.words[0] in COMMANDS and asked.words[1:2] != ["refused"]
    print("\n".join(explain_run(asked.words, asked.program) if runs else explain_line(asked.words, asked.players)))
