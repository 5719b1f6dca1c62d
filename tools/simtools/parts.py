"""The parts of a template: read from its resolved tree, or from the text of `parts`.

The table is docs/FORMATS.md section 3. A raw stays a raw, so that what is drawn is what the program has.
"""

import re
from dataclasses import dataclass

from .fixed import ONE, read_raw
from .trees import Node, TreeFault, resolve

# Each part's children: the least and the greatest raw, whether it is whole, and the raw where it is absent (None: missing).
LEVEL = (0, 40 * ONE, True, 0)
CELLS = (ONE, 16 * ONE, True, None)
DAMAGE = (0, 1000 * ONE, False, 0)
REACH = (0, 256 * ONE, False, None)
TABLE = {
    "Health": {"Max": (1, 16000 * ONE, False, None)},
    "Resist": {"Hack": LEVEL, "Pierce": LEVEL, "Crush": LEVEL},
    "Motion": {"Speed": (5, 100 * ONE, False, None)},
    "Obstruct": {"Width": CELLS, "Depth": CELLS},
    "Attack": {"Hack": DAMAGE, "Pierce": DAMAGE, "Crush": DAMAGE, "Range": REACH, "Vision": REACH,
               "Repeat": (0, 1000 * ONE, True, None), "Accuracy": (0, 100 * ONE, True, 100 * ONE)},
    "Train": {"Units": None},
}
MOST_UNITS = 64


@dataclass
class Template:
    """A template's parts: raws by name of the child, None where the part is absent; what it trains as numbers."""

    name: str
    health: dict | None = None
    resist: dict | None = None
    motion: dict | None = None
    obstruct: dict | None = None
    attack: dict | None = None
    train: list | None = None


def _value_of(part, name, node, numbers):
    """The raw of one child of a part."""
    least, greatest, whole, absent = numbers
    if node is None and absent is not None:
        return absent
    if node is None or node.value is None:
        raise TreeFault((part, name), "is missing")
    raw = read_raw(node.value)
    if raw is None:
        raise TreeFault((part, name), f"is {node.value!r}, which is no number text")
    if not least <= raw <= greatest or whole and raw % ONE:
        kind = "whole number" if whole else "number"
        low = f"{least // ONE}" if least % ONE == 0 else f"{least}/65536"
        raise TreeFault((part, name), f"is {node.value!r}, and is to be a {kind} from {low} to {greatest // ONE}")
    return raw


def _units_of(node, names):
    """The numbers of the templates that a list names."""
    if node is None or node.value is None:
        raise TreeFault(("Train", "Units"), "is missing")
    words = [word for word in node.value.split(" ") if word]
    if len(words) > MOST_UNITS:
        raise TreeFault(("Train", "Units"), f"names {len(words)} templates, and {MOST_UNITS} is the most")
    for word in words:
        if word not in names:
            raise TreeFault(("Train", "Units"), f"names {word}, and no template has that name")
    return [names[word] for word in words]


def _look_for_strangers(tree):
    """A fault where something stands in the tree that the table has no place for."""
    if tree.value is not None:
        raise TreeFault((), "has a value at its root")
    for part, node in tree.children.items():
        if part not in TABLE:
            raise TreeFault((part,), f"is no part (the parts are {', '.join(TABLE)})")
        if node.value is not None:
            raise TreeFault((part,), "is a part, and so has no value of its own")
        for name, child in node.children.items():
            if name not in TABLE[part]:
                raise TreeFault((part, name), f"has no place in the part {part} (which has {', '.join(TABLE[part])})")
            if child.children:
                raise TreeFault((part, name), "has children, and is to have a value alone")


def template_of(name, tree, names):
    """The template of a resolved tree; names gives each template's number."""
    _look_for_strangers(tree)
    made = Template(name)
    for part, children in TABLE.items():
        node = tree.children.get(part)
        if node is not None:
            setattr(made, part.lower(), _part_of(part, children, node, names))
    if made.motion and made.obstruct:
        raise TreeFault((), "has both Motion and Obstruct, and nothing with a rectangle moves")
    return made


def _part_of(part, children, node, names):
    """What one part says: raws by name, or numbers of templates. The first fault is Missing, then OutOfRange."""
    for name, numbers in children.items():
        child = node.children.get(name, None if numbers is None or numbers[3] is None else Node("0"))
        if child is None or child.value is None:
            raise TreeFault((part, name), "is missing")
    if part == "Train":
        return _units_of(node.children["Units"], names)
    return {name: _value_of(part, name, node.children.get(name), numbers) for name, numbers in children.items()}


def templates_of(sources):
    """All templates of a match, resolved here: a template that can't be is a fault."""
    names = {source.name: number for number, source in enumerate(sources)}
    return [template_of(source.name, resolve(sources, number), names) for number, source in enumerate(sources)]


_LINE = re.compile(r"template (\d+) (\S+)(?: health (\S+))?(?: resist (\d+) (\d+) (\d+))?(?: speed (\S+))?"
                   r"(?: obstruct (\d+) (\d+))?(?: attack (\S+) (\S+) (\S+) range (\S+) vision (\S+) repeat (\d+) accuracy (\d+))?"
                   r"(?: train (\S+))?")


def read_parts(text):
    """The templates that the text of `parts` says."""
    return [_template_of_line(line) for line in text.splitlines()]


def _template_of_line(line):
    found = _LINE.fullmatch(line)
    if found is None:
        raise TreeFault((), f"the program prints a template that is not understood: {line}")
    groups = found.groups()
    raws = [None if text is None else read_raw(text) for text in groups[2:16]]

    def part(name, first):
        """The part whose first child is that group, or None where the line has none."""
        return None if raws[first] is None else dict(zip(TABLE[name], raws[first:first + len(TABLE[name])]))

    train = None if groups[16] is None else [int(word) for word in groups[16].split(",") if word != "-"]
    return Template(groups[1], part("Health", 0), part("Resist", 1), part("Motion", 4), part("Obstruct", 5), part("Attack", 7), train)
