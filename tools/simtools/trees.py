"""Templates as trees: how one is read from JSON, laid over its parent's, and read as parts.

The rule is docs/RULES.md section 3 and docs/FORMATS.md sections 2 and 3. The program's own overlay is the proved one; this
one exists so that a tool can say which node of which template is at fault, and draw a match whose program has no `parts`.
"""

from dataclasses import dataclass, field, replace

from .fixed import GREATEST, LEAST, ONE, is_whole, print_raw, read_raw

MOST_LEVELS = 32
MOST_MEMBERS = 16
SIMPLE_MARKS = {"@disable": "disable", "@replace": "replace", "@merge": "merge", "@tokens": "tokens"}


class TreeFault(Exception):
    """A template that can't be read, with the path of the node at fault."""

    def __init__(self, path, why):
        super().__init__(why)
        self.path, self.why = path, why


@dataclass
class Node:
    """A node: a value or none, a mark or none, and children by name."""

    value: str | None = None
    mark: str | None = None
    children: dict = field(default_factory=dict)


@dataclass
class Source:
    """A template as it is written: its name, its parent's name or None, and its own tree."""

    name: str
    parent: str | None
    tree: Node


def is_name(text):
    """Whether a text is ASCII of 1 to 64 bytes without spaces and control bytes."""
    return isinstance(text, str) and 1 <= len(text) <= 64 and all("!" <= letter <= "~" for letter in text)


def depth_of(value):
    """How many levels a JSON value has, its own among them."""
    items = value.values() if isinstance(value, dict) else value if isinstance(value, list) else ()
    return 1 + max(map(depth_of, items), default=0)


def _text_of(value, path):
    if is_whole(value):
        return str(value)
    if isinstance(value, str):
        return value
    raise TreeFault(path, "is neither a text nor a whole number nor an object")


def _mark_of(key, value, path):
    """The mark that a key that begins with @ spells."""
    if key == "@op" and value in ("add", "mul"):
        return value
    if key in SIMPLE_MARKS and is_whole(value) and value == 1:
        return SIMPLE_MARKS[key]
    raise TreeFault(path, f"has {key}, which is no mark with that value")


def read_node(value, path=()):
    """The node that a JSON value spells."""
    if not isinstance(value, dict):
        return Node(_text_of(value, path))
    node = Node()
    for key, item in value.items():
        _put(node, key, item, path)
    if node.mark in ("add", "mul", "tokens") and (node.value is None or node.children):
        raise TreeFault(path, f"has @{'tokens' if node.mark == 'tokens' else 'op'}, and so must have _ and no children")
    return node


def _put(node, key, item, path):
    """Puts one member of an object into its node."""
    if key == "_":
        node.value = _text_of(item, (*path, "_"))
    elif key.startswith("@"):
        if node.mark is not None:
            raise TreeFault(path, "has two marks")
        node.mark = _mark_of(key, item, path)
    elif not is_name(key):
        raise TreeFault(path, f"has the child {key!r}, which is no Name (ASCII of 1 to 64 bytes, no space)")
    else:
        node.children[key] = read_node(item, (*path, key))


def read_source(value):
    """The template that a JSON value spells."""
    if not isinstance(value, dict):
        raise TreeFault((), "is no object")
    if depth_of(value) > MOST_LEVELS:
        raise TreeFault((), f"has more than {MOST_LEVELS} levels")
    name, parent = value.get("@name"), value.get("@parent")
    for key in ("@name", *(["@parent"] if "@parent" in value else [])):
        if not is_name(value.get(key)):
            raise TreeFault((), f"has no {key} that is a Name (ASCII of 1 to 64 bytes, no space)")
    tree = read_node({key: item for key, item in value.items() if key not in ("@name", "@parent")})
    if tree.mark is not None or tree.value is not None:
        raise TreeFault((), "has a mark or _ at its root")
    return Source(name, parent, tree)


def overlay(base, over, path=()):
    """What a node laid over a plain base is: a plain node, or None where it is absent."""
    if over.mark == "disable" or over.mark == "merge" and base is None:
        return None
    if over.mark in ("add", "mul"):
        return replace(base or Node(), value=_worked_out(base, over, path))
    if over.mark == "tokens":
        return replace(base or Node(), value=_tokens(base.value if base else None, over.value))
    under = base if base is not None and over.mark != "replace" else Node()
    return _laid(under, over, path)


def _laid(base, over, path):
    """The value and the children of an unmarked node over a base."""
    made = Node(base.value if over.value is None else over.value, None, dict(base.children))
    for name, child in over.children.items():
        result = overlay(base.children.get(name), child, (*path, name))
        made.children.pop(name, None)
        if result is not None:
            made.children[name] = result
    return made


def _worked_out(base, over, path):
    """The printed sum or product of the base's value and the node's."""
    if base is None or base.value is None:
        raise TreeFault(path, f"has @op {over.mark}, and nothing below it has a value")
    left, right = read_raw(base.value), read_raw(over.value)
    if left is None or right is None:
        raise TreeFault(path, f"has @op {over.mark} of {base.value!r} and {over.value!r}, which are not both number texts")
    raw = left + right if over.mark == "add" else left * right // ONE
    if not LEAST <= raw <= GREATEST:
        raise TreeFault(path, f"has @op {over.mark} whose result does not fit 32 bits")
    return print_raw(raw)


def _tokens(base, changes):
    """A list of words after words are added and taken away."""
    words = [word for word in (base or "").split(" ") if word]
    for change in (word for word in changes.split(" ") if word):
        if change.startswith("-") and change != "-":
            words = [word for word in words if word != change[1:]]
        elif change not in words:
            words.append(change)
    return " ".join(words)


def chain_of(sources, number):
    """The numbers of a template and its parents, at most 17 of them, or a fault where one is not there."""
    places = {source.name: place for place, source in enumerate(sources)}
    chain = [number]
    while sources[chain[-1]].parent is not None and len(chain) <= MOST_MEMBERS:
        parent = sources[chain[-1]].parent
        if parent not in places:
            raise TreeFault((), f"has the parent {parent}, and no template has that name")
        chain.append(places[parent])
        if chain[-1] in chain[:-1]:
            break
    return chain


def resolve(sources, number):
    """The plain tree of a template, with all that it inherits."""
    tree = Node()
    for member in reversed(chain_of(sources, number)):
        try:
            tree = overlay(tree, sources[member].tree)
        except TreeFault as fault:
            raise TreeFault(fault.path, f"{sources[member].name}: {fault.why}") from None
    return tree
