"""Templates of the game 0 A.D. as its own engine reads them: XML files laid over one another.

A template names a parent, or several as `civ/athen|hoplite|template_unit`: the last is the base, and each before it is a layer
over it, found in special/filter or mixins. In a layer an element may have `disable`, `replace`, `merge`, `filtered`, an `op`
(add, mul or mul_round) or `datatype="tokens"`. An element's other attributes are kept as children whose names begin with @.
"""

import os
import xml.etree.ElementTree as xml
import zipfile
from dataclasses import dataclass, field
from decimal import Decimal, InvalidOperation

from .faults import ToolFault
from .fixed import ONE, print_raw

FOLDER = "simulation/templates/"
LAYER_FOLDERS = ("special/filter/", "mixins/")
SPECIAL = ("replace", "op", "merge", "filtered", "disable", "datatype")
MOST_DEPTH = 100


class GameFault(Exception):
    """A template that can't be read, with the reason."""


@dataclass
class GameNode:
    """An element's text and its children, after the layers so far."""

    value: str = ""
    children: dict = field(default_factory=dict)

    def at(self, path):
        """The node at a path as Health/Max, or None."""
        node = self
        for name in path.split("/"):
            node = node.children.get(name) if node else None
        return node

    def copy(self):
        """A copy of the whole tree."""
        return GameNode(self.value, {name: child.copy() for name, child in self.children.items()})


def game_raw(text, where=""):
    """The game's fixed-point number of a text, in units of 1/65536, rounded towards zero."""
    try:
        return int(Decimal((text or "0").strip() or "0") * ONE)
    except (InvalidOperation, ValueError, OverflowError):
        raise GameFault(f"{where} is {text.strip()!r}, which is no number") from None


def _operate(before, element):
    """The text after an op."""
    old, new = game_raw(before, element.tag), game_raw(element.text, element.tag)
    kind = element.get("op")
    if kind == "add":
        return print_raw(old + new)
    if kind == "mul":
        return print_raw(old * new // ONE)
    if kind == "mul_round":
        return str((old * new // ONE + ONE // 2) // ONE)
    raise GameFault(f"{element.tag} has the op {kind!r}, which the game does not have")


def _tokens(before, changes):
    """A list of words after a layer: the game takes away one of each -word, and adds what the list before did not have."""
    old, words = before.split(), before.split()
    for change in changes.split():
        if not change.startswith("-"):
            words += [change] * (change not in old)
        elif change[1:] in words:
            words.remove(change[1:])
    return " ".join(words)


def apply_layer(parent, element):
    """Lays an element over the child of its name."""
    if element.get("disable") is not None:
        parent.children.pop(element.tag, None)
        return
    if element.get("replace") is not None:
        parent.children.pop(element.tag, None)
    if element.get("merge") is not None and element.tag not in parent.children:
        return
    node = parent.children.setdefault(element.tag, GameNode())
    _set_value(node, element)
    for child in element:
        if isinstance(child.tag, str):
            apply_layer(node, child)
    if element.get("filtered") is not None:
        named = {child.tag for child in element}
        node.children = {name: child for name, child in node.children.items() if name in named}
    node.children |= {f"@{name}": GameNode(value) for name, value in element.attrib.items() if name not in SPECIAL}


def _set_value(node, element):
    text = (element.text or "").strip()
    if element.get("datatype") == "tokens":
        node.value = _tokens(node.value, text)
    elif element.get("op") is not None:
        node.value = _operate(node.value, element)
    elif element.get("merge") is None:
        node.value = text


@dataclass
class Link:
    """One layer of a template's chain: the name of what it makes with those before it, its element, and what it makes."""

    name: str
    element: object
    tree: GameNode
    is_own: bool


class Game:
    """The templates of a folder or of a zip that has simulation/templates."""

    def __init__(self, place):
        self.place, self.zip, self.elements = place, None, {}
        if zipfile.is_zipfile(place):
            self.zip = zipfile.ZipFile(place)
        elif not os.path.isdir(place):
            raise ToolFault(f"{place} is neither a folder nor a zip")
        if not self.names():
            raise ToolFault(f"{place} has no templates: {FOLDER} is missing in it, or empty")

    def names(self):
        """The names of all templates, layers among them."""
        if self.zip:
            files = self.zip.namelist()
        else:
            files = [os.path.relpath(os.path.join(folder, file), self.place).replace(os.sep, "/")
                     for folder, _, found in os.walk(os.path.join(self.place, FOLDER)) for file in found]
        return sorted(file[len(FOLDER):-4] for file in files if file.startswith(FOLDER) and file.endswith(".xml"))

    def _bytes(self, name):
        path = f"{FOLDER}{name}.xml"
        try:
            if self.zip:
                return self.zip.read(path)
            with open(os.path.join(self.place, path), "rb") as file:
                return file.read()
        except (KeyError, OSError):
            return None

    def element(self, name):
        """The root element of a file, or None where there is none."""
        if name not in self.elements:
            data = self._bytes(name)
            try:
                self.elements[name] = None if data is None else xml.fromstring(data)
            except xml.ParseError as error:
                raise GameFault(f"{name}.xml is no XML: {error}") from None
        return self.elements[name]

    def has(self, name):
        """Whether there is a template of that name."""
        return self.element(name) is not None

    def chain(self, name):
        """The links of a template, its base first."""
        links = []
        self._load(name, links, is_layer=False, depth=0)
        return links

    def _load(self, name, links, is_layer, depth):
        """Adds the links of a template over those that are there."""
        if depth > MOST_DEPTH:
            raise GameFault(f"the parents of {name} lead back to it")
        first, bar, rest = name.partition("|")
        if bar:
            self._load(rest, links, is_layer, depth + 1)
            self._load(first, links, True, depth + 1)
            return
        element = self._layer(name) if is_layer else self.element(name)
        if element is None:
            layer = self._layer(name) is not None and not is_layer
            hint = ", but a layer of that name, which stands before a | in a parent" if layer else ""
            raise GameFault(f"the {'layer' if is_layer else 'template'} {name} is not there{hint}")
        if element.get("parent"):
            self._load(element.get("parent"), links, is_layer, depth + 1)
        links.append(self._link(name, element, links, is_layer))

    def _layer(self, name):
        return next((self.element(folder + name) for folder in LAYER_FOLDERS if self.has(folder + name)), None)

    def _link(self, name, element, links, is_layer):
        tree = links[-1].tree.copy() if links else GameNode()
        holder = GameNode("", {"Entity": tree})
        marks = {"parent": None}
        layer = xml.Element("Entity", {key: value for key, value in element.attrib.items() if key not in marks})
        layer.extend(element)
        apply_layer(holder, layer)
        full = f"{name}|{links[-1].name}" if is_layer and links else name
        return Link(full, element, holder.children.get("Entity", GameNode()), not is_layer)
