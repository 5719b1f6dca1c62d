"""tools/import_0ad: match templates from those of an installed 0 A.D.

A chain of parents stays one: each file of the game becomes a template whose parent is that of the game, and which says what
changed, with the marks of the game where they come to the same. What a template is to have is worked out from the game's own
rule, and every template is resolved again by the rule of this project and compared with that before it is written.
"""

import json
import sys
from fractions import Fraction

from .faults import ToolFault, Words, write_text
from .fixed import ONE, print_raw, read_raw
from .game_layers import Game, GameFault, game_raw
from .game_parts import Mapping
from .parts import TABLE, template_of
from .trees import Node, TreeFault, is_name, overlay, read_node, resolve, read_source

MOST_TEMPLATES = 256


def leaf_text(raw):
    """The shortest printed text of a raw that reads as the same raw."""
    text = print_raw(raw)
    return text.rstrip("0").rstrip(".") if "." in text else text


def number_leaf(raw):
    """A raw as a fixed leaf: a whole number where it is one."""
    return raw // ONE if raw % ONE == 0 else leaf_text(raw)


def _find(element, path):
    """The element at a path of one layer, or None."""
    for name in path.split("/"):
        element = next((child for child in element if child.tag == name), None) if element is not None else None
    return element


class Importer:
    """Templates that were imported, each after its parent."""

    def __init__(self, game, metres=Fraction(4), civ=None, with_trained=True):
        self.game, self.mapping, self.with_trained = game, Mapping(game, metres, civ), with_trained
        self.made, self.parts, self.refused = {}, {}, {}

    def add(self, name):
        """Imports a template with its parents and what it trains; one that can't be is refused with its reason."""
        todo = [name]
        while todo:
            name = todo.pop()
            if name in self.made or name in self.refused:
                continue
            try:
                self._add_chain(name)
            except GameFault as fault:
                self.refused[name] = str(fault)
                continue
            if self.with_trained:
                todo += self.parts[name].get("Train", {}).get("Units", [])

    def _add_chain(self, name):
        """Adds the links of a chain that are not there yet.

        A layer that changes no part, or whose name is too long, is left out: what is laid over it says what it changed.
        """
        parent, made = None, {}
        for link in self.game.chain(name):
            wanted = self.mapping.parts(link.name if link.is_own else name, link.tree)
            if link.name not in self.made:
                known = self.parts | {key: parts for key, (_, parts) in made.items()}
                spelled = self._spell(link, parent, known.get(parent, {}), wanted)
                if not link.is_own and link.name != name and (spelled.keys() <= {"@name", "@parent"} or not is_name(link.name)):
                    continue
                check_name(link.name)
                made[link.name] = (spelled, wanted)
            parent = link.name
        for key, (spelled, wanted) in made.items():
            self.made[key], self.parts[key] = spelled, wanted

    def _spell(self, link, parent, before, wanted):
        """A template in JSON: its name, its parent, and how its parts differ from the parent's."""
        spelled = {"@name": link.name} | ({"@parent": parent} if parent else {})
        for part in TABLE:
            if part not in wanted and part in before:
                spelled[part] = {"@disable": 1}
            elif part in wanted and (changed := self._part(link, part, before.get(part), wanted[part])):
                spelled[part] = changed
        return spelled

    def _part(self, link, part, before, wanted):
        """How a part is spelled over the parent's, or nothing where it is the same."""
        mark = self._mark(link, part)
        if before is None or mark == "@replace":
            return ({"@replace": 1} if mark else {}) | {child: self._plain(wanted[child]) for child in wanted}
        changed = {child: {"@disable": 1} for child in before.keys() - wanted.keys()}
        for child, value in wanted.items():
            if before.get(child) != value:
                changed[child] = self._leaf(link, part, child, before.get(child), value)
        return {mark: 1, **changed} if mark and changed else changed

    def _mark(self, link, part):
        """The mark that a part's own component has in this layer, where it is replace or merge."""
        component = {"Resist": "Resistance", "Motion": "UnitMotion", "Obstruct": "Obstruction", "Train": "Trainer"}.get(part, part)
        element = _find(link.element, component)
        marks = [] if element is None else [f"@{name}" for name in ("replace", "merge") if element.get(name) is not None]
        return marks[0] if marks else None

    def _plain(self, value):
        return " ".join(value) if isinstance(value, list) else number_leaf(value)

    def _leaf(self, link, part, child, before, value):
        """A leaf with the mark of the game, where by the rule here it comes to the same; else the value itself."""
        marked = self._tokens(link) if part == "Train" else self._operation(link, part, child)
        base = None if before is None else Node(str(self._plain(before)))
        try:
            result = overlay(base, read_node(marked)) if marked else None
        except TreeFault:
            result = None
        if result is None:
            return self._plain(value)
        same = result.value.split() == value if part == "Train" else read_raw(result.value) == value
        return marked if same else self._plain(value)

    def _operation(self, link, part, child):
        """The op that an element has in this layer, as a mark here; lengths that are added are divided by the metres of a cell."""
        path = self.mapping.path_of(link.tree, part, child)
        element = _find(link.element, path[0]) if path else None
        if element is None or element.get("op") not in ("add", "mul"):
            return None
        raw = game_raw(element.text, path[0])
        return {"@op": element.get("op"), "_": number_leaf(self.mapping.scaled(raw, path[1] and element.get("op") == "add"))}

    def _tokens(self, link):
        element = _find(link.element, "Trainer/Entities")
        if element is None or element.get("datatype") != "tokens":
            return None
        return {"@tokens": 1, "_": " ".join(self.mapping.words(link.name, link.tree, element.text or ""))}

    def templates(self):
        """All templates, after each was resolved by the rule here and found to be as wanted."""
        drop_missing(self.made, self.parts)
        sources = [read_source(spelled) for spelled in self.made.values()]
        names = {source.name: number for number, source in enumerate(sources)}
        for number, source in enumerate(sources):
            self._compare(source.name, template_of(source.name, resolve(sources, number), names), names)
        return list(self.made.values())

    def _compare(self, name, template, names):
        """A fault of this tool where a template resolves to something else than was wanted."""
        for part in TABLE:
            wanted, found = self.parts[name].get(part), getattr(template, part.lower())
            if wanted is not None and part == "Train":
                wanted = [names[word] for word in wanted["Units"]]
            elif wanted is not None:
                wanted = {child: wanted.get(child, TABLE[part][child][3]) for child in TABLE[part]}
            if found != wanted:
                raise ToolFault(f"{name} came out wrong: {part} is {found} and was to be {wanted}")


def check_name(name):
    """A fault where a template of the game has a name that none here may have."""
    if not is_name(name):
        raise GameFault(f"the name {name} is no Name (ASCII of 1 to 64 bytes without spaces)")


def drop_missing(made, parts):
    """Takes out of every list of Train what was not imported."""
    for name, spelled in made.items():
        wanted = parts[name].get("Train")
        if wanted and any(word not in made for word in wanted["Units"]):
            wanted["Units"] = [word for word in wanted["Units"] if word in made]
            spelled["Train"] = {"Units": " ".join(wanted["Units"])}


def parse(words):
    """The words of the command line."""
    parser = Words(prog="import_0ad", description="Make match templates from those of an installed 0 A.D., with their parents.",
                   epilog="docs/MODDING.md has the mapping as a table.")
    parser.add_argument("place", metavar="PLACE", help="the game's public.zip, or a folder that has simulation/templates")
    parser.add_argument("names", metavar="TEMPLATE", nargs="*", help="a template's name, as units/athen/infantry_spearman_b")
    parser.add_argument("--all", action="store_true", help="every template of the game (a match takes 256 at most)")
    parser.add_argument("--metres", default="4", metavar="M", help="the game's metres in one cell (default 4)")
    parser.add_argument("--civ", metavar="CIV", help="what {civ} in a list stands for (default: the template's own)")
    parser.add_argument("--no-trained", action="store_true", help="leave out what the templates train")
    parser.add_argument("--each", action="store_true", help="say for each template what is not exact")
    parser.add_argument("-o", metavar="FILE", dest="out", default="-", help="the file to write (default: standard output)")
    asked = parser.parse_args(words)
    if not asked.names and not asked.all:
        parser.error("it takes the name of a template, or --all")
    return asked


def read_metres(text):
    """The metres of a cell."""
    try:
        metres = Fraction(text)
    except (ValueError, ZeroDivisionError):
        metres = Fraction(0)
    if not 0 < metres <= 1000:
        raise ToolFault(f"--metres takes a number above 0, and {text!r} is none")
    return metres


def main(words):
    """Imports what the words ask for."""
    asked = parse(words)
    game = Game(asked.place)
    importer = Importer(game, read_metres(asked.metres), asked.civ, not asked.no_trained)
    names = game.names() if asked.all else asked.names
    for name in names:
        importer.add(name)
    tell(importer, asked.each)
    refused = [name for name in asked.names if name in importer.refused]
    if refused:
        raise ToolFault(f"{refused[0]} is refused: {importer.refused[refused[0]]}")
    made = importer.templates()
    if len(made) > MOST_TEMPLATES and not asked.all:
        raise ToolFault(f"{len(made)} templates with parents and trained ones, and a match takes {MOST_TEMPLATES}: name fewer, or --no-trained")
    write_text(asked.out, "[\n" + ",\n".join(json.dumps(it) for it in made) + "\n]\n")


def tell(importer, each):
    """Says on standard error what was imported, what was refused, and what is not exact."""
    for name, why in importer.refused.items():
        print(f"refused {name}: {why}", file=sys.stderr)
    for line in importer.mapping.notes.lines(each):
        print(line, file=sys.stderr)
    print(f"{len(importer.made)} templates, {len(importer.refused)} refused", file=sys.stderr)
