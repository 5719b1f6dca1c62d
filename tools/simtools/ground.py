"""What a tool needs to know of a match beside its states: the ground, the names and the templates' parts."""

import json
from dataclasses import dataclass

from .faults import ToolFault, read_bytes
from .fixed import print_raw
from .parts import read_parts, templates_of
from .program import USAGE
from .trees import TreeFault, read_source


@dataclass
class Ground:
    """The size in cells, the closed rectangles, the number of players and the resolved templates."""

    size: list
    closed: list
    players: int
    templates: list

    @property
    def names(self):
        """The templates' names by number."""
        return [template.name for template in self.templates]


def read_json(path):
    """The JSON value of a file."""
    try:
        return json.loads(read_bytes(path))
    except (ValueError, RecursionError) as error:
        raise ToolFault(f"{path} is no JSON: {error}") from None


def read_ground(program, path):
    """The ground of a match that the program reads. Its word `parts` tells the templates, or else they are resolved here."""
    status, text = program.try_run("parts", path)
    if status not in (0, USAGE):
        raise program.fault(status, text, ("parts", path))
    match = read_json(path)
    try:
        templates = read_parts(text) if status == 0 else templates_of([read_source(it) for it in match["templates"]])
        return Ground(match["size"], match["closed"], len(match["players"]), templates)
    except (TreeFault, KeyError, TypeError, IndexError) as fault:
        raise ToolFault(f"{path} is no match: {fault}") from None


def template_line(template):
    """A template's parts in one line, for people."""
    words = [template.name]
    for part in ("health", "resist", "motion", "obstruct", "attack"):
        found = getattr(template, part)
        if found and (part != "resist" or any(found.values())):
            numbers = ", ".join(f"{name.lower()} {print_raw(raw)}" for name, raw in found.items())
            words.append(f"{part}: {numbers}")
    if template.train is not None:
        words.append(f"trains {len(template.train)} templates")
    return "; ".join(words)
