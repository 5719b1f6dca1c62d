"""tools/new_match: a first match from a few words, that the program reads as it is.

Each player's army stands at its own side of the ground, and its rows are told in turn 1 to walk straight on to the middle; all
players are enemies. The match is a file to begin with: open it and change it.
"""

import json
from dataclasses import dataclass

from .faults import ToolFault, Words, read_bytes, write_text
from .parts import templates_of
from .trees import TreeFault, read_source

MOST_SIDE, MOST_PLAYERS, MOST_ENTITIES, MOST_IDS, MOST_TURNS = 256, 8, 4096, 256, 65535
# A player gives at most 64 commands in a turn: one for each band of rows, and some more where a band has more than 256.
MOST_BANDS = 40
# The templates of a match for which none are named.
OWN = [{"@name": "soldier", "Health": {"Max": 100}, "Resist": {"Hack": 2, "Pierce": 1}, "Motion": {"Speed": 9},
        "Attack": {"Hack": "4.5", "Range": 2, "Vision": 20, "Repeat": 4, "Accuracy": 90}},
       {"@name": "archer", "@parent": "soldier", "Health": {"Max": {"@op": "mul", "_": "0.5"}},
        "Attack": {"Hack": 0, "Pierce": 4, "Range": 12, "Vision": 24}},
       {"@name": "hall", "Health": {"Max": 500}, "Resist": {"Hack": 10, "Pierce": 20}, "Obstruct": {"Width": 4, "Depth": 4},
        "Train": {"Units": "soldier archer"}}]


@dataclass
class Army:
    """So many of a template for one player, or for every player where player is 0."""

    player: int
    name: str
    count: int


def parse(words):
    """The words of the command line."""
    parser = Words(prog="new_match", description="Write a first match: armies that walk to the middle and fight.",
                   epilog="docs/MODDING.md goes from here to a match of real units.")
    parser.add_argument("--size", nargs=2, type=int, default=[48, 32], metavar=("W", "D"), help="width and depth in cells (default 48 32)")
    parser.add_argument("--players", type=int, default=2, metavar="N", help="how many players, 1 to 8 (default 2)")
    parser.add_argument("--units", action="append", metavar="[P=]NAME:COUNT",
                        help="so many of a template for each player, or for player P; may come more than once (default soldier:10)")
    parser.add_argument("--templates", metavar="FILE", help="a JSON list of templates, as tools/import_0ad writes it (default: soldier, archer, hall)")
    parser.add_argument("--turns", type=int, default=200, metavar="N", help="how many turns, of a fifth of a second each (default 200)")
    parser.add_argument("--seed", type=int, default=1, metavar="N", help="the seed of the shots (default 1)")
    parser.add_argument("--closed", nargs=4, type=int, action="append", default=[], metavar=("X0", "Z0", "X1", "Z1"),
                        help="a closed rectangle of cells; may come more than once")
    parser.add_argument("-o", metavar="FILE", dest="out", default="-", help="the file to write (default: standard output)")
    return parser.parse_args(words)


def within(what, number, least, most):
    """A number that is within its limits."""
    if not least <= number <= most:
        raise ToolFault(f"{what} is {number}, and is to be from {least} to {most}")
    return number


def read_army(text, players):
    """The army of a word as NAME:COUNT or P=NAME:COUNT. A name may have a colon or an equals sign of its own."""
    player, equals, rest = text.partition("=")
    if not equals or not player.isdigit():
        player, rest = "0", text
    name, _, count = rest.rpartition(":")
    if not name or not count.isdigit():
        raise ToolFault(f"--units takes NAME:COUNT or P=NAME:COUNT, and {text!r} is neither")
    return Army(within("the player of --units", int(player), 0, players), name, within("the count of --units", int(count), 1, MOST_ENTITIES))


def read_templates(path):
    """The templates of a file, each of which can be resolved and read."""
    try:
        found = json.loads(read_bytes(path)) if path else OWN
        templates_of([read_source(it) for it in found])
    except (ValueError, TypeError, RecursionError) as error:
        raise ToolFault(f"{path} is no list of templates: {error}") from None
    except TreeFault as fault:
        raise ToolFault(f"{path} has a template that is refused: {'/'.join(fault.path)} {fault.why}") from None
    return found


class Field:
    """The ground on which armies are put: each player's home, and the cells that are closed or taken."""

    def __init__(self, size, closed, players):
        self.width, self.depth = size
        self.taken = {(x, z) for x0, z0, x1, z1 in closed for x in range(x0, x1 + 1) for z in range(z0, z1 + 1)}
        self.homes = [self._home(number, players) for number in range(players)]
        self.spots = {}

    def _home(self, number, players):
        """Players stand by turns at the left and the right side, from the lower end to the upper."""
        row = number // 2
        rows = (players + 1 - number % 2) // 2
        x = self.width // 8 if number % 2 == 0 else self.width - 1 - self.width // 8
        return min(max(x, 0), self.width - 1), (2 * row + 1) * self.depth // (2 * rows)

    def place(self, player, box):
        """The free place nearest to the home of a player, for a rectangle of cells."""
        if (player, box) not in self.spots:
            self.spots[player, box] = iter(self._by_distance(*self.homes[player - 1]))
        # What was not free before is not free now, so each spot is looked at once.
        for x, z in self.spots[player, box]:
            cells = self._cells(x, z, box)
            if all(0 <= a < self.width and 0 <= b < self.depth and (a, b) not in self.taken for a, b in cells):
                self.taken |= cells
                return x, z
        raise ToolFault(f"player {player} has more entities than the ground has free cells")

    def _by_distance(self, home_x, home_z):
        """All cells, the nearest to a home first."""
        spots = sorted(((x - home_x) ** 2 + (z - home_z) ** 2, z, x) for x in range(self.width) for z in range(self.depth))
        return [(x, z) for _, z, x in spots]

    @staticmethod
    def _cells(x, z, box):
        width, depth = box
        return {(a, b) for a in range(x - width // 2, x - width // 2 + width) for b in range(z - depth // 2, z - depth // 2 + depth)}


def box_of(template):
    """The rectangle of cells that an entity takes when it is put: that of its obstruction, or its own cell."""
    return (template.obstruct["Width"] >> 16, template.obstruct["Depth"] >> 16) if template.obstruct else (1, 1)


def entities_of(armies, templates, field, players):
    """All entities, player by player in the order of the armies, buildings first so that they find room."""
    by_name = {template.name: template for template in templates}
    made = []
    for player in range(1, players + 1):
        own = [army for army in armies if army.player in (0, player)]
        for army in sorted(own, key=lambda it: by_name[it.name].obstruct is None):
            for _ in range(army.count):
                x, z = field.place(player, box_of(by_name[army.name]))
                made.append([army.name, player, f"{x}.5", f"{z}.5"])
    return made


def commands_of(entities, templates, size, players):
    """In turn 1 all that can move are told to walk to the middle, each row of them straight on."""
    moving = {template.name for template in templates if template.motion}
    made = []
    for player in range(1, players + 1):
        bands = {}
        for place, (name, owner, _, z) in enumerate(entities):
            if owner == player and name in moving:
                bands.setdefault(int(z[:-2]) * MOST_BANDS // size[1], []).append((2 + place, z))
        for _, band in sorted(bands.items()):
            made += [[1, player, "walk", [it[0] for it in group], f"{size[0] // 2}.5", group[0][1]] for group in groups_of(band)]
    return made


def groups_of(items):
    """So many items at a time as a command takes ids."""
    return [items[first:first + MOST_IDS] for first in range(0, len(items), MOST_IDS)]


def check(asked):
    """A fault where a number is past the limits of a match."""
    for what, number in zip(("the width", "the depth"), asked.size):
        within(what, number, 1, MOST_SIDE)
    within("--players", asked.players, 1, MOST_PLAYERS)
    within("--turns", asked.turns, 1, MOST_TURNS)
    within("--seed", asked.seed, 0, 2 ** 48 - 1)
    width, depth = asked.size
    for x0, z0, x1, z1 in asked.closed:
        if not (0 <= x0 <= x1 < width and 0 <= z0 <= z1 < depth):
            raise ToolFault(f"--closed {x0} {z0} {x1} {z1} is no rectangle within {width} by {depth} cells")


def main(words):
    """Writes the match that the words ask for."""
    asked = parse(words)
    check(asked)
    listed = read_templates(asked.templates)
    templates = templates_of([read_source(it) for it in listed])
    armies = [read_army(text, asked.players) for text in asked.units or ["soldier:10"]]
    for army in armies:
        if army.name not in [template.name for template in templates]:
            raise ToolFault(f"no template is named {army.name}")
    entities = entities_of(armies, templates, Field(asked.size, asked.closed, asked.players), asked.players)
    within("the number of entities", len(entities), 0, MOST_ENTITIES)
    enemies = [[other for other in range(1, asked.players + 1) if other != player] for player in range(1, asked.players + 1)]
    match = {"size": asked.size, "closed": asked.closed, "players": enemies, "cap": MOST_ENTITIES, "delay": 2, "turns": asked.turns,
             "seed": asked.seed, "templates": listed, "entities": entities,
             "commands": commands_of(entities, templates, asked.size, asked.players)}
    write_text(asked.out, spell(match))


def spell(match):
    """A match as text, a line for each item of its long lists."""
    lines = []
    for key, value in match.items():
        if key in ("templates", "entities", "commands") and value:
            inner = ",\n  ".join(json.dumps(it, separators=(", ", ": ")) for it in value)
            lines.append(f' "{key}": [\n  {inner}]')
        else:
            lines.append(f' "{key}": {json.dumps(value)}')
    return "{\n" + ",\n".join(lines) + "}\n"
