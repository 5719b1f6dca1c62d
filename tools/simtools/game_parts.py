"""What the parts of a template here are by the numbers of the game, and what of them is not exact.

docs/MODDING.md has the mapping as a table. A part is told only where it is whole: a parent of the game may have an attack
without a range, and no template here may.
"""

from collections import defaultdict
from fractions import Fraction

from .fixed import ONE
from .game_layers import GameFault, game_raw
from .parts import MOST_UNITS, TABLE

DAMAGE = ("Hack", "Pierce", "Crush")
MILLISECONDS = 200
KNOWN = {"Health", "Resistance", "UnitMotion", "Obstruction", "Attack", "Vision", "Trainer"}
# What a template here has from which element: the path, and whether it is a length.
PLAIN = {("Health", "Max"): ("Health/Max", False), ("Motion", "Speed"): ("UnitMotion/WalkSpeed", True),
         **{("Resist", kind): (f"Resistance/Entity/Damage/{kind}", False) for kind in DAMAGE}}
OF_ATTACK = {**{("Attack", kind): (f"Damage/{kind}", False) for kind in DAMAGE}, ("Attack", "Range"): ("MaxRange", True)}
# What an attack of the game has beside, with no place here.
BESIDE_ATTACK = {"Bonuses": "bonuses against classes", "Splash": "splash", "MinRange": "a least range", "ApplyStatus": "status effects",
                 "Projectile/Spread": "spread (Accuracy is 100)"}


class Notes:
    """What is not exact, and of which templates."""

    def __init__(self):
        self.of = defaultdict(list)

    def say(self, name, text):
        """A text about a template, once."""
        if name not in self.of[text]:
            self.of[text].append(name)

    def lines(self, each=False):
        """A line a text, or with `each` a line a template."""
        for text, names in sorted(self.of.items()):
            if each:
                yield from (f"{name}: {text}" for name in names)
            else:
                yield f"{text}: {names[0]}" + (f" and {len(names) - 1} more" if len(names) > 1 else "")


class Mapping:
    """From a tree of the game to parts: lengths are divided by the metres of a cell."""

    def __init__(self, game, metres=Fraction(4), civ=None):
        self.game, self.metres, self.civ = game, Fraction(metres), civ
        self.notes = Notes()

    def scaled(self, raw, is_length):
        """A number of the game as one of a match: a raw, rounded towards zero."""
        return int(Fraction(raw) / self.metres) if is_length else raw

    def path_of(self, tree, part, child):
        """The path of the element that a child is from, and whether it is a length; None for one that is worked out."""
        if (part, child) in OF_ATTACK and (kind := self._kind(tree)):
            path, is_length = OF_ATTACK[part, child]
            return f"Attack/{kind}/{path}", is_length
        if (part, child) == ("Attack", "Vision"):
            return "Vision/Range", True
        return PLAIN.get((part, child))

    def parts(self, name, tree):
        """The parts of a tree: raws by part and child, the list of Train as words."""
        made = {part: found for part in ("Health", "Resist", "Motion") if (found := self._plain(name, tree, part))}
        if attack := self._attack(name, tree):
            made["Attack"] = attack
        if box := self._box(name, tree, made):
            made["Obstruct"] = box
        if (units := self._units(name, tree)) is not None:
            made["Train"] = {"Units": units}
        for component in tree.children.keys() - KNOWN:
            self.notes.say(name, f"no part: {component}") if not component.startswith("@") else None
        return made

    def _plain(self, name, tree, part):
        """A part whose children each stand at a path of their own."""
        found = {child: self._number(name, tree, part, child) for child in TABLE[part]}
        found = {child: raw for child, raw in found.items() if raw is not None}
        return None if part == "Motion" and not found.get("Speed") else found

    def _number(self, name, tree, part, child):
        """A child's raw within its limits, or None where the tree has no such element."""
        path, is_length = self.path_of(tree, part, child)
        node = tree.at(path)
        if node is None:
            return None
        return self._within(name, part, child, self.scaled(game_raw(node.value, path), is_length))

    def _within(self, name, part, child, raw):
        """A raw that the table allows, as near as can be."""
        least, greatest, whole, _ = TABLE[part][child]
        near = (raw + ONE // 2) // ONE * ONE if whole else raw
        if near != raw:
            self.notes.say(name, f"{part}/{child} is rounded to a whole number")
        if not least <= near <= greatest:
            self.notes.say(name, f"{part}/{child} is past its limit and is cut")
        return min(max(near, least), greatest)

    def _kind(self, tree):
        """The attack that is taken: the first of Melee and Ranged."""
        return next((kind for kind in ("Melee", "Ranged") if tree.at(f"Attack/{kind}")), None)

    def _attack(self, name, tree):
        kind = self._kind(tree)
        if tree.at("Attack"):
            for other in tree.at("Attack").children.keys() - {kind}:
                self.notes.say(name, f"no part: the attack {other}")
        blow = tree.at(f"Attack/{kind}") if kind else None
        if blow is None or not blow.at("MaxRange") or not blow.at("RepeatTime"):
            return None
        found = {child: self._number(name, tree, "Attack", child) for child in (*DAMAGE, "Range")}
        found |= {"Vision": self._vision(name, tree, found["Range"]), "Repeat": self._repeat(name, blow)}
        for path, what in BESIDE_ATTACK.items():
            if blow.at(path) and blow.at(path).value != "0":
                self.notes.say(name, f"no part: {what} of the attack")
        return {child: raw for child, raw in found.items() if raw is not None}

    def _vision(self, name, tree, attack_range):
        if tree.at("Vision/Range"):
            return self._number(name, tree, "Attack", "Vision")
        self.notes.say(name, "Attack/Vision is the range, since it has no Vision")
        return attack_range

    def _repeat(self, name, blow):
        """The turns without a shot after a shot: one less than those from shot to shot."""
        turns = Fraction(game_raw(blow.at("RepeatTime").value, "RepeatTime"), ONE * MILLISECONDS)
        near = max(1, int(turns + Fraction(1, 2)))
        if near != turns:
            self.notes.say(name, "Attack/Repeat is rounded to whole turns")
        return self._within(name, "Attack", "Repeat", (near - 1) * ONE)

    def _box(self, name, tree, made):
        """The rectangle of what stands in the way. What moves has none here."""
        sides = [tree.at(f"Obstruction/Static/@{side}") for side in ("width", "depth")]
        if None in sides:
            return None
        blocks = tree.at("Obstruction/BlockMovement")
        if "Motion" in made or blocks and blocks.value == "false":
            self.notes.say(name, "Obstruct is left out, since it moves" if "Motion" in made else "Obstruct is left out, since it blocks nobody")
            return None
        raws = [self.scaled(game_raw(side.value, "Obstruction/Static"), True) for side in sides]
        return {child: self._within(name, "Obstruct", child, raw) for child, raw in zip(("Width", "Depth"), raws)}

    def words(self, name, tree, text):
        """The templates that a list of the game names, for this civilisation, as far as there are such templates."""
        native = tree.at("Identity/Civ")
        civ = self.civ or (native.value if native else "")
        text = text.replace("{civ}", civ).replace("{native}", native.value if native else "")
        return [word for word in text.split() if self.game.has(word.lstrip("-"))]

    def _units(self, name, tree):
        node = tree.at("Trainer/Entities")
        if node is None:
            return None
        words = list(dict.fromkeys(self.words(name, tree, node.value)))
        if len(words) > MOST_UNITS:
            raise GameFault(f"it trains {len(words)} templates, and {MOST_UNITS} is the most")
        return words
