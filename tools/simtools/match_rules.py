"""The rules of a match file, a list of steps and a schedule, item by item: what is wrong with an item, in words.

The tables are docs/FORMATS.md sections 4 and 7. Each rule answers a path to the place that is at fault and a sentence, or None
where nothing is wrong. Which rule applies where the program refuses is said by its code.
"""

from collections import Counter

from .fixed import ONE, is_whole, print_raw, read_leaf

KEYS = ("size", "closed", "players", "cap", "delay", "turns", "seed", "templates", "entities", "commands")
NUMBERS = {"cap": (0, 4096), "delay": (1, 8), "turns": (0, 65535), "seed": (0, (1 << 48) - 1)}
MOST = {"closed": 4096, "players": 8, "templates": 256, "entities": 4096}
MOST_IDS, MOST_COMMANDS, MOST_ITEMS = 256, 64, 100000
IDS, WIDE, NUMBER, LEAF = "ids", "a number to 2^32 - 1", "a number to 65,535", "a fixed leaf"
COMMANDS = {"walk": (("ids", IDS), ("x", LEAF), ("z", LEAF)), "stop": (("ids", IDS),), "attack": (("ids", IDS), ("target", WIDE)),
            "delete": (("ids", IDS),), "place": (("template", NUMBER), ("x", LEAF), ("z", LEAF)),
            "train": (("building", WIDE), ("template", NUMBER)), "resign": ()}


def in_range(value, least, most):
    """Whether a JSON value is a whole number within limits."""
    return is_whole(value) and least <= value <= most


def wholes(value, length=None):
    """Whether a JSON value is a list of whole numbers, of that length where one is given."""
    return isinstance(value, list) and all(map(is_whole, value)) and length in (None, len(value))


def kind_of_key(key, value):
    """Why a key's value is not of its kind."""
    if key == "size":
        return None if wholes(value, 2) else ((), "is to be a list of two whole numbers, the width and the depth")
    if key in NUMBERS:
        return None if is_whole(value) else ((), "is to be a whole number, written without a point, an exponent or quotes")
    if not isinstance(value, list):
        return (), "is to be a list"
    for place, item in enumerate(value if key in ("closed", "players") else ()):
        if not wholes(item, 4 if key == "closed" else None):
            what = "four whole numbers x0, z0, x1, z1" if key == "closed" else "whole numbers, the enemies of a player"
            return (place,), f"is to be a list of {what}"
    return None


def limits_of_key(key, match):
    """Why a key's value is past its limits."""
    value = match[key]
    if key in MOST and len(value) > MOST[key]:
        return (), f"has {len(value)} items, and {MOST[key]} is the most"
    if key == "size":
        return next((((place,), f"is {it}, and is to be from 1 to 256") for place, it in enumerate(value) if not 1 <= it <= 256), None)
    if key in NUMBERS:
        least, most = NUMBERS[key]
        return None if least <= value <= most else ((), f"is {value}, and is to be from {least} to {most}")
    return {"closed": _closed, "players": _players, "templates": _names}.get(key, lambda match: None)(match)


def _closed(match):
    width, depth = match["size"]
    for place, (x0, z0, x1, z1) in enumerate(match["closed"]):
        if not (0 <= x0 <= x1 < width and 0 <= z0 <= z1 < depth):
            return (place,), f"is to have 0 <= x0 <= x1 < {width} and 0 <= z0 <= z1 < {depth}"
    return None


def _players(match):
    if not match["players"]:
        return (), "names no player, and at least one is to be there"
    for place, enemies in enumerate(match["players"]):
        for at, enemy in enumerate(enemies):
            if not 0 <= enemy <= len(match["players"]) or enemy == place + 1:
                return (place, at), f"is {enemy}, and an enemy of player {place + 1} is 0 to {len(match['players'])} and not himself"
    return None


def _names(match):
    first = {}
    for place, template in enumerate(match["templates"]):
        name = template["@name"]
        if name in first:
            return (place,), f"has the name {name}, and so has templates[{first[name]}]"
        first[name] = place
    return None


def entity_fault(match, item):
    """What is wrong with an entity."""
    if not isinstance(item, list) or len(item) != 4:
        return (), "an entity is a list of four: [name, owner, x, z]"
    name, owner, *point = item
    if not isinstance(name, str) or name not in [template["@name"] for template in match["templates"]]:
        return (0,), f"{name!r} is the name of no template"
    if not in_range(owner, 0, len(match["players"])):
        return (1,), f"{owner!r} is no owner: an owner is a whole number from 0 (Gaia) to {len(match['players'])}"
    for place, value, side in zip((2, 3), point, match["size"]):
        raw = read_leaf(value)
        if raw is None:
            return (place,), f"{value!r} is no fixed leaf: that is a whole number, or a number in quotes as \"6.5\""
        if not 0 <= raw < side * ONE:
            return (place,), f"{print_raw(raw)} is outside of the ground, which has {side} cells that way"
    return None


def rest_fault(kind, rest, first):
    """What is wrong with a command's kind and what follows it; first is the place of the kind."""
    if not isinstance(kind, str) or kind not in COMMANDS:
        return (first,), f"{kind!r} is no kind of command: {', '.join(COMMANDS)}"
    wanted = COMMANDS[kind]
    if len(rest) != len(wanted):
        return (first,), f"{kind} takes {', '.join(name for name, _ in wanted) or 'nothing'}, and here are {len(rest)} values"
    for place, (value, (name, what)) in enumerate(zip(rest, wanted), first + 1):
        if fault := _field_fault(name, what, value):
            return (place,), fault
    return None


def _field_fault(name, what, value):
    if what == IDS:
        good = isinstance(value, list) and len(value) <= MOST_IDS and all(in_range(it, 0, (1 << 32) - 1) for it in value)
        return None if good else f"the ids are to be a list of at most {MOST_IDS} whole numbers from 0 to 2^32 - 1"
    if what == LEAF:
        return None if read_leaf(value) is not None else f"{name} is {value!r}, which is no fixed leaf: a whole number, or a number in quotes"
    most = (1 << 32) - 1 if what == WIDE else 65535
    return None if in_range(value, 0, most) else f"the {name} is {value!r}, and is to be a whole number from 0 to {most}"


def command_fault(match, place):
    """What is wrong with a command of a match."""
    item = match["commands"][place]
    if not isinstance(item, list) or len(item) < 3:
        return (), "a command is a list [turn, player, kind, ...]"
    turn, player, kind, *rest = item
    if not in_range(turn, 1, match["turns"]):
        return (0,), f"the turn is {turn!r}, and is to be a whole number from 1 to {match['turns']}"
    if not in_range(player, 1, len(match["players"])):
        return (1,), f"the player is {player!r}, and is to be a whole number from 1 to {len(match['players'])}"
    if fault := rest_fault(kind, rest, 2):
        return fault
    before = Counter(tuple(it[:2]) for it in match["commands"][:place] if isinstance(it, list))
    if before[turn, player] >= MOST_COMMANDS:
        return (), f"this is command {before[turn, player] + 1} of player {player} in turn {turn}, and {MOST_COMMANDS} is the most"
    return None


def order_fault(match, place):
    """What is wrong with a command's turn beside that of the one before."""
    turns = [it[0] for it in match["commands"][max(0, place - 1):place + 1]]
    if len(turns) == 2 and turns[1] < turns[0]:
        return (0,), f"the turn is {turns[1]}, and that of the command before it is {turns[0]}: turns do not fall"
    return None


def _hex_fault(value, most, exact=None):
    good = isinstance(value, str) and all(letter in "0123456789abcdef" for letter in value)
    if exact is not None:
        return None if good and len(value) == exact else f"is to be {exact} characters from 0-9a-f"
    return None if good and len(value) % 2 == 0 and len(value) <= most else f"is to be an even number of characters from 0-9a-f, at most {most}"


STEPS = ("up", "down", "play", "join", "cut")


def step_fault(item, players):
    """What is wrong with a step of a session."""
    if not isinstance(item, list) or len(item) < 2 or item[0] not in (*STEPS, "order", "bend"):
        return (), f"a step is [kind, client, ...] with a kind of order, bend, {', '.join(STEPS)}"
    if not in_range(item[1], 1, players):
        most = f"{players}, as the match has" if players < 8 else "the number of players"
        return (1,), f"{item[1]!r} is no client: clients are whole numbers from 1 to {most}"
    if item[0] == "order":
        return rest_fault(item[2], item[3:], 2) if len(item) > 2 else ((), "an order has a kind of command")
    if item[0] != "bend":
        return None if len(item) == 2 else ((), f"{item[0]} takes a client and nothing else")
    if len(item) != 4 or not in_range(item[2], 0, (1 << 32) - 1):
        return (), "a bend is [\"bend\", client, entity, health], the entity from 0 to 2^32 - 1"
    return None if read_leaf(item[3]) is not None else ((3,), f"{item[3]!r} is no fixed leaf: a whole number, or a number in quotes")


ARRIVALS = {"join": 2, "cut": 2, "done": 3, "report": 4, "state": 5, "bytes": 3}


def arrival_fault(item, clients):
    """What is wrong with an arrival of a schedule."""
    if not isinstance(item, list) or len(item) < 2 or not isinstance(item[1], str) or item[1] not in (*ARRIVALS, "command"):
        return (), f"an arrival is [client, kind, ...] with a kind of command, {', '.join(ARRIVALS)}"
    if not in_range(item[0], 1, clients):
        return (0,), f"{item[0]!r} is no client: clients are whole numbers from 1 to {clients}"
    kind = item[1]
    if kind in ARRIVALS and len(item) != ARRIVALS[kind]:
        return (), f"{kind} is a list of {ARRIVALS[kind]}"
    turn_at = {"command": 2, "done": 2, "report": 2, "state": 3}.get(kind)
    if turn_at and (len(item) <= turn_at or not in_range(item[turn_at], 0, (1 << 32) - 1)):
        return (turn_at,) if len(item) > turn_at else (), "the turn is to be a whole number from 0 to 2^32 - 1"
    return _arrival_rest(kind, item)


def _arrival_rest(kind, item):
    """What is wrong behind the turn of an arrival."""
    if kind == "command":
        return rest_fault(item[3], item[4:], 3) if len(item) > 3 else ((), "a command has a kind")
    if kind == "state" and not in_range(item[2], 0, 255):
        return (2,), f"the client that waits is {item[2]!r}, and is to be a whole number from 0 to 255"
    texts = {"report": (0, 32), "state": (4694166, None), "bytes": (4800000, None)}
    if kind in texts and (fault := _hex_fault(item[-1], *texts[kind])):
        return (len(item) - 1,), f"the text {fault}"
    return None


LISTS = {"steps": ("clients", "steps"), "arrivals": ("clients", "active", "delay", "turns", "arrivals")}


def list_fault(value, players):
    """What is wrong with a list of steps or a schedule as a whole."""
    if not isinstance(value, dict):
        return (), "is to be an object"
    kind = "arrivals" if "arrivals" in value else "steps"
    for key in LISTS[kind]:
        if key not in value:
            return (), f"the key {key} is missing"
    for key in value:
        if key not in LISTS[kind]:
            return (key,), f"the key {key} has no place here: the keys are {', '.join(LISTS[kind])}"
    limits = {"clients": (1, players if kind == "steps" else 8), "active": (0, value["clients"]), "delay": (1, 8), "turns": (0, 65535)}
    for key in LISTS[kind][:-1]:
        if not in_range(value[key], *limits[key]):
            return (key,), f"is {value[key]!r}, and is to be a whole number from {limits[key][0]} to {limits[key][1]}"
    if not isinstance(value[kind], list) or len(value[kind]) > MOST_ITEMS:
        return (kind,), f"is to be a list of at most {MOST_ITEMS}"
    return None
