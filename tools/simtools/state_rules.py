"""Why bytes are no stored state of a match, in words: the first fault in the order of the bytes, and then of the rules.

docs/FORMATS.md section 5 has the bytes, docs/RULES.md section 4 says which states are valid.
"""

import hashlib

from .fixed import ONE, print_raw
from .stored import MAGIC, SECTIONS, StoredFault, read_stored

MOST_ROWS, MOST_NEXT, MOST_POINTS = 4096, 0x20000000, 64


def head_fault(data):
    """Why bytes are refused with code 1: the offset and a sentence."""
    if len(data) < 24:
        return len(data), f"the file has {len(data)} bytes, and a stored state has at least 24"
    if data[:4] != MAGIC:
        return 0, f"the file begins with {data[:4].hex()} and not with {MAGIC.hex()} (RSIM): it is no stored state"
    version = int.from_bytes(data[4:8], "little")
    return None if version in (1, 2) else (4, f"the version is {version}, and no such version is read")


def identity_fault(data, match_bytes):
    """Why bytes are refused with code 2."""
    own, wanted = data[8:24].hex(), hashlib.md5(match_bytes).hexdigest()
    if own == wanted:
        return None
    return 8, f"the state is of the match {own}, and this match file is {wanted}: one byte more or less makes it another match"


def grammar_fault(data, ground, turns):
    """Why bytes are refused with code 3."""
    try:
        stored = read_stored(data)
    except StoredFault as fault:
        return fault.offset, fault.why
    return next(filter(None, _faults(stored, ground, turns)), None)


def _faults(stored, ground, turns):
    """What is wrong by each rule, or None."""
    yield _clock_fault(stored, turns)
    rows = stored.sections[1]
    if len(rows) > MOST_ROWS:
        yield stored.offsets[1][next(iter(rows))], f"there are {len(rows)} rows, and {MOST_ROWS} is the most"
    for tag in range(2, 8 if stored.version == 2 else 7):
        yield _rows_fault(stored, tag, ground)
    for identity in rows:
        yield _entity_fault(stored, identity, ground)


def _clock_fault(stored, turns):
    if stored.turn > turns:
        return 24, f"the turn is {stored.turn}, and the match has {turns}"
    if not 2 <= stored.next <= MOST_NEXT:
        return 28, f"next is {stored.next}, and is to be from 2 to {MOST_NEXT}"
    return None if stored.word < 1 << 48 else (32, f"the word is {stored.word}, and is to be below 2^48")


def _has(template, tag):
    """Whether a row of a template stands in a section."""
    part = {4: "health", 5: "motion", 6: "attack", 7: "attack"}.get(tag)
    return part is None or getattr(template, part) is not None


def _rows_fault(stored, tag, ground):
    """Why a section has not just the rows that it is to have."""
    name, found = SECTIONS[tag], stored.sections[tag]
    for identity, (number,) in stored.sections[1].items():
        if number < len(ground.templates) and _has(ground.templates[number], tag) != (identity in found):
            what = "is missing" if identity not in found else f"stands there, and {ground.names[number]} has no such part"
            return stored.offsets[tag].get(identity, 40), f"entity {identity} {what} in the section {name}"
    strange = next((identity for identity in found if identity not in stored.sections[1]), None)
    return None if strange is None else (stored.offsets[tag][strange], f"entity {strange} stands in the section {name} and not in Entity")


def _entity_fault(stored, identity, ground):
    """Why a row is not valid."""
    (number,), at = stored.sections[1][identity], stored.offsets
    if not 2 <= identity < stored.next:
        return at[1][identity], f"entity {identity} is not from 2 to below next, which is {stored.next}"
    if number >= len(ground.templates):
        return at[1][identity], f"entity {identity} has the template {number}, and the match has {len(ground.templates)}"
    if not _inside(stored.sections[2][identity], ground):
        return at[2][identity], f"entity {identity} stands outside of the ground, at {_point(stored.sections[2][identity])}"
    (owner,) = stored.sections[3][identity]
    if owner > ground.players:
        return at[3][identity], f"entity {identity} has the owner {owner}, and the match has {ground.players} players"
    template = ground.templates[number]
    return _health_fault(stored, identity, template) or _motion_fault(stored, identity, ground) or _attack_fault(stored, identity, template)


def _inside(point, ground):
    return all(0 <= raw < side * ONE for raw, side in zip(point, ground.size))


def _point(point):
    return " ".join(map(print_raw, point))


def _health_fault(stored, identity, template):
    if template.health is None:
        return None
    (health,), most = stored.sections[4][identity], template.health["Max"]
    if 1 <= health <= most:
        return None
    return stored.offsets[4][identity], f"entity {identity} has the health {print_raw(health)}, and is to have more than 0 and at most {print_raw(most)}"


def _motion_fault(stored, identity, ground):
    found = stored.sections[5].get(identity)
    if found is None:
        return None
    mode, *goal, whole, count, way = found
    at = stored.offsets[5][identity]
    if mode > 1 or whole > 1:
        return at, f"entity {identity} has the mode {mode} and whole {whole}, and both are to be 0 or 1"
    if mode == 0:
        return (at, f"entity {identity} is still, and so its goal, whole and way are to be 0") if any((*goal, whole, count)) else None
    if count > MOST_POINTS:
        return at, f"entity {identity} has {count} waypoints, and {MOST_POINTS} is the most"
    points = [goal, *zip(way[0::2], way[1::2])]
    outside = next((point for point in points if not _inside(point, ground)), None)
    return None if outside is None else (at, f"entity {identity} goes to {_point(outside)}, outside of the ground")


def _attack_fault(stored, identity, template):
    found = stored.sections[6].get(identity)
    if found is None:
        return None
    target, cooldown = found
    repeat = template.attack["Repeat"] >> 16
    (hold,) = stored.sections.get(7, {}).get(identity, (0,))
    if hold > 1:
        return stored.offsets[7][identity], f"entity {identity} has the hold {hold}, and it is to be 0 or 1"
    if cooldown > repeat:
        return stored.offsets[6][identity], f"entity {identity} has the cooldown {cooldown}, and its repeat is {repeat}"
    if target and (target == identity or target not in stored.sections[4]):
        return stored.offsets[6][identity], f"entity {identity} has the target {target}, which is no other entity that has health"
    return None
