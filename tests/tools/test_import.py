#!/usr/bin/env python3
"""tools/import_0ad on templates written for it in the game's format: every mark and every kind of parent.

The wanted values are worked out by hand from the game's own rule of layers: an element overrides the parent's, and may have
disable, replace, merge, filtered, op or datatype="tokens". Lengths are divided by 4, the metres of a cell; a shot each 1000 ms is
one each fifth turn, so Repeat is 4.
"""

import json
import pathlib
import subprocess
import tempfile
import zipfile

from cases import Cases, bad_input, program, run_tool

from simtools.fixed import print_raw
from simtools.parts import templates_of
from simtools.trees import read_source

SPEAR = "<Attack><Melee><Damage><Hack>3</Hack><Pierce>2.5</Pierce></Damage><MaxRange>4</MaxRange><RepeatTime>1000</RepeatTime></Melee></Attack>"
BASE = ("<Health><Max>100</Max></Health><Resistance><Entity><Damage><Hack>5</Hack><Pierce>3</Pierce></Damage></Entity></Resistance>"
        "<UnitMotion><WalkSpeed>9</WalkSpeed></UnitMotion><Vision><Range>80</Range></Vision>" + SPEAR)
BOX = '<Obstruction><Static width="20.0" depth="12.0"/><BlockMovement>true</BlockMovement></Obstruction>'


def entity(body, parent=None, marks=""):
    """A template's file."""
    return f'<?xml version="1.0" encoding="utf-8"?>\n<Entity{f" parent={chr(34)}{parent}{chr(34)}" if parent else ""}{marks}>{body}</Entity>'


def health(text, mark=""):
    """A template's greatest health, with a mark."""
    return f"<Health><Max{mark}>{text}</Max></Health>"


FULL = "health 100 resist 5 3 0 speed 2.25 attack 3 2.5 0 range 1 vision 20 repeat 4 accuracy 100"
FILES = {
    # 1 to 10: values and marks of values. 1.2 is 78643/65536, so 9 + 1.2 is 668467/65536, whose quarter is 167116/65536;
    # 0.8 is 52428/65536, so 9 * 0.8 is 471852/65536, whose quarter is 117963/65536.
    "base": (entity(BASE), FULL),
    "same": (entity("", "base"), FULL),
    "over": (entity(health(250), "base"), FULL.replace("health 100", "health 250")),
    "added": (entity(health("-20.5", ' op="add"'), "base"), FULL.replace("health 100", "health 79.5")),
    "multiplied": (entity(health("1.5", ' op="mul"'), "base"), FULL.replace("health 100", "health 150")),
    "rounded": (entity(health("0.333", ' op="mul_round"'), "base"), FULL.replace("health 100", "health 33")),
    "faster": (entity('<UnitMotion><WalkSpeed op="add">1.2</WalkSpeed></UnitMotion>', "base"), FULL.replace("speed 2.25", "speed 2.54999")),
    "slower": (entity('<UnitMotion><WalkSpeed op="mul">0.8</WalkSpeed></UnitMotion>', "base"), FULL.replace("speed 2.25", "speed 1.79998")),
    "twice": (entity(health("2", ' op="mul"'), "added"), FULL.replace("health 100", "health 159")),
    "tougher": (entity('<Resistance><Entity><Damage><Crush>7</Crush></Damage></Entity></Resistance>', "base"), FULL.replace("5 3 0 speed", "5 3 7 speed")),
    # 11 to 17: marks of nodes
    "still": (entity('<UnitMotion disable=""/>', "base"), FULL.replace(" speed 2.25", "")),
    "peaceful": (entity('<Attack disable=""/>', "base"), "health 100 resist 5 3 0 speed 2.25"),
    "soft": (entity('<Resistance><Entity><Damage><Hack disable=""/></Damage></Entity></Resistance>', "base"), FULL.replace("5 3 0 speed", "0 3 0 speed")),
    "replaced": (entity('<Resistance replace=""><Entity><Damage><Crush>2</Crush></Damage></Entity></Resistance>', "base"),
                 FULL.replace("5 3 0 speed", "0 0 2 speed")),
    "merged": (entity('<Health merge=""><Max>60</Max></Health>', "base"), FULL.replace("health 100", "health 60")),
    "not merged": (entity('<Health merge=""><Max>60</Max></Health>', "post"), "obstruct 5 3"),
    "again": (entity("<UnitMotion><WalkSpeed>8</WalkSpeed></UnitMotion>", "still"), FULL.replace("speed 2.25", "speed 2")),
    # 18 to 22: attacks
    "bow": (entity('<Attack replace=""><Ranged><Damage><Pierce>6.5</Pierce></Damage><MaxRange>60</MaxRange><RepeatTime>1250</RepeatTime>'
                   "<Projectile><Spread>2.5</Spread></Projectile></Ranged></Attack>", "base"),
            FULL.replace("attack 3 2.5 0 range 1", "attack 0 6.5 0 range 15").replace("repeat 4", "repeat 5")),
    "half attack": (entity("<Attack><Melee><Damage><Hack>3</Hack></Damage></Melee></Attack>"), ""),
    "whole attack": (entity("<Attack><Melee><MaxRange>6</MaxRange><RepeatTime>2000</RepeatTime></Melee></Attack><Vision><Range>40</Range></Vision>",
                            "half attack"), "attack 3 0 0 range 1.5 vision 10 repeat 9 accuracy 100"),
    "slow shot": (entity('<Attack><Melee><RepeatTime op="mul">2</RepeatTime></Melee></Attack>', "base"), FULL.replace("repeat 4", "repeat 9")),
    # 23 to 27: buildings and what they train
    "post": (entity(BOX), "obstruct 5 3"),
    "field": (entity("<Obstruction><BlockMovement>false</BlockMovement></Obstruction>", "post"), ""),
    "wide": (entity('<Obstruction><Static width="200" depth="9"/></Obstruction>', "post"), "obstruct 16 2"),
    "hall": (entity('<Identity><Civ>gaul</Civ></Identity><Trainer><Entities datatype="tokens">units/{civ}/spear units/{native}/bow nobody</Entities></Trainer>',
                    "post"), "obstruct 5 3 train units/gaul/spear units/gaul/bow"),
    "big hall": (entity('<Trainer><Entities datatype="tokens">-units/{native}/bow base</Entities></Trainer>', "hall"),
                 "obstruct 5 3 train units/gaul/spear base"),
    # 28 to 33: parents of each kind
    "units/gaul/spear": (entity(health(5, ' op="add"'), "gaul|strong|base"), FULL.replace("health 100", "health 205")),
    "units/gaul/bow": (entity("", "gaul|bow"), "health 100 resist 5 3 0 speed 2.25 attack 0 6.5 0 range 15 vision 20 repeat 5 accuracy 100"),
    "ghost": (entity("", "preview|base"), "health 100"),
    "corner": (entity(health("40.00001"), "post"), "health 40 obstruct 5 3"),
    "siege": (entity('<Resistance><Entity><Damage><Pierce>50</Pierce></Damage></Entity></Resistance>' + BOX, "base"),
              FULL.replace("5 3 0 speed", "5 40 0 speed")),
    "ruin": (entity(""), ""),
}
LAYERS = {"mixins/strong": entity(health("2", ' op="mul"')), "mixins/gaul": entity("<Identity><Civ>gaul</Civ></Identity>"),
          "special/filter/preview": entity('<Health merge=""/><Position merge=""/>', marks=' filtered=""')}
REFUSED = {"orphan": (entity("", "nobody"), "the template nobody is not there"), "ring": (entity("", "ring 2"), "lead back"),
           "ring 2": (entity("", "ring"), "lead back"), "torn": ("<Entity><Health>", "no XML"),
           "worded": (entity(health("much")), "Health/Max is 'much', which is no number"), "odd op": (entity(health(1, ' op="sub"'), "base"), "the op 'sub'"),
           "layered": (entity("", "nothing|base"), "the layer nothing is not there"), "x" * 65: (entity(""), "is no Name"),
           "strong child": (entity("", "strong"), "a layer of that name")}
MARKS = {"added": ("Health", {"Max": {"@op": "add", "_": "-20.5"}}), "multiplied": ("Health", {"Max": {"@op": "mul", "_": "1.5"}}),
         "faster": ("Motion", {"Speed": {"@op": "add", "_": "0.29999"}}), "still": ("Motion", {"@disable": 1}),
         "soft": ("Resist", {"Hack": {"@disable": 1}}), "replaced": ("Resist", {"@replace": 1, "Crush": 2}),
         "merged": ("Health", {"@merge": 1, "Max": 60}), "big hall": ("Train", {"Units": {"@tokens": 1, "_": "-units/gaul/bow base"}}),
         "rounded": ("Health", {"Max": 33}), "slow shot": ("Attack", {"Repeat": 9})}
PARENTS = {"same": "base", "twice": "added", "units/gaul/spear": "strong|base", "units/gaul/bow": "bow", "ghost": "preview|base", "big hall": "hall"}
# Names with a space can't be imported; here they stand for readability alone.
SPELLED = str.maketrans(" ", "_")


def short(raw):
    """A number without the zeros at its end."""
    text = print_raw(raw)
    return text.rstrip("0").rstrip(".") if "." in text else text


def told(template, names):
    """A template's parts as the table above tells them."""
    words = []
    for word, part in (("health", template.health), ("resist", template.resist), ("speed", template.motion), ("obstruct", template.obstruct)):
        words += [word, *map(short, part.values())] if part else []
    if template.attack:
        *damage, reach, vision, repeat, accuracy = map(short, template.attack.values())
        words += ["attack", *damage, "range", reach, "vision", vision, "repeat", repeat, "accuracy", accuracy]
    if template.train is not None:
        words += ["train", *(names[number] for number in template.train)]
    return " ".join(words)


def spelled(name):
    """A name of the tables as the files have it."""
    return name if name.startswith("x") else name.translate(SPELLED)


def write_game(folder):
    """A folder as the game has it."""
    files = {name: text for name, (text, _) in {**FILES, **REFUSED}.items()} | LAYERS
    for name, text in files.items():
        path = pathlib.Path(folder) / "simulation/templates" / f"{spelled(name)}.xml"
        path.parent.mkdir(parents=True, exist_ok=True)
        path.write_text(text.replace('parent="ring 2"', 'parent="ring_2"').replace('"half attack"', '"half_attack"'))


def zip_game(folder, path):
    """The same as a zip."""
    with zipfile.ZipFile(path, "w") as made:
        for file in pathlib.Path(folder).rglob("*.xml"):
            made.write(file, file.relative_to(folder))


def imported(place, *names):
    """What the tool makes of some templates."""
    status, out, error = run_tool("import_0ad", place, *map(spelled, names))
    if status:
        raise RuntimeError(error)
    return json.loads(out), error


def check_values(cases, listed):
    """Each template has the values that were worked out by hand."""
    templates = templates_of([read_source(it) for it in listed])
    names = [template.name for template in templates]
    by_name = {template.name: told(template, names) for template in templates}
    for name, (_, wanted) in FILES.items():
        cases.case(f"the values of {name}", by_name.get(spelled(name)), wanted)


def check_spelling(cases, listed):
    """Marks and parents stay those of the game, where by the rule here they come to the same."""
    by_name = {it["@name"]: it for it in listed}
    for name, (part, wanted) in MARKS.items():
        cases.case(f"the mark of {name}", by_name[spelled(name)].get(part), wanted)
    for name, parent in PARENTS.items():
        cases.case(f"the parent of {name}", by_name[spelled(name)].get("@parent"), parent)


def check_refused(cases, place):
    """What can't be imported is refused with its name and a reason."""
    for name, (_, why) in REFUSED.items():
        status, out, error = run_tool("import_0ad", place, spelled(name))
        last = error.splitlines()[-1]
        good = status == 2 and not out and last.startswith(f"import_0ad: {spelled(name)} is refused: ") and why in last
        cases.holds(f"refused: {name[:20]}, {why}", good, (status, out, error))


def check_notes(cases, error):
    """What has no part here is listed, and what is not exact is said."""
    for text in ("no part: Identity: ", "Obstruct/Width is past its limit and is cut: wide", "Resist/Pierce is past its limit and is cut: siege",
                 "no part: spread (Accuracy is 100) of the attack: bow", "Obstruct is left out, since it blocks nobody: field",
                 "Obstruct is left out, since it moves: siege", "Attack/Repeat is rounded to whole turns: bow"):
        cases.holds(f"it says `{text}`", text in error, error)


def check_program(cases, listed, folder):
    """The program reads a match of all these templates: its own overlay resolves them."""
    if not program():
        cases.skip("a match of the imported templates", "no program is built")
        return
    match = {"size": [4, 4], "closed": [], "players": [[]], "cap": 0, "delay": 1, "turns": 0, "seed": 0, "templates": listed, "entities": [], "commands": []}
    path = pathlib.Path(folder) / "match.json"
    path.write_text(json.dumps(match))
    done = subprocess.run([program(), "play", path], capture_output=True, text=True, check=False)
    cases.holds("the program reads them all", done.returncode == 0, done.stdout)


def test(cases):
    """All cases."""
    with tempfile.TemporaryDirectory() as folder:
        place = f"{folder}/game"
        write_game(place)
        zip_game(place, f"{folder}/public.zip")
        listed, error = imported(place, *FILES)
        check_values(cases, listed)
        check_spelling(cases, listed)
        check_notes(cases, error)
        cases.case("a zip gives the same as a folder", imported(f"{folder}/public.zip", *FILES)[0], listed)
        cases.case("what is trained comes with it", {it["@name"] for it in imported(place, "hall")[0]} >= {"units/gaul/spear", "units/gaul/bow"}, True)
        check_refused(cases, place)
        check_program(cases, listed, folder)
        bad_input(cases, "import_0ad", ("no words", [], "required"), ("no template", [place], "name of a template"),
                  ("a place that is not there", [f"{folder}/none", "base"], "neither a folder nor a zip"),
                  ("a folder without templates", [folder, "base"], "has no templates"), ("no metres", [place, "base", "--metres", "0"], "above 0"),
                  ("another option", [place, "base", "--feet"], "--feet"))


if __name__ == "__main__":
    counted = Cases()
    test(counted)
    counted.end()
