#!/usr/bin/env python3
"""tools/view: its pages in a headless Chromium, looked at for what they must contain.

Pictures are compared by the number of patches of each owner's colour, the text by turn, digest and rows. The wanted values are
those that examples/README.md tells. Without a browser, or without a program, what needs it is skipped and said.
"""

import hashlib
import json
import os
import pathlib
import re
import subprocess
import tempfile

import chromium
from cases import TOP, Cases, bad_input, program, run_tool
from png import colour_of, patches, read_png

from simtools.fixed import ONE
from simtools.stored import read_stored

HERE = pathlib.Path(__file__).resolve().parent
EXAMPLES = TOP / "examples"
COLOURS = re.search(r"COLOURS = \[(.*?)\]", (TOP / "tools/simtools/page/draw.js").read_text(encoding="utf-8"))[1].replace("'", "").split(", ")
RED = colour_of("#ff0000")
# An example, a turn, and how many patches of Gaia and of each player are seen: units that stand on one another are one.
SEEN = [("two-posts", 0, [0, 1, 1]), ("camp", 3, [0, 4, 1]), ("camp", 6, [3, 0, 1]), ("squads", 0, [0, 2, 2]), ("inherited", 0, [0, 3, 1]),
        ("outposts", 0, None)]
MEASURE = """(async () => {
  for (let place = 0; place < viewer.index.heads.length; place++) {
    await viewer.show(place);
    viewer.painter.context.getImageData(0, 0, 1, 1);
  }
})()"""


def counts(browser):
    """How many patches of each owner's colour are seen on the ground."""
    _, _, rows = read_png(browser.picture(9, 9, 800, 800, 0.5))
    return [patches(rows, colour_of(colour)) for colour in COLOURS], patches(rows, RED)


def text(browser, name):
    """The text of an element of the page."""
    return browser.run(f"document.getElementById('{name}').textContent")


def draw(folder, name, *words, tool=None):
    """A page that the tool writes."""
    out = f"{folder}/{name}.html"
    status, _, error = run_tool("view", *words, "-o", out, *(["--program", tool] if tool else []))
    if status:
        raise RuntimeError(error)
    return out


def owners_of(page_text):
    """How many entities the page says that each owner has."""
    return {name: int(count) for name, count in re.findall(r"(Gaia|player \d): (\d+)", page_text)}


class Viewing:
    """A browser, a folder and the program."""

    def __init__(self, cases, folder, browser):
        self.cases, self.folder, self.browser = cases, folder, browser

    def examples(self):
        """Each example shows what it has: units by colour, the turn, the digest; the console is silent."""
        for name, turn, wanted in SEEN:
            self.browser.open(draw(self.folder, name, EXAMPLES / f"{name}.json"), f"#turn={turn}")
            seen, red = counts(self.browser)
            if wanted:
                self.cases.case(f"{name}, turn {turn}: patches by owner", (seen, red), (wanted + [0] * (9 - len(wanted)), 0))
            self.cases.case(f"{name}: the turn", (text(self.browser, "turn"), self.browser.run("viewer.place")), (f"turn {turn}", turn))
            if digest := told_digest(f"play examples/{name}.json", f"turn {turn}"):
                self.cases.case(f"{name}: the digest of turn {turn}", text(self.browser, "digest"), digest)
            self.cases.case(f"{name}: nothing on the console", (self.browser.said, text(self.browser, "faults")), ([], ""))

    def controls(self):
        """Steps, the slider, play and a click do what they say."""
        browser, case = self.browser, self.cases.case
        browser.open(draw(self.folder, "squads", EXAMPLES / "squads.json"))
        browser.run("document.getElementById('forth').click()")
        self.wait("turn 1")
        browser.key("ArrowRight")
        case("a key steps on", self.wait("turn 2"), "turn 2")
        browser.run("const s = document.getElementById('slider'); s.value = 5; s.dispatchEvent(new Event('input'))")
        case("the slider", self.wait("turn 5"), "turn 5")
        browser.run("document.getElementById('first').click()")
        self.wait("turn 0")
        browser.run("document.getElementById('speed').value = 30; document.getElementById('play').click()")
        case("play comes to the end", (self.wait("turn 8"), text(browser, "play")), ("turn 8", "play"))
        browser.run("viewer.show(2)")
        self.wait("turn 2")
        x, y = browser.run("(v => [v.across(10.7929) + 9, v.down(4.20711) + 9])(viewer.painter.view)")
        browser.click(x, y)
        shown = ("entity 4 template archer owner 2 at 10.79290 4.20711 health 20 motion going 3.91422 4.91422 way 8 whole 1 "
                 "attack target 2 cooldown 2")
        case("a click shows the row as `show` prints it", text(browser, "row").split("\n")[0], shown)
        case("and the points of its way", text(browser, "row").split("\n")[1].count("("), 8)

    def wait(self, turn):
        """The turn that the page shows, once it is the wanted one or two seconds have gone by."""
        self.browser.run(f"""new Promise(done => {{ const end = performance.now() + 20000; const look = () =>
            document.getElementById('turn').textContent === '{turn}' && !viewer.playing || performance.now() > end ? done() : setTimeout(look, 10);
            look(); }})""")
        return text(self.browser, "turn")

    def states(self):
        """Of two stored states the first difference is told in red, and who differs is ringed."""
        match, paths = EXAMPLES / "squads.json", [f"{self.folder}/{name}" for name in "ab"]
        for path, turn in zip(paths, (2, 3)):
            subprocess.run([program(), "state", match, str(turn), path], capture_output=True, check=True)
        said = subprocess.run([program(), "compare", match, *paths], capture_output=True, text=True, check=False).stdout.strip()
        self.browser.open(draw(self.folder, "states", match, "--states", *paths))
        self.cases.case("the difference is told", text(self.browser, "difference"), said)
        self.cases.case("the digest of the first", text(self.browser, "digest"), told_digest("play examples/squads.json", "turn 2"))
        colour = self.browser.run("getComputedStyle(document.getElementById('difference')).color")
        self.cases.case("and is red", colour, "rgb(255, 0, 0)")
        self.cases.case("all four that differ are marked", self.browser.run("[...viewer.marked].sort().join()"), "1,2,3,4,5")
        self.cases.holds("and ringed in red", counts(self.browser)[1] > 0)
        bent = pathlib.Path(paths[1])
        bent.write_bytes(with_less_health(pathlib.Path(paths[0]).read_bytes(), 4))
        self.browser.open(draw(self.folder, "bent", match, "--states", *paths))
        told = text(self.browser, "difference").splitlines()
        self.cases.case("a difference in health: its place", told[0], "differ entity 4 part Health")
        self.cases.case("and both rows", [re.search(r"entity 4 .* health (\S+)", line)[1] for line in told[3:]], ["20", "19"])
        self.cases.case("and it alone is marked", self.browser.run("[...viewer.marked].join()"), "4")
        self.browser.open(draw(self.folder, "same", match, "--states", paths[0], paths[0]))
        self.cases.case("equal states have no red", (text(self.browser, "difference"), counts(self.browser)[1]), ("", 0))

    def session(self):
        """A session shows its events by client, those of a bent client in red, and the place at which two differ."""
        page = draw(self.folder, "handover", EXAMPLES / "handover.json", "--steps", EXAMPLES / "handover-steps.json")
        self.browser.open(page)
        self.cases.case("a session: where clients differ", text(self.browser, "difference"), "clients 1 and 3 differ first at entity 3, part Health")
        off = self.browser.run("[...document.querySelectorAll('td.off')].map(cell => cell.textContent.split(' ').slice(0, 2).join(' ')).join()")
        wanted = "bend 1,play 2,notice of,play 3,notice of"
        self.cases.holds("a session: what is off", off.replace(" quick", "") in (wanted, "bend 1,play 2,play 3"), off)
        self.cases.case("a session: a scout each", counts(self.browser)[0][:4], [0, 1, 1, 1])

    def wider(self):
        """A program that knows `film` and `parts` gives the same page as one that does not; a log is drawn with its digests."""
        for name, every in (("camp", 1), ("squads", 1), ("squads", 3)):
            words = [EXAMPLES / f"{name}.json", "--every", every]
            known, narrow = (pathlib.Path(draw(self.folder, name + kind, *words, tool=tool)).read_text(encoding="utf-8")
                             for kind, tool in (("", None), ("-states", HERE / "narrow_program.py")))
            self.cases.holds(f"{name}, each {every}: `film` and `parts` give the same page", told_of(known) == told_of(narrow))
        log = pathlib.Path(self.folder) / "log"
        log.write_text(log_of(EXAMPLES / "camp.json"))
        self.browser.open(draw(self.folder, "log", EXAMPLES / "camp.json", "--log", log, tool=HERE / "wider_program.py"), "#turn=3")
        self.cases.case("a log: patches by owner", counts(self.browser)[0][:3], [0, 4, 1])
        self.cases.case("a log: its digest", text(self.browser, "digest"), told_digest("play examples/camp.json", "turn 3"))

    def recorded(self):
        """With a program that knows `record` the ground of a session shows the turns that the server kept."""
        os.environ["RECORDED"] = f"{self.folder}/recorded"
        pathlib.Path(os.environ["RECORDED"]).write_text(log_of_handover())
        words = [EXAMPLES / "handover.json", "--steps", EXAMPLES / "handover-steps.json"]
        self.browser.open(draw(self.folder, "recorded", *words, tool=HERE / "wider_program.py"), "#turn=3&select=2")
        self.cases.case("a recorded session: its digest", text(self.browser, "digest"), log_of_handover().split()[-1])
        self.cases.case("a recorded session: the scout has walked", text(self.browser, "row").split("\n")[0],
                        "entity 2 template scout owner 1 at 6.50000 1.50000 health 20 motion still")
        self.cases.case("a recorded session: where clients differ", text(self.browser, "difference"), "clients 1 and 3 differ first at entity 3, part Health")

    def explored(self):
        """With a program that knows `sight` and `realm` what a player has not explored is dark, and what each holds is said."""
        self.browser.open(draw(self.folder, "explored", EXAMPLES / "camp.json", tool=HERE / "wider_program.py"), "#turn=7")
        self.browser.run("const s = document.getElementById('seer'); s.value = 1; s.dispatchEvent(new Event('change'))")
        dark = """(() => { const v = viewer.painter, at = (x, z) => v.context.getImageData(v.view.across(x), v.view.down(z), 1, 1).data[0];
            return [at(2.2, 2.2) > 200, at(9.2, 9.2) > 200].join(); })()"""
        self.cases.case("what player 1 has explored is bright, and what not is dark", self.browser.run(dark), "true,false")
        self.cases.case("what each holds", text(self.browser, "realm"), "player 1 holds 8 cells at the end, 5 of them rooted")

    def many(self):
        """4,096 units over 200 turns: less than 30 MB, and at least 30 frames in a second of the page's own time."""
        match = pathlib.Path(self.folder) / "many.json"
        match.write_text('{"size":[256,256],"closed":[[20,20,30,40]],"players":[[2],[1]],"cap":0,"delay":1,"turns":200,"seed":0,"templates":'
                         '[{"@name":"soldier"}],"entities":[],"commands":[]}')
        page = draw(self.folder, "many", match, tool=HERE / "film_stand_in.py")
        size = os.path.getsize(page)
        self.cases.holds("4,096 units over 200 turns: below 30 MB", size < 30e6, size)
        self.browser.call("Performance.enable", timeDomain="threadTicks")
        self.browser.open(page)
        self.cases.case("4,096 units: nothing on the console", self.browser.said, [])
        before = self.seconds()
        self.browser.run(MEASURE)
        took = (self.seconds() - before) / 201
        print(f"       {size / 1e6:.1f} MB, {took * 1e3:.1f} ms of processor time a frame, {1 / took:.0f} frames a second")
        self.cases.holds("and 30 frames a second or more", took < 1 / 30, took)
        self.cases.case("4,096 units: the rows of the last turn", owners_of(text(self.browser, "owners")), {"player 1": 1948, "player 2": 1948})

    def seconds(self):
        """The processor time of the page so far."""
        metrics = self.browser.call("Performance.getMetrics")["metrics"]
        return next(it["value"] for it in metrics if it["name"] == "TaskDuration")


def told_of(page):
    """What a page tells of the states: its chunks and its index, without what a program tells beside."""
    index = json.loads(re.search(r'<script id="index".*?>(.*?)</script>', page, re.S)[1])
    return re.findall(r'<script id="chunk.*?</script>', page), index | {"explored": None, "realm": None}


def with_less_health(data, identity):
    """A stored state in which one entity has one point of health less."""
    at = read_stored(data).offsets[4][identity] + 4
    health = int.from_bytes(data[at:at + 4], "little") - ONE
    return data[:at] + health.to_bytes(4, "little") + data[at + 4:]


def told_digest(words, line):
    """The digest that examples/README.md tells in a line of what the program prints for these words, or None."""
    _, _, said = (EXAMPLES / "README.md").read_text(encoding="utf-8").partition(f"$ ./simcore {words}\n")
    found = re.search(rf"^{line} ([0-9a-f]{{32}})$", said.partition("```")[0], re.M)
    return found and found[1]


def log_of_handover():
    """The log of the session of examples/handover.json: the one kept command, and the digests of an unbent client."""
    words = "session examples/handover.json examples/handover-steps.json"
    digests = [told_digest(words, line) for line in ("client 2 start 0", *(f"client 2 play {turn}" for turn in (1, 2, 3)))]
    turns = [f"turn {turn} {digest}" for turn, digest in enumerate(digests)]
    head = f"simlog 1 {hashlib.md5((EXAMPLES / 'handover.json').read_bytes()).hexdigest()}"
    return "\n".join([head, *turns[:2], "command turn 2 player 1 walk 2 to 6.50000 1.50000", *turns[2:]]) + "\n"


def log_of(path):
    """A replay log of a match's own turns, put together by hand."""
    data = path.read_bytes()
    played = subprocess.run([program(), "play", path], capture_output=True, text=True, check=True).stdout.splitlines()
    commands = json.loads(data)["commands"]
    lines = [f"simlog 1 {hashlib.md5(data).hexdigest()}"]
    for turn, line in enumerate(played):
        lines += [f"command turn {turn} player {player} {spell(kind, rest)}" for at, player, kind, *rest in commands if at == turn]
        lines.append(line)
    return "\n".join(lines) + "\n"


def spell(kind, rest):
    """A command as a log spells it."""
    if kind in ("place", "train", "resign"):
        return " ".join([kind, *map(str, rest)]) if kind != "place" else f"place {rest[0]} at {rest[1]} {rest[2]}"
    ids = ",".join(map(str, rest[0])) or "-"
    return {"walk": f"walk {ids} to {' '.join(map(str, rest[1:]))}", "attack": f"attack {ids} on {rest[-1]}"}.get(kind, f"{kind} {ids}")


def in_browser(cases, folder):
    """All that needs a browser."""
    if not chromium.find():
        cases.skip("the pages in a browser", "there is no Chromium (apt-get install chromium)")
        return
    browser = chromium.Chromium()
    viewing = Viewing(cases, folder, browser)
    try:
        viewing.many()
        if program():
            for part in (viewing.examples, viewing.controls, viewing.states, viewing.session, viewing.wider, viewing.recorded, viewing.explored):
                part()
        else:
            cases.skip("the examples in a browser", "no program is built")
    finally:
        browser.close()


def test(cases):
    """All cases."""
    with tempfile.TemporaryDirectory() as folder:
        in_browser(cases, folder)
        camp, stand_in = EXAMPLES / "camp.json", HERE / "film_stand_in.py"
        bad_input(cases, "view", ("no words", [], "required"),
                  ("a program that is not there", [camp, "--program", folder + "/none"], "no program stands at"),
                  ("no turns", [camp, "--every", "0"], "--every"), ("a match that is not there", [folder + "/none", "--program", stand_in], "none"),
                  ("two things at once", [camp, "--steps", camp, "--log", camp], "not allowed"))
        if program():
            bad_input(cases, "view", ("a match that is refused", [EXAMPLES / "refused.json"], "match refused 8 1"),
                      ("a state that is none", [camp, "--states", camp, camp], "state refused 1"),
                      ("a log that is none", [camp, "--log", camp], "no replay log"),
                      ("steps that are none", [EXAMPLES / "handover.json", "--steps", camp], "list refused 0"),
                      ("a place where nothing can be written", [camp, "-o", folder + "/none/page.html"], "can't be written"))


if __name__ == "__main__":
    counted = Cases()
    test(counted)
    counted.end()
