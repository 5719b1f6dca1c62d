"""One HTML file that draws frames: everything stands in it, so it opens anywhere without a network."""

import html
import json
import pathlib

from .packing import pack

PAGE = pathlib.Path(__file__).resolve().parent / "page"
SCRIPTS = ("unpack.js", "draw.js", "viewer.js")


def _read(name):
    return (PAGE / name).read_text(encoding="utf-8")


def _for_script(value):
    """JSON that may stand between the tags of a script."""
    return json.dumps(value, separators=(",", ":")).replace("</", "<\\/")


def _template(template, line):
    """What the page needs to know of a template; lengths of rectangles in cells, all else as raws."""
    box, attack = template.obstruct or {}, template.attack or {}
    return {"name": template.name, "width": box.get("Width", 0) >> 16, "depth": box.get("Depth", 0) >> 16,
            "health": (template.health or {}).get("Max", 0), "range": attack.get("Range", 0), "vision": attack.get("Vision", 0), "line": line}


def page_text(title, ground, frames, lines, **more):
    """The page of some frames on a ground. Each template has a line of its own; more goes to the page's script as it is."""
    heads, chunks = pack(frames)
    index = {"size": ground.size, "closed": ground.closed, "players": ground.players, "heads": heads, "firsts": [first for first, _ in chunks],
             "templates": [_template(*both) for both in zip(ground.templates, lines)], **more}
    stored = "\n".join(f'<script id="chunk-{number}" type="text/plain">{text}</script>' for number, (_, text) in enumerate(chunks))
    pieces = {"title": html.escape(title), "style": _read("viewer.css"), "script": "".join(map(_read, SCRIPTS)),
              "chunks": stored, "index": _for_script(index)}
    text = _read("viewer.html")
    for name, piece in pieces.items():
        text = text.replace("{{" + name + "}}", piece)
    return text
