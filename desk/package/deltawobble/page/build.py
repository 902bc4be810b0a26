"""The page as one file: what is shown goes in as data and as text, and a content security policy lets nothing in from outside."""
from __future__ import annotations

import base64
import hashlib
import json
from html import escape
from importlib import resources
from typing import Optional

from ..files import Source
from ..picture.frame import Frame
from ..picture.svg import Drawing, n
from .facts import Facts, gathered

#: marks that turn the direction of writing, and others that nobody sees
UNSEEN = {*range(0x00, 0x09), 0x0B, *range(0x0E, 0x20), *range(0x7F, 0xA0), 0x061C, 0x200B, *range(0x200E, 0x2010), *range(0x2028, 0x202F),
          *range(0x2066, 0x206A), 0xFEFF, *range(0xD800, 0xE000)}

PAGE = """<!DOCTYPE html>
<html lang="en">
<head>
<meta charset="utf-8">
<meta http-equiv="Content-Security-Policy" content="default-src 'none'; script-src '{script_hash}'; style-src '{style_hash}'; base-uri 'none'; form-action 'none'">
<meta name="viewport" content="width=device-width">
<title>{title}</title>
<style>{style}</style>
</head>
<body>
<header><h1><bdi>{title}</bdi></h1><p id="verdict"></p><ul id="counts"></ul></header>
<main>
<section id="text" aria-label="text"><h2></h2><div class="scroll" tabindex="0"></div></section>
<section id="picture" aria-label="picture"><h2>Picture</h2><p class="tools"></p><div class="view" tabindex="0">{pictures}</div></section>
<section id="waves" aria-label="waves"><h2>Waves</h2><p class="tools"></p><div class="body"></div></section>
<section id="refusal" aria-label="refusal"><h2>Refused</h2></section>
<section id="more" aria-label="more"></section>
</main>
<p id="said" role="status"></p>
<script type="application/json" id="data">{data}</script>
<script>{script}</script>
</body>
</html>
"""


def visible(text: str) -> str:
    """A text in which marks that nobody sees are spelt out."""
    return "".join("\\u%04X" % ord(c) if ord(c) in UNSEEN else c for c in text)


def own(name: str) -> str:
    return resources.files(__package__).joinpath(name).read_text(encoding="utf-8")


def hashed(text: str) -> str:
    return "sha256-" + base64.b64encode(hashlib.sha256(text.encode()).digest()).decode()


def picture(frame: Optional[Frame], name: str) -> str:
    if frame is None:
        return ""
    drawing = Drawing(frame)
    return '<svg id="%s" role="group" aria-label="circuit" viewBox="0 0 %s %s">%s</svg>' % (name, n(drawing.wide), n(drawing.high), "".join(drawing.groups()))


def page(source: Source, traces: list[str], starts: Optional[str] = None) -> tuple[str, Facts]:
    """The page of a sheet and its traces; and what is on it."""
    facts = gathered(source, traces, starts)
    script, style = own("page.js"), own("page.css")
    data = json.dumps(facts.data, ensure_ascii=True, separators=(",", ":")).replace("<", "\\u003c").replace(">", "\\u003e").replace("&", "\\u0026")
    title = escape(visible(source.stem))
    text = PAGE.format(title=title, style=style, script=script, data=data, pictures=picture(facts.whole, "whole") + picture(facts.closed, "closed"),
                       script_hash=hashed(script), style_hash=hashed(style))
    return text, facts
