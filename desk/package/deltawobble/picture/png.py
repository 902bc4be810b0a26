"""A picture as PNG: the SVG's own lines and words, handed to Graphviz as a background of drawing commands (xdot), with nothing to lay out."""
from __future__ import annotations

import re
import shutil
import subprocess
import xml.etree.ElementTree as ElementTree

from ..files import WrongUse

SVG = "{http://www.w3.org/2000/svg}"
#: by the class of a group or of a thing in it: line, inside, width of the line
LOOKS = {"gate": ("#000000", "", 1.3), "wire": ("#000000", "", 1), "pin": ("#000000", "#e8f1fb", 1), "out": ("#000000", "#e6f6e8", 1),
         "open": ("#777777", "#f9f9f7", 1), "closed": ("#000000", "#f4f4f0", 1), "zero": ("#1d4ed8", "", 1), "one": ("#c2410c", "", 2.6)}
#: points of a letter above its line, for Graphviz, which names the middle of a text
FONT = "Helvetica"


class Commands:
    """Drawing commands, y upwards."""

    def __init__(self, high: float):
        self.high, self.found = high, ["S 8 -rounded"]

    def pen(self, line: str, width: float) -> None:
        self.found += ["c %d -%s" % (len(line), line), style(width)]

    def shape(self, letter: str, points: list[tuple[float, float]]) -> None:
        self.found.append("%s %d %s" % (letter, len(points), " ".join("%.1f %.1f" % (x, self.high - y) for x, y in points)))

    def fill(self, colour: str) -> None:
        self.found.append("C %d -%s" % (len(colour), colour))

    def dot(self, x: float, y: float, r: float) -> None:
        self.found.append("E %.1f %.1f %.1f %.1f" % (x, self.high - y, r, r))

    def text(self, x: float, y: float, size: float, anchor: str, words: str) -> None:
        place = {"start": -1, "middle": 0, "end": 1}[anchor]
        self.pen("#222222", 1)
        self.found += ["F %.1f %d -%s" % (size, len(FONT), FONT)]
        self.found.append("T %.1f %.1f %d 0 %d -%s" % (x, self.high - y, place, len(words.encode()), words))


def style(width: float) -> str:
    words = "setlinewidth(%g)" % width
    return "S %d -%s" % (len(words), words)


def look_of(words: list[str]) -> tuple[str, str, float]:
    return next((LOOKS[w] for w in ("zero", "one", "out", "pin", "open", "closed", "wire", "gate") if w in words), ("#000000", "", 1))


def commands(text: str) -> tuple[list[str], float, float]:
    """The drawing commands of one of our own pictures, its width and its height."""
    root = ElementTree.fromstring(text.encode())
    wide, high = float(root.get("width")), float(root.get("height"))
    drawn = Commands(high)

    def go(at: ElementTree.Element, around: list[str]) -> None:
        words = around + (at.get("class") or "").split()
        kind = at.tag.removeprefix(SVG)
        inner = [] if kind == "g" and "inside" in words else words
        draw(drawn, at, kind, words)
        for below in at:
            go(below, inner)

    go(root, [])
    return drawn.found, wide, high


def draw(drawn: Commands, at: ElementTree.Element, kind: str, words: list[str]) -> None:
    number = {key: float(value) for key, value in at.attrib.items() if re.fullmatch(r"-?[\d.]+", value)}
    line, inside, width = look_of(words)
    drawn.pen(line, width)
    if kind == "text":
        drawn.text(number["x"], number["y"], number["font-size"], at.get("text-anchor"), at.text or "")
    elif kind == "circle":
        drawn.fill(line)
        drawn.dot(number["cx"], number["cy"], number["r"])
    elif kind == "rect" and "x" in number and "touch" not in words:
        x, y, w, h = (number[k] for k in ("x", "y", "width", "height"))
        drawn.fill(inside)
        drawn.shape("P", [(x, y), (x + w, y), (x + w, y + h), (x, y + h)])
    elif kind == "path":
        for part in at.get("d").split("M")[1:]:
            places = [(float(a), float(b)) for a, b in re.findall(r"(-?[\d.]+),(-?[\d.]+)", part)]
            if inside and "Z" in part:
                drawn.fill(inside)
            drawn.shape("P" if inside and "Z" in part else "L", places)


def quoted(text: str, most: int = 4000) -> str:
    """A text of DOT, in pieces: Graphviz reads none that is longer than 16,384."""
    pieces = [text[i:i + most].replace("\\", "\\\\").replace('"', '\\"') for i in range(0, len(text), most)]
    return " + ".join('"%s"' % piece for piece in pieces)


def png(text: str) -> bytes:
    """The PNG of a picture."""
    if shutil.which("neato") is None:
        raise WrongUse("a PNG needs Graphviz (Debian package graphviz); '-o FILE.svg' and '-o FILE.dot' do without it")
    found, wide, high = commands(text)
    graph = 'graph { pad=0; margin=0; _background=%s; node [shape=point style=invis width=0 height=0]; a [pos="0,0"]; b [pos="%g,%g"] }' % (quoted(" ".join(found)), wide, high)
    done = subprocess.run(["neato", "-n2", "-Tpng", "-Gdpi=110"], input=graph.encode(), capture_output=True)
    if done.returncode:
        raise WrongUse("Graphviz could not draw this: %s" % done.stderr.decode(errors="replace").strip()[:300])
    return done.stdout
