"""A frame that is laid out, as SVG. Every place is written as it is, without transformations, so that a test can read the picture."""
from __future__ import annotations

import math
from html import escape
from typing import Iterable, Optional

from .. import shapes
from .frame import HIGH, WIDE, Frame, Piece, Port, Wire, text_wide

MARGIN, HEAD = 12, 22
PIN_HIGH = 18
SMALL, PLAIN, LARGE = 8, 9, 12

STYLE = """
.paper { fill: #fff } .touch { fill: none } text { font-family: Helvetica, Arial, sans-serif; fill: #222 }
.gate path { fill: none; stroke: #000; stroke-width: 1.3 } .wire { fill: none; stroke: #000; stroke-width: 1; stroke-linecap: round }
.fork { fill: #000 } .pin path { fill: #e8f1fb; stroke: #000 } .pin.out path { fill: #e6f6e8 }
.box > rect { fill: #f4f4f0; fill-opacity: 0.55; stroke: #777 } .box.closed > rect { fill: #f4f4f0; fill-opacity: 1; stroke: #000 }
.net.zero .wire { stroke: #1d4ed8; stroke-width: 1 } .net.zero .fork { fill: #1d4ed8 }
.net.one .wire { stroke: #c2410c; stroke-width: 2.6 } .net.one .fork { fill: #c2410c }
""".strip()


def plain(text: str) -> str:
    """Text as text; signs that no XML may hold are spelt out."""
    return escape("".join(c if c >= " " and not 0xD800 <= ord(c) < 0xE000 and c not in "\ufffe\uffff" else "\\x%02x" % ord(c) for c in text))


def n(value: float) -> str:
    return ("%.1f" % value).removesuffix(".0")


def text(x: float, y: float, words: str, size: float = SMALL, anchor: str = "start", kind: str = "") -> str:
    look = ' class="%s"' % kind if kind else ""
    return '<text%s x="%s" y="%s" font-size="%s" text-anchor="%s">%s</text>' % (look, n(x), n(y), n(size), anchor, plain(words))


class Drawing:
    """The groups of one picture. `bits` has a bit for each net at one tick, where the wires are to be coloured."""

    def __init__(self, frame: Frame, bits: Optional[dict[int, int]] = None):
        self.frame, self.bits = frame, bits or {}
        self.left = max([text_wide(p.name, PLAIN) + 22 for p in frame.left] + [0])
        self.right = max([text_wide(p.name, PLAIN) + 22 for p in frame.right] + [0])
        self.wide = self.left + frame.wide + self.right + 2 * MARGIN
        self.high = frame.high + HEAD + MARGIN

    def groups(self) -> list[str]:
        x, y = MARGIN + self.left, HEAD
        return self.inside(self.frame, x, y) + self.pins(x, y)

    def inside(self, frame: Frame, x: float, y: float) -> list[str]:
        """Boxes lowest, then wires, then shapes."""
        opened = [g for piece in frame.pieces if piece.inner for g in self.open_box(piece, x, y)]
        wires = [self.net(wire, x, y) for wire in frame.wires]
        return opened + wires + [self.piece(p, x, y) for p in frame.pieces if not p.inner]

    def net(self, wire: Wire, x: float, y: float) -> str:
        bit = self.bits.get(wire.net)
        look = "net" if bit is None else "net one" if bit else "net zero"
        line = " ".join("M%s,%s L%s,%s" % (n(a + x), n(b + y), n(c + x), n(d + y)) for a, b, c, d in joined(wire.segments))
        forks = "".join('<circle class="fork" cx="%s" cy="%s" r="2.6"/>' % (n(a + x), n(b + y)) for a, b in wire.forks)
        return '<g class="%s" data-net="%d"><path class="wire" d="%s"/>%s</g>' % (look, wire.net, line, forks)

    # ---- boxes

    def open_box(self, piece: Piece, x: float, y: float) -> list[str]:
        inner, left, top = piece.inner, x + piece.x, y + piece.y
        assert inner is not None
        head = '<g class="box open" data-box="%d" data-name="%s"><rect x="%s" y="%s" width="%s" height="%s" rx="4"/>%s' % (
            piece.key, plain(inner.name), n(left), n(top), n(piece.wide), n(piece.high), text(left + 6, top + 11, inner.name, PLAIN, kind="title"))
        return [head + '<g class="inside">'] + self.inside(inner, left, top) + ["</g></g>"]

    def closed_box(self, piece: Piece, x: float, y: float) -> str:
        words = [text(x + piece.wide / 2, y + 12, piece.element.name, PLAIN, "middle", "title")]
        words += [text(x + 5, y + p.y + 3, p.name, SMALL) for p in piece.ins if p.name]
        words += [text(x + piece.wide - 5, y + p.y + 3, p.name, SMALL, "end") for p in piece.outs if p.name]
        return '<g class="box closed" data-box="%d" data-name="%s"><rect x="%s" y="%s" width="%s" height="%s" rx="4"/>%s</g>' % (
            piece.key, plain(piece.element.name), n(x), n(y), n(piece.wide), n(piece.high), "".join(words))

    # ---- elements and pins

    def piece(self, piece: Piece, x: float, y: float) -> str:
        x, y = x + piece.x, y + piece.y
        if piece.kind == "closed":
            return self.closed_box(piece, x, y)
        e = piece.element
        line = point_path(x, y) if piece.kind == "point" else shapes.line(e.name, x, y, WIDE, HIGH)
        if piece.wide > WIDE:
            line += " M%s,%s L%s,%s" % (n(x + WIDE), n(y + HIGH / 2), n(x + piece.wide), n(y + HIGH / 2))
        high, middle = (20, 10) if piece.kind == "point" else (HIGH, WIDE / 2)
        words = [text(x + 57, y + HIGH / 2 - 3, piece.name, SMALL, kind="name")] if piece.name else []
        words += [text(x + middle, y + high + 7 + 9 * i, line_, SMALL, "middle", "below") for i, line_ in enumerate(piece.below)]
        node = ' data-node="%d"' % e.node if e.node is not None else ""
        touch = '<rect class="touch" x="%s" y="%s" width="%s" height="%s" rx="3"/>' % (n(x + 4), n(y), n(min(piece.wide, WIDE) - 8), n(high))
        return '<g class="gate %s" data-first="%d" data-out="%d"%s>%s<path d="%s"/>%s</g>' % (e.name, e.first, e.output, node, touch, line, "".join(words))

    def pins(self, x: float, y: float) -> list[str]:
        found = []
        for side, ports in (("in", self.frame.left), ("out", self.frame.right)):
            for port in ports:
                wide = self.left if side == "in" else self.right
                at = x - wide if side == "in" else x + self.frame.wide
                found.append(pin(side, port, at, y + port.y, wide))
        return found


def pin(side: str, port: Port, x: float, y: float, wide: float) -> str:
    half = PIN_HIGH / 2
    line = "M%s,%s L%s,%s L%s,%s L%s,%s L%s,%s Z" % (n(x), n(y - half), n(x + wide - 8), n(y - half), n(x + wide), n(y), n(x + wide - 8), n(y + half), n(x), n(y + half))
    return '<g class="pin %s" data-net="%d" data-name="%s"><path d="%s"/>%s</g>' % (
        side, port.net, plain(port.name), line, text(x + (wide - 6) / 2, y + 3, port.name, PLAIN, "middle"))


def point_path(x: float, y: float) -> str:
    ring = [(x + 10 + 4 * math.cos(a * math.pi / 8), y + 10 + 4 * math.sin(a * math.pi / 8)) for a in range(17)]
    leads = "M%s,%s L%s,%s M%s,%s L%s,%s" % (n(x), n(y + 10), n(x + 6), n(y + 10), n(x + 14), n(y + 10), n(x + 20), n(y + 10))
    return "M" + " L".join("%s,%s" % (n(a), n(b)) for a, b in ring) + " " + leads


def joined(segments: Iterable[tuple[float, float, float, float]]) -> list[tuple[float, float, float, float]]:
    """Level segments that meet end to end are one."""
    level = sorted((b, min(a, c), max(a, c)) for a, b, c, d in segments if b == d)
    found: list[tuple[float, float, float, float]] = [s for s in segments if s[1] != s[3]]
    for y, start, end in level:
        if found and found[-1][1] == found[-1][3] == y and found[-1][2] >= start:
            found[-1] = (found[-1][0], y, max(end, found[-1][2]), y)
        else:
            found.append((start, y, end, y))
    return found


def svg(frame: Frame, title: str, bits: Optional[dict[int, int]] = None) -> str:
    """A picture by itself."""
    drawing = Drawing(frame, bits)
    wide = max(drawing.wide, text_wide(title, LARGE) + 2 * MARGIN)
    head = ['<?xml version="1.0" encoding="UTF-8"?>',
            '<svg xmlns="http://www.w3.org/2000/svg" width="%s" height="%s" viewBox="0 0 %s %s">' % (n(wide), n(drawing.high), n(wide), n(drawing.high)),
            "<title>%s</title>" % plain(title), "<style>%s</style>" % STYLE, '<rect class="paper" width="100%" height="100%"/>',
            text(wide / 2, 15, title, LARGE, "middle")]
    return "\n".join(head + drawing.groups() + ["</svg>"]) + "\n"
