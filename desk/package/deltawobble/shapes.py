"""The shapes of gates, as lines in a box of 64 by 40."""
from __future__ import annotations

import math

WIDE, HIGH = 64, 40
Line = list[tuple[float, float]]


def _arc(x: float, y: float, rx: float, ry: float, first: float, last: float) -> Line:
    """Part of an ellipse, angles in degrees, 0 to the right and 90 down."""
    steps = 24
    angles = [math.radians(first + (last - first) * i / steps) for i in range(steps + 1)]
    return [(x + rx * math.cos(a), y + ry * math.sin(a)) for a in angles]


def _bow(x: float) -> Line:
    """The hollow back of an or."""
    return _arc(x - 26, 20, 32, 26, -41, 41)


def _or() -> list[Line]:
    back = _bow(8)
    (tx, ty), (bx, by) = back[0], back[-1]
    top = [(tx + (54 - tx) * t, ty + (20 - ty) * t * t) for t in (i / 20 for i in range(21))]
    low = [(bx + (54 - bx) * t, by + (20 - by) * t * t) for t in (i / 20 for i in range(21))]
    return [back, top, low]


LEADS_2: list[Line] = [[(0, 10), (13, 10)], [(0, 30), (13, 30)], [(54, 20), (64, 20)]]
#: each shape with its leads: the inputs end at the left, the output at the right
SHAPES: dict[str, list[Line]] = {
    "and": [[(33, 3), (12, 3), (12, 37), (33, 37)], _arc(33, 20, 21, 17, -90, 90), [(0, 10), (12, 10)], [(0, 30), (12, 30)], [(54, 20), (64, 20)]],
    "or": _or() + LEADS_2,
    "xor": _or() + [_bow(2)] + [[(0, 10), (7, 10)], [(0, 30), (7, 30)], [(54, 20), (64, 20)]],
    "inv": [[(14, 4), (14, 36), (44, 20), (14, 4)], _arc(48, 20, 4, 4, 0, 360), [(0, 20), (14, 20)], [(52, 20), (64, 20)]],
    "reg": [[(14, 2), (50, 2), (50, 38), (14, 38), (14, 2)], [(26, 38), (32, 29), (38, 38)], [(0, 20), (14, 20)], [(50, 20), (64, 20)]],
    "zero": [_arc(32, 20, 14, 14, 0, 360), _arc(32, 20, 4, 7, 0, 360), [(46, 20), (64, 20)]],
    "one": [_arc(32, 20, 14, 14, 0, 360), [(28, 16), (33, 12), (33, 28)], [(46, 20), (64, 20)]]}


def line(name: str, x: float, y: float, width: float, height: float) -> str:
    """The data of an SVG path: a shape in a box."""
    def words(points: Line) -> str:
        return "M" + " L".join("%.1f,%.1f" % (x + px * width / WIDE, y + py * height / HIGH) for px, py in points)
    return " ".join(words(points) for points in SHAPES[name])
