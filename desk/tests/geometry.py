"""A picture judged by what is drawn: an SVG is read as a person sees it, its shapes by their lines, its wires by their lines and dots."""
from __future__ import annotations

import re
import xml.etree.ElementTree as ElementTree
from bisect import bisect_left, bisect_right
from dataclasses import dataclass, field

SVG = "{http://www.w3.org/2000/svg}"
NUMBER = re.compile(r"-?\d+(?:\.\d+)?")
#: a wire keeps so far from terminals that are not its own
FAR = 3.0
STEP = 2.0

Point = tuple[float, float]
Line = tuple[float, float, float, float]


@dataclass
class Shape:
    """A gate, a point or a closed box: the rectangle that its body fills, and its terminals at both sides."""

    what: str
    left: float
    top: float
    right: float
    bottom: float
    terminals: list[Point] = field(default_factory=list)


@dataclass
class Picture:
    """All that is drawn: shapes, wires by net, dots by net, pins by side in document order, and the boxes that stand open."""

    shapes: list[Shape] = field(default_factory=list)
    wires: dict[str, list[Line]] = field(default_factory=dict)
    dots: dict[str, list[Point]] = field(default_factory=dict)
    pins: dict[str, list[tuple[str, Point]]] = field(default_factory=lambda: {"in": [], "out": []})
    boxes: list[Shape] = field(default_factory=list)
    wide: float = 0
    high: float = 0


def strokes(data: str) -> list[list[Point]]:
    """The lines of a path that has only M, L, Z and, of a point, a."""
    found: list[list[Point]] = []
    for word in re.findall(r"[MLaZ][^MLaZ]*", data):
        numbers = [float(x) for x in NUMBER.findall(word)]
        if word[0] == "M":
            found.append([(numbers[0], numbers[1])])
        elif word[0] == "L":
            found[-1].append((numbers[0], numbers[1]))
        elif word[0] == "a":
            x, y = found[-1][-1]
            found[-1].append((x + numbers[5], y + numbers[6]))
    return found


def picture(text: str) -> Picture:
    root = ElementTree.fromstring(text)
    drawn = Picture(wide=float(root.get("width")), high=float(root.get("height")))
    for group in root.iter(SVG + "g"):
        words = (group.get("class") or "").split()
        lines = [points for path in group.findall(SVG + "path") for points in strokes(path.get("d"))]
        if "gate" in words:
            drawn.shapes.append(gate(" ".join(words[1:]) + " " + group.get("data-first"), lines))
        elif "pin" in words:
            tip = max(lines[0]) if "in" in words else (min(lines[0])[0], max(lines[0])[1])
            drawn.pins[words[1]].append((group.get("data-name"), tip))
            drawn.shapes.append(around("pin " + group.get("data-name"), lines))
        elif "box" in words:
            rect = group.find(SVG + "rect")
            x, y, w, h = (float(rect.get(k)) for k in ("x", "y", "width", "height"))
            shape = Shape("box " + group.get("data-name"), x, y, x + w, y + h)
            (drawn.shapes if "closed" in words else drawn.boxes).append(shape)
        elif "net" in words:
            net = group.get("data-net")
            drawn.wires.setdefault(net, []).extend((*a, *b) for line in lines for a, b in zip(line, line[1:]))
            drawn.dots.setdefault(net, []).extend((float(c.get("cx")), float(c.get("cy"))) for c in group.findall(SVG + "circle"))
    return drawn


def around(what: str, lines: list[list[Point]]) -> Shape:
    xs, ys = [x for line in lines for x, _ in line], [y for line in lines for _, y in line]
    return Shape(what, min(xs), min(ys), max(xs), max(ys))


def gate(what: str, lines: list[list[Point]]) -> Shape:
    """Leads are level lines of two points that end at the shape's left or right; what is left is the body, a lead's other end is inside it."""
    whole = around(what, lines)
    leads = [line for line in lines if len(line) == 2 and line[0][1] == line[1][1]]
    body = around(what, [line for line in lines if line not in leads])
    ends = [min(line) for line in leads if min(line)[0] == whole.left and min(line)[0] < body.left] if what.split()[0] not in ("zero", "one") else []
    out = max(max(line) for line in leads)
    body.terminals = ends + [out]
    return body


def samples(line: Line) -> list[Point]:
    ax, ay, bx, by = line
    count = max(int((abs(bx - ax) + abs(by - ay)) / STEP), 1)
    return [(ax + (bx - ax) * i / count, ay + (by - ay) * i / count) for i in range(count + 1)]


def near(value: float, other: float, far: float = 0.3) -> bool:
    return abs(value - other) <= far


def faults(drawn: Picture, limit: int = 3) -> list[str]:
    """What looks joined and is not, or the other way round."""
    found: list[str] = []
    for net, lines in drawn.wires.items():
        ends = [p for line in lines for p in (line[:2], line[2:])]
        for shape in drawn.shapes:
            found += over(net, lines, ends, shape)
        if len(found) > limit:
            return found
    return found + overlaps(drawn) + dots(drawn)


def over(net: str, lines: list[Line], ends: list[Point], shape: Shape) -> list[str]:
    """A wire over a shape's body, or by a terminal at which it does not end."""
    foreign = [t for t in shape.terminals if not any(near(t[0], x) and near(t[1], y) for x, y in ends)]
    for line in lines:
        if max(line[0], line[2]) < shape.left - 80 or min(line[0], line[2]) > shape.right + 80:
            continue
        for x, y in samples(line):
            if shape.left + 0.3 < x < shape.right - 0.3 and shape.top + 0.3 < y < shape.bottom - 0.3:
                return ["net %s passes over %s at %g,%g" % (net, shape.what, x, y)]
            for tx, ty in foreign:
                if (x - tx) ** 2 + (y - ty) ** 2 < FAR * FAR:
                    return ["net %s passes a terminal of %s at %g,%g" % (net, shape.what, x, y)]
    return []


def level(lines: list[Line]) -> list[tuple[float, float, float]]:
    return [(y, min(a, b), max(a, b)) for a, y, b, z in lines if y == z]


def upright(lines: list[Line]) -> list[tuple[float, float, float]]:
    return [(x, min(a, b), max(a, b)) for x, a, z, b in lines if x == z and a != b]


def overlaps(drawn: Picture) -> list[str]:
    """Two nets closer than FAR side by side, or one that ends on the other."""
    found = []
    for side in (level, upright):
        lines = sorted((at, low, high, net) for net, all_ in drawn.wires.items() for at, low, high in side(all_))
        for i, (at, low, high, net) in enumerate(lines):
            for other in lines[i + 1:]:
                if other[0] - at >= FAR:
                    break
                if other[3] != net and other[1] < high + FAR and low < other[2] + FAR:
                    found.append("nets %s and %s run together at %g" % (net, other[3], at))
    across = sorted((y, low, high, net) for net, all_ in drawn.wires.items() for y, low, high in level(all_))
    heights = [line[0] for line in across]
    for net, all_ in drawn.wires.items():
        for x, top, bottom in upright(all_):
            for y, low, high, other in across[bisect_right(heights, top - FAR):bisect_left(heights, bottom + FAR)]:
                if other != net and low - FAR < x < high + FAR:
                    inside = low + FAR <= x <= high - FAR and top + FAR <= y <= bottom - FAR
                    if not inside:
                        found.append("net %s touches net %s at %g,%g" % (net, other, x, y))
    return found


def dots(drawn: Picture) -> list[str]:
    """A dot where three or more pieces of a net meet, and nowhere else."""
    found = []
    for net, lines in drawn.wires.items():
        corners = {(x, y) for line in lines for x, y in (line[:2], line[2:])}
        crossings = {(x, y) for x, top, bottom in upright(lines) for y, low, high in level(lines) if low <= x <= high and top <= y <= bottom}
        meet = {p for p in corners | crossings if arms(p, lines) > 2}
        drawn_dots = set(drawn.dots.get(net, []))
        if {(round(x, 1), round(y, 1)) for x, y in meet} != {(round(x, 1), round(y, 1)) for x, y in drawn_dots}:
            found.append("net %s forks at %s and has dots at %s" % (net, sorted(meet)[:4], sorted(drawn_dots)[:4]))
    return found


def arms(point: Point, lines: list[Line]) -> int:
    """How many directions a net leaves a point in."""
    x, y = point
    found = set()
    for at, low, high in level(lines):
        if at == y and low <= x <= high:
            found |= {"west"} if low < x else set()
            found |= {"east"} if x < high else set()
    for at, low, high in upright(lines):
        if at == x and low <= y <= high:
            found |= {"north"} if low < y else set()
            found |= {"south"} if y < high else set()
    return len(found)


def joins(drawn: Picture, net: str, places: list[Point]) -> bool:
    """Whether the lines of a net hang together and reach all these places."""
    lines = drawn.wires.get(net, [])
    left = list(lines)
    reached = [places[0]] if places else []
    seen: list[Line] = []
    while True:
        more = [line for line in left if any(on(p, line) for p in reached) or any(meets(line, other) for other in seen)]
        if not more:
            break
        seen += more
        left = [line for line in left if line not in more]
        reached = []
    return not left and all(any(on(p, line) for line in seen) for p in places)


def on(point: Point, line: Line) -> bool:
    x, y = point
    return min(line[0], line[2]) - 0.3 <= x <= max(line[0], line[2]) + 0.3 and min(line[1], line[3]) - 0.3 <= y <= max(line[1], line[3]) + 0.3


def meets(line: Line, other: Line) -> bool:
    """Whether two lines of one net touch or cross: that there is a dot then, `dots` sees to."""
    return all(min(line[i], line[i + 2]) - 0.3 <= max(other[i], other[i + 2]) and min(other[i], other[i + 2]) - 0.3 <= max(line[i], line[i + 2]) for i in (0, 1))
