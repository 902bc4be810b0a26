"""Wires in the channel between two columns. A net has one upright trunk there, and a level branch to each of its ends at both sides.

Two nets may have ends at one height, one left and the other right: then the trunk of the one at the left stands left of the other's. Where
that goes round in a ring, a net gets two trunks, one for each side, and a level piece between them at a height that nobody else has.
"""
from __future__ import annotations

from dataclasses import dataclass, field

from .frame import GRID, Segment, Wire

#: between trunks, and from a trunk to the column
TRACK, EDGE = 10, 12
#: more nets are not compared pair by pair
MOST_COMPARED = 120


@dataclass(eq=False)
class Trunk:
    """An upright piece of a net: the heights of its ends at both sides, and of the piece that joins it with the net's other trunk."""

    net: int
    left: list[float]
    right: list[float]
    joins: list[float] = field(default_factory=list)
    track: int = 0

    def __post_init__(self) -> None:
        ends = self.left + self.right + self.joins
        self.low, self.high = min(ends), max(ends)

    def meets(self, other: "Trunk") -> bool:
        """Whether both could not stand in one track."""
        return self.low < other.high + GRID and other.low < self.high + GRID


@dataclass
class Channel:
    """A channel: for each net its heights at the left and at the right side."""

    left: dict[int, list[float]] = field(default_factory=dict)
    right: dict[int, list[float]] = field(default_factory=dict)
    trunks: list[Trunk] = field(default_factory=list)
    straight: list[tuple[int, float]] = field(default_factory=list)
    x: float = 0
    wide: float = 0

    def add(self, side: str, net: int, y: float) -> None:
        getattr(self, side).setdefault(net, []).append(y)

    def route(self) -> None:
        """Chooses the tracks; the channel's width follows."""
        for net in sorted(set(self.left) | set(self.right)):
            left, right = self.left.get(net, []), self.right.get(net, [])
            if len(left) == len(right) == 1 and left == right:
                self.straight.append((net, left[0]))
            elif len(left) + len(right) > 1:
                self.trunks.append(Trunk(net, left, right))
        self.split_rings()
        tracks = self.assign(self.sorted_trunks())
        self.wide = 2 * EDGE + TRACK * max(tracks - 1, 0) if self.trunks else EDGE

    # ---- which trunk stands left of which

    def before(self) -> dict[Trunk, set[Trunk]]:
        """For each trunk those that have to stand left of it."""
        at: dict[float, Trunk] = {y: t for t in self.trunks for y in t.right}
        found: dict[Trunk, set[Trunk]] = {t: set() for t in self.trunks}
        for trunk in self.trunks:
            for y in trunk.left:
                other = at.get(y)
                if other and other is not trunk:
                    found[other].add(trunk)
        for trunk in self.trunks:
            if trunk.joins and trunk.right:
                found[trunk] |= {t for t in self.trunks if t.net == trunk.net and t.left}
        return found

    def split_rings(self) -> None:
        while True:
            ring = ring_in(self.before())
            trunk = next((t for t in ring if t.left and t.right and not t.joins), None)
            if trunk is None:
                return
            y = self.free_height((trunk.low + trunk.high) / 2)
            self.trunks.remove(trunk)
            self.trunks += [Trunk(trunk.net, trunk.left, [], [y]), Trunk(trunk.net, [], trunk.right, [y])]

    def free_height(self, near: float) -> float:
        """A height half way between those of the grid that no other net has here."""
        taken = {y for t in self.trunks for y in t.joins}
        middle = near // GRID * GRID + GRID / 2
        tries = (middle + sign * step * GRID for step in range(len(taken) + 1) for sign in (1, -1))
        return next(y for y in tries if y not in taken)

    def sorted_trunks(self) -> list[Trunk]:
        """From left to right: what has to, and else so that few branches cross trunks."""
        before = self.before()
        order = sorted(self.trunks, key=leaning)
        waiting, done, found = list(order), set(), []
        while waiting:
            trunk = next((t for t in waiting if before[t] <= done), None)
            assert trunk is not None, "a ring of trunks was split"
            waiting.remove(trunk)
            done.add(trunk)
            found.append(trunk)
        if len(found) <= MOST_COMPARED:
            exchange(found, before)
        return found

    def assign(self, order: list[Trunk]) -> int:
        """Tracks from left to right; trunks that don't meet share one. The order stays among those that do, or have to."""
        before = self.before()
        done: list[Trunk] = []
        for trunk in order:
            trunk.track = max((t.track + 1 for t in done if t.meets(trunk) or t in before[trunk]), default=0)
            done.append(trunk)
        return max((t.track + 1 for t in done), default=0)

    # ---- what is drawn

    def draw(self, wires: dict[int, Wire], right_edge: float) -> None:
        """Adds this channel's segments and forks; the channel reaches from x to `right_edge`."""
        for net, y in self.straight:
            wires[net].segments.append((self.x, y, right_edge, y))
        for trunk in self.trunks:
            self.draw_trunk(trunk, wires[trunk.net], right_edge)

    def draw_trunk(self, trunk: Trunk, wire: Wire, right_edge: float) -> None:
        x = self.place(trunk)
        if trunk.high > trunk.low:
            wire.segments.append((x, trunk.low, x, trunk.high))
        branches: list[Segment] = [(self.x, y, x, y) for y in trunk.left] + [(x, y, right_edge, y) for y in trunk.right]
        ends = trunk.left + trunk.right + trunk.joins
        if trunk.left and trunk.joins:
            other = next(t for t in self.trunks if t.net == trunk.net and t is not trunk)
            branches.append((x, trunk.joins[0], self.place(other), trunk.joins[0]))
        wire.segments += [b for b in branches if b[0] != b[2]]
        for y in sorted(set(ends)):
            if ends.count(y) + (y > trunk.low) + (y < trunk.high) > 2:
                wire.forks.append((x, y))

    def place(self, trunk: Trunk) -> float:
        return self.x + EDGE + TRACK * trunk.track


def leaning(trunk: Trunk) -> tuple[float, float]:
    """Of wires that go down the lowest stands leftmost, of wires that go up the highest."""
    left = sum(trunk.left) / len(trunk.left) if trunk.left else trunk.low
    right = sum(trunk.right) / len(trunk.right) if trunk.right else trunk.high
    return (0, -left) if right >= left else (1, left)


def ring_in(before: dict[Trunk, set[Trunk]]) -> list[Trunk]:
    """The trunks of a ring, or none."""
    left = dict(before)
    while True:
        free = [t for t, others in left.items() if not others & left.keys()]
        if not free:
            break
        for t in free:
            del left[t]
    if not left:
        return []
    path = [next(iter(left))]
    while True:
        after = next(t for t in left[path[-1]] if t in left)
        if after in path:
            return path[path.index(after):]
        path.append(after)


def crossed(a: Trunk, b: Trunk) -> int:
    """How many branches cross a trunk where a stands left of b."""
    return sum(a.low < y < a.high for y in b.left) + sum(b.low < y < b.high for y in a.right)


def exchange(order: list[Trunk], before: dict[Trunk, set[Trunk]]) -> None:
    """Neighbours change places while that takes crossings away."""
    for _ in range(len(order)):
        moved = False
        for i in range(len(order) - 1):
            a, b = order[i], order[i + 1]
            if a not in before[b] and crossed(b, a) < crossed(a, b):
                order[i], order[i + 1], moved = b, a, True
        if not moved:
            return
