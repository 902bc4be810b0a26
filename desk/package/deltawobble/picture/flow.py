"""Which piece stands in which column: readers to the right of drivers, but for feedback; and where a wide picture is wrapped."""
from __future__ import annotations

import math

from .frame import WIDE, Frame

#: what a column takes with its channel, about; and how wide a picture may be before it is wrapped
COLUMN, WIDEST = 100, 1300


def readers_of(frame: Frame) -> dict[int, list[int]]:
    """For each net the pieces that read it, by their place in the frame."""
    found: dict[int, list[int]] = {}
    for at, piece in enumerate(frame.pieces):
        for port in piece.ins:
            found.setdefault(port.net, []).append(at)
    return found


def forward(frame: Frame) -> tuple[list[list[int]], list[int]]:
    """For each piece those that read it without closing a ring, and all pieces so that a reader stands behind what it reads.

    The walk goes from the left ports on, in their order, so a ring is closed where it comes back to where it was entered.
    """
    readers = readers_of(frame)
    after = [[r for port in piece.outs for r in readers.get(port.net, [])] for piece in frame.pieces]
    first = [r for port in frame.left for r in readers.get(port.net, [])]
    ahead: list[list[int]] = [[] for _ in frame.pieces]
    state = [0] * len(frame.pieces)
    done: list[int] = []
    for start in first + [i for i, p in enumerate(frame.pieces) if not p.ins] + list(range(len(frame.pieces))):
        if state[start]:
            continue
        state[start] = 1
        path = [(start, iter(after[start]))]
        while path:
            at, rest = path[-1]
            reader = next(rest, None)
            if reader is None:
                path.pop()
                state[at] = 2
                done.append(at)
            elif state[reader] != 1:
                ahead[at].append(reader)
                if not state[reader]:
                    state[reader] = 1
                    path.append((reader, iter(after[reader])))
    return ahead, done[::-1]


def columns(frame: Frame) -> list[int]:
    """A column for each piece, from 0: as far left as its drivers let it, then as far right as shortens its wires."""
    ahead, order = forward(frame)
    column = [0] * len(frame.pieces)
    for at in order:
        for reader in ahead[at]:
            column[reader] = max(column[reader], column[at] + 1)
    shared = {net: max(column[r] for r in rs) for net, rs in readers_of(frame).items()}
    for at in reversed(order):
        piece = frame.pieces[at]
        if not ahead[at]:
            continue
        goal = min(column[r] for r in ahead[at]) - 1
        longer = sum(1 for port in piece.ins if shared[port.net] <= column[at])
        if goal > column[at] and longer < max(len(piece.outs), 1):
            column[at] = goal
    spread(frame, column)
    dense = {old: new for new, old in enumerate(sorted(set(column)))}
    return [dense[c] for c in column]


def spread(frame: Frame, column: list[int]) -> None:
    """Pieces that no wire leads to or from are spread over the columns, and not piled up in the first."""
    read = {port.net for piece in frame.pieces for port in piece.ins} | {port.net for port in frame.right}
    alone = [at for at, piece in enumerate(frame.pieces) if not piece.ins and not any(port.net in read for port in piece.outs)]
    count = max(max(column, default=0) + 1, math.isqrt(len(alone)))
    for place, at in enumerate(alone):
        column[at] = place % count


def bands(frame: Frame, column: list[int], high: float) -> list[int]:
    """How many columns each row of a wrapped picture has; `high` is about the height of one row."""
    count = max(column, default=0) + 1
    wide = sum(max((p.wide for p, c in zip(frame.pieces, column) if c == k), default=0) + COLUMN - WIDE for k in range(count))
    goal = max(WIDEST, math.sqrt(wide * (high + 40) * 1.7))
    rows = max(1, math.ceil(wide / goal - 0.15))
    if rows == 1:
        return [count]
    crossing = crossed(frame, column, count)
    cuts = [0]
    for row in range(1, rows):
        ideal = round(row * count / rows)
        near = [k for k in range(ideal - 2, ideal + 3) if cuts[-1] < k < count]
        if near:
            cuts.append(min(near, key=lambda k: (crossing[k], abs(k - ideal))))
    return [b - a for a, b in zip(cuts, cuts[1:] + [count])]


def crossed(frame: Frame, column: list[int], count: int) -> list[int]:
    """How many nets pass from the columns before k to those from k on."""
    found = [0] * (count + 1)
    readers = readers_of(frame)
    for at, piece in enumerate(frame.pieces):
        for port in piece.outs:
            places = [column[at]] + [column[r] for r in readers.get(port.net, [])]
            for k in range(min(places) + 1, max(places) + 1):
                found[k] += 1
    return found
