"""Which piece stands above which in a column: few crossings, by means of neighbours (after Sugiyama, Tagawa and Toda)."""
from __future__ import annotations

from bisect import bisect_left, insort

from .frame import Piece, Port

Columns = list[list[Piece]]
SWEEPS = 10


def ordered(columns: Columns, left: list[Port], right: list[Port]) -> None:
    """Sorts the pieces of each column in place; ports at the sides stay in their order."""
    best, fewest = [list(c) for c in columns], crossings(columns, left, right)
    for _ in range(SWEEPS):
        sweep(columns, left, range(len(columns)), "ins", "outs")
        sweep(columns, right, range(len(columns) - 1, -1, -1), "outs", "ins")
        now = crossings(columns, left, right)
        if now < fewest:
            best, fewest = [list(c) for c in columns], now
    for column, kept in zip(columns, best):
        column[:] = kept


def heights(column: list[Piece], side: str) -> dict[int, list[float]]:
    """For each net where it stands at a side of a column, from 0 at the top to 1."""
    found: dict[int, list[float]] = {}
    for at, piece in enumerate(column):
        for port in getattr(piece, side):
            found.setdefault(port.net, []).append((at + (port.y + 1) / (piece.high + 2)) / len(column))
    return found


def port_heights(ports: list[Port]) -> dict[int, list[float]]:
    found: dict[int, list[float]] = {}
    for at, port in enumerate(ports):
        found.setdefault(port.net, []).append((at + 0.5) / len(ports))
    return found


def sweep(columns: Columns, edge: list[Port], numbers: range, near: str, far: str) -> None:
    """Each column by the means of what its nets are at in the column before it."""
    before = port_heights(edge)
    for number in numbers:
        column = columns[number]
        mean = {}
        for at, piece in enumerate(column):
            places = [sum(before[p.net]) / len(before[p.net]) for p in getattr(piece, near) if p.net in before]
            mean[piece] = sum(places) / len(places) if places else (at + 0.5) / len(column)
        column.sort(key=mean.__getitem__)
        before = heights(column, far)


def crossings(columns: Columns, left: list[Port], right: list[Port]) -> int:
    """How often wires cross in the channels, counted pair by pair of their ends."""
    total, before = 0, port_heights(left)
    for column in columns:
        total += inversions(before, heights(column, "ins"))
        before = heights(column, "outs")
    return total + inversions(before, port_heights(right))


def inversions(before: dict[int, list[float]], after: dict[int, list[float]]) -> int:
    ends = sorted((a, b) for net in before if net in after for a in before[net] for b in after[net])
    seen: list[float] = []
    count = 0
    for _, b in ends:
        count += len(seen) - bisect_left(seen, b + 1e-9)
        insort(seen, b)
    return count
