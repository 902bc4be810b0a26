"""How high each piece stands. Pieces of neighbouring columns that a wire can join without a bend form a row; rows are then moved to where
their other wires are short (after Brandes and Koepf)."""
from __future__ import annotations

from statistics import median_low

from .frame import GRID, Piece, Port

Columns = list[list[Piece]]
ROUNDS = 12


class Row:
    """Pieces that move together, each with its height below the row's own."""

    def __init__(self, piece: Piece):
        self.pieces = {piece: 0.0}
        self.y = 0.0


def placed(columns: Columns) -> None:
    """Gives each piece its height; the highest stands at 0."""
    rows = rows_of(columns)
    above, below = neighbours(columns, rows)
    pulls = pulls_of(columns, rows)
    order = sorted_rows(columns, rows, below)
    for row in order:
        row.y = max((other.y + far for other, far in above[row]), default=0.0)
    for number in range(ROUNDS):
        for row in order[::-1] if number % 2 == 0 else order:
            move(row, pulls[row], above[row], below[row])
    for row in order:
        for piece, offset in row.pieces.items():
            piece.y = row.y + offset
    top = min((piece.y for column in columns for piece in column), default=0)
    for column in columns:
        for piece in column:
            piece.y -= top


def move(row: Row, pulls: list[tuple[Row, float]], above: list[tuple[Row, float]], below: list[tuple[Row, float]]) -> None:
    """As near to the middle of its neighbours as the rows above and below let it."""
    if not pulls:
        return
    goal = median_low([other.y + far for other, far in pulls])
    low = max((other.y + far for other, far in above), default=float("-inf"))
    high = min((other.y - far for other, far in below), default=float("inf"))
    row.y = min(max(goal, low), max(high, low))


def rows_of(columns: Columns) -> dict[Piece, Row]:
    """The row of each piece."""
    row = {piece: Row(piece) for column in columns for piece in column}
    for left, right in zip(columns, columns[1:]):
        for a, b, offset in links(left, right):
            first, second = row[a], row[b]
            shift = first.pieces[a] + offset - second.pieces[b]
            for piece, y in second.pieces.items():
                first.pieces[piece] = y + shift
                row[piece] = first
    return row


def links(left: list[Piece], right: list[Piece]) -> list[tuple[Piece, Piece, float]]:
    """Pairs of neighbours that a straight wire joins, none crossing another, and how much lower the right one's top stands."""
    place = {piece: at for column in (left, right) for at, piece in enumerate(column)}
    wished = []
    for b in right:
        for port in b.ins:
            for a, out in outs_at(left, port.net):
                wished.append((-rank(a, b), abs(place[a] / len(left) - place[b] / len(right)), a, b, out.y - port.y))
    kept: list[tuple[int, int]] = []
    found = []
    for _, _, a, b, offset in sorted(wished, key=lambda w: w[:2]):
        here = (place[a], place[b])
        if all((here[0] - x) * (here[1] - y) > 0 for x, y in kept):
            kept.append(here)
            found.append((a, b, offset))
    return found


def rank(a: Piece, b: Piece) -> int:
    """Which straight wires are kept before others: those of shift registers, then long wires, then those that end here alone."""
    if a.kind == b.kind == "reg":
        return 3
    if a.kind == b.kind == "gap":
        return 2
    return int(len(a.outs) == len(b.ins) == 1)


def outs_at(column: list[Piece], net: int) -> list[tuple[Piece, Port]]:
    return [(piece, port) for piece in column for port in piece.outs if port.net == net]


def apart(upper: Piece, lower: Piece) -> float:
    """How much lower the top of the next piece in a column stands, at the least."""
    return upper.high + GRID


def neighbours(columns: Columns, row: dict[Piece, Row]) -> tuple[dict, dict]:
    """For each row those above it and those below it, with the least distance of their own heights."""
    above: dict[Row, dict[Row, float]] = {r: {} for r in row.values()}
    below: dict[Row, dict[Row, float]] = {r: {} for r in row.values()}
    for column in columns:
        for upper, lower in zip(column, column[1:]):
            a, b = row[upper], row[lower]
            far = a.pieces[upper] + apart(upper, lower) - b.pieces[lower]
            above[b][a] = max(far, above[b].get(a, far))
            below[a][b] = above[b][a]
    return ({r: list(others.items()) for r, others in above.items()}, {r: list(others.items()) for r, others in below.items()})


def pulls_of(columns: Columns, row: dict[Piece, Row]) -> dict[Row, list[tuple[Row, float]]]:
    """For each row the others that its wires lead to, and the height against theirs at which the wire is straight."""
    pulls: dict[Row, list[tuple[Row, float]]] = {r: [] for r in row.values()}
    for left, right in zip(columns, columns[1:]):
        at: dict[int, list[tuple[Piece, Port]]] = {}
        for piece in left:
            for port in piece.outs:
                at.setdefault(port.net, []).append((piece, port))
        for b in right:
            for port in b.ins:
                for a, out in at.get(port.net, []):
                    if row[a] is not row[b]:
                        far = row[a].pieces[a] + out.y - row[b].pieces[b] - port.y
                        pulls[row[b]].append((row[a], far))
                        pulls[row[a]].append((row[b], -far))
    return pulls


def sorted_rows(columns: Columns, row: dict[Piece, Row], below: dict[Row, list[tuple[Row, float]]]) -> list[Row]:
    """The rows, each behind those above it."""
    waiting = {r: 0 for r in row.values()}
    for others in below.values():
        for other, _ in others:
            waiting[other] += 1
    ready = [r for r, count in waiting.items() if not count]
    order = []
    while ready:
        r = ready.pop()
        order.append(r)
        for other, _ in below[r]:
            waiting[other] -= 1
            if not waiting[other]:
                ready.append(other)
    return order


def side_heights(wished: list[float], apart: list[float]) -> list[float]:
    """Heights in order, each at least so far below the one before, as near as can be to what is wished (pools of neighbours)."""
    offsets = [0.0]
    for far in apart:
        offsets.append(offsets[-1] + far)
    pools: list[list[float]] = []
    for wish, offset in zip(wished, offsets):
        pools.append([wish - offset])
        while len(pools) > 1 and sum(pools[-2]) / len(pools[-2]) > sum(pools[-1]) / len(pools[-1]):
            last = pools.pop()
            pools[-1] += last
    found: list[float] = []
    for pool in pools:
        found += [round(sum(pool) / len(pool) / GRID) * GRID] * len(pool)
    return [base + offset for base, offset in zip(found, offsets)]
