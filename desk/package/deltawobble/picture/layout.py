"""A frame laid out: columns in one row or in several, channels between them, one channel at either side of all rows, and streets between rows
in which nets come back from the right side to the left."""
from __future__ import annotations

from . import flow, heights, order
from .channels import Channel
from .frame import GRID, Frame, Piece, Port, Wire, text_wide, up

#: from the frame's top to the first piece, and from the last to its bottom
TOP, BOTTOM = 20, 10
GAP = "gap"


class Row:
    """Columns side by side, and the channels between them; the first and the last channel are shared by all rows."""

    def __init__(self, columns: list[list[Piece]], left: Channel, right: Channel):
        self.columns = columns
        self.channels = [left] + [Channel() for _ in columns[1:]] + [right]
        self.top = 0.0


class Layout:
    """The work on one frame."""

    def __init__(self, frame: Frame):
        self.frame = frame
        self.left, self.right = Channel(), Channel()
        self.rows: list[Row] = []
        self.streets: list[list[int]] = []
        self.read: set[int] = set()

    def run(self) -> None:
        for piece in self.frame.pieces:
            if piece.inner:
                open_box(piece)
        self.read = {p.net for piece in self.frame.pieces for p in piece.ins} | {p.net for p in self.frame.right}
        self.make_rows()
        self.lead_nets()
        for row in self.rows:
            order.ordered(row.columns, self.frame.left, self.frame.right)
            heights.placed(row.columns)
        self.stack()
        self.sides()
        self.fill_channels()
        self.put()
        self.draw()

    # ---- rows and gaps

    def make_rows(self) -> None:
        column = flow.columns(self.frame)
        by_column: list[list[Piece]] = [[] for _ in range(max(column, default=-1) + 1)]
        for piece, number in zip(self.frame.pieces, column):
            by_column[number].append(piece)
        tallest = max((sum(p.high + GRID for p in c) for c in by_column), default=0)
        at = 0
        for count in flow.bands(self.frame, column, tallest) if by_column else []:
            self.rows.append(Row(by_column[at:at + count], self.left, self.right))
            at += count
        self.streets = [[] for _ in self.rows[1:]]

    def lead_nets(self) -> None:
        """Each net is led through the columns between its ends, by one gap in each; through a street where it changes the row."""
        home = {port.net: (r, c) for r, row in enumerate(self.rows) for c, column in enumerate(row.columns) for piece in column for port in piece.outs}
        reads: dict[int, list[tuple[int, int]]] = {}
        for r, row in enumerate(self.rows):
            for c, column in enumerate(row.columns):
                for piece in column:
                    for port in piece.ins:
                        reads.setdefault(port.net, []).append((r, c))
        outside = {port.net for port in self.frame.right}
        entering = {port.net for port in self.frame.left}
        for net in sorted(set(home) | set(reads) | outside):
            self.lead(net, home.get(net), reads.get(net, []), net in outside, net in entering)

    def lead(self, net: int, home, reads: list[tuple[int, int]], outside: bool, entering: bool) -> None:
        rows = {r for r, _ in reads} | ({home[0]} if home else set())
        others = rows - {home[0]} if home else set()
        if home and others:
            street = min(home[0], len(self.streets) - 1) if max(others) > home[0] else home[0] - 1
            self.streets[street].append(net)
        if not home and outside:
            # from the left side to the right one, through the row that reads it, or the first
            rows = rows or ({0} if self.rows else set())
            through = min(rows, default=None)
        else:
            through = None
        for r in rows:
            ends = [c for row, c in reads if row == r]
            channels = list(ends)
            if home and home[0] == r:
                channels.append(home[1] + 1)
                if outside or others:
                    channels.append(len(self.rows[r].columns))
            else:
                channels.append(0)
            if through == r:
                channels.append(len(self.rows[r].columns))
            for c in range(min(channels), max(channels)):
                add_gap(self.rows[r].columns[c], net)

    # ---- heights of rows, streets and ports at the sides

    def stack(self) -> None:
        y: float = TOP
        for number, row in enumerate(self.rows):
            row.top = y
            for column in row.columns:
                for piece in column:
                    piece.y += y
            y = max([y] + [p.y + p.high for c in row.columns for p in c])
            if number < len(self.streets):
                for net in sorted(self.streets[number]):
                    y = up(y + GRID)
                    self.left.add("right", net, y)
                    self.right.add("left", net, y)
                y = up(y + 2 * GRID)

    def sides(self) -> None:
        """Ports at the sides, as near as can be to where their nets come in or go out, in their order."""
        first = [(p.net, piece.y + p.y) for row in self.rows for piece in (row.columns[0] if row.columns else []) for p in piece.ins]
        last = [(p.net, piece.y + p.y) for row in self.rows for piece in (row.columns[-1] if row.columns else []) for p in piece.outs]
        for ports, ends in ((self.frame.left, first), (self.frame.right, last)):
            known: dict[int, list[float]] = {}
            for net, y in ends:
                known.setdefault(net, []).append(y)
            wished: list[float] = []
            for port in ports:
                before = wished[-1] + 2 * GRID if wished else TOP
                wished.append(known[port.net].pop(0) if len(known.get(port.net, [])) > 1 else known.get(port.net, [before])[0])
            for port, y in zip(ports, heights.side_heights(wished, [2 * GRID] * (len(ports) - 1))):
                port.y = y
        self.level()

    def level(self) -> None:
        """The highest port or piece stands at the top."""
        lift = min([0] + [port.y - TOP for port in self.frame.left + self.frame.right])
        if lift:
            for port in self.frame.left + self.frame.right:
                port.y -= lift
            for row in self.rows:
                for column in row.columns:
                    for piece in column:
                        piece.y -= lift
            for side, channel in (("right", self.left), ("left", self.right)):
                for ys in getattr(channel, side).values():
                    ys[:] = [y - lift for y in ys]

    def fill_channels(self) -> None:
        for row in self.rows:
            for number, column in enumerate(row.columns):
                for piece in column:
                    for port in piece.ins:
                        row.channels[number].add("right", port.net, piece.y + port.y)
                    for port in piece.outs:
                        row.channels[number + 1].add("left", port.net, piece.y + port.y)
        for port in self.frame.left:
            self.left.add("left", port.net, port.y)
        for port in self.frame.right:
            self.right.add("right", port.net, port.y)
        if not self.rows:
            for port in self.frame.left:
                if port.net in self.read:
                    self.left.add("right", port.net, port.y)
                    self.right.add("left", port.net, port.y)

    # ---- places from left to right

    def put(self) -> None:
        for channel in {id(c): c for row in self.rows for c in row.channels}.values():
            channel.route()
        if not self.rows:
            self.left.route()
            self.right.route()
        far = self.left.wide
        for row in self.rows:
            x = self.left.wide
            for number, column in enumerate(row.columns):
                if number:
                    row.channels[number].x = x
                    x += row.channels[number].wide
                wide = max((p.wide for p in column), default=0)
                for piece in column:
                    piece.x = x + (0 if piece.kind == GAP else (wide - piece.wide) // 2)
                    if piece.kind == GAP:
                        piece.wide = wide
                x += wide
            far = max(far, x)
        self.right.x = far
        self.right.wide = max(self.right.wide, self.frame.wide - far)
        self.frame.wide = far + self.right.wide
        bottoms = [p.y + p.high for row in self.rows for c in row.columns for p in c] + [port.y + GRID for port in self.frame.left + self.frame.right]
        streets = [y for ys in self.left.right.values() for y in ys]
        self.frame.high = up(max(bottoms + streets, default=TOP) + BOTTOM)

    # ---- wires

    def draw(self) -> None:
        channels = {id(c): c for row in self.rows for c in row.channels} or {0: self.left, 1: self.right}
        nets = sorted({net for c in channels.values() for net in list(c.left) + list(c.right)})
        wires = {net: Wire(net) for net in nets}
        for channel in channels.values():
            channel.draw(wires, channel.x + channel.wide)
        for row in self.rows:
            for number, column in enumerate(row.columns):
                # a row that is not the widest reaches the right side by longer wires
                start, end = row.channels[number].x + row.channels[number].wide, row.channels[number + 1].x
                for piece in column:
                    self.draw_ends(piece, wires, start, end)
        for number in range(len(self.streets)):
            for net in self.streets[number]:
                y = self.street_height(net)
                wires[net].segments.append((self.left.x + self.left.wide, y, self.right.x, y))
        self.frame.wires = [wire for wire in wires.values() if wire.segments]
        self.frame.pieces = [p for p in self.frame.pieces if p.kind != GAP]

    def street_height(self, net: int) -> float:
        return next(y for y in self.right.left[net] if y in self.left.right[net] and not self.ends_at(net, y))

    def ends_at(self, net: int, y: float) -> bool:
        return any(p.y + port.y == y for row in self.rows for p in row.columns[-1] for port in p.outs if port.net == net)

    def draw_ends(self, piece: Piece, wires: dict[int, Wire], start: float, end: float) -> None:
        """Level pieces from a column's sides to what stands in it; through a gap one piece."""
        if piece.kind == GAP:
            wires[piece.ins[0].net].segments.append((start, piece.y, end, piece.y))
            return
        for port in piece.ins:
            if piece.x > start:
                wires[port.net].segments.append((start, piece.y + port.y, piece.x, piece.y + port.y))
        for port in piece.outs:
            if piece.x + piece.wide < end and port.net in self.read:
                wires[port.net].segments.append((piece.x + piece.wide, piece.y + port.y, end, piece.y + port.y))


def add_gap(column: list[Piece], net: int) -> None:
    """A gap for a net, below the piece of the column that it belongs to, if there is one."""
    near = next((at for at, piece in enumerate(column) if any(port.net == net for port in piece.outs + piece.ins)), len(column))
    column.insert(near + 1, Piece(GAP, -1, 0, 0, [Port(net, 0)], [Port(net, 0)]))


def open_box(piece: Piece) -> None:
    """An open box is as large as its inside; its ports stand where the inside has them."""
    inner = piece.inner
    assert inner is not None
    inner.wide = text_wide(inner.name, 9) + 16
    lay_out(inner)
    piece.wide, piece.high = inner.wide, inner.high
    piece.ins = [Port(p.net, p.y, p.name) for p in inner.left]
    piece.outs = [Port(p.net, p.y, p.name) for p in inner.right]


def lay_out(frame: Frame) -> Frame:
    """Gives pieces, ports and wires their places."""
    Layout(frame).run()
    return frame
