"""What a picture is made of. Lengths are points; heights of ports are multiples of GRID, so that wires run straight."""
from __future__ import annotations

from dataclasses import dataclass, field
from typing import Any, Optional

GRID = 10
#: a shape's box (shapes.py)
WIDE, HIGH = 64, 40

Segment = tuple[float, float, float, float]


@dataclass
class Port:
    """Where a net meets a piece or a frame: its height below the top, and a name where it has one."""

    net: int
    y: float
    name: str = ""


@dataclass(eq=False)
class Piece:
    """What stands in a column: an element, a box, or a gap (`kind` gap) that leads a net through the column."""

    kind: str
    key: int
    wide: float
    high: float
    ins: list[Port] = field(default_factory=list)
    outs: list[Port] = field(default_factory=list)
    #: the wire's name, to the right of the output; what stands below the shape
    name: str = ""
    below: list[str] = field(default_factory=list)
    element: Any = None
    #: an open box's inside
    inner: Optional["Frame"] = None
    x: float = 0
    y: float = 0


@dataclass
class Wire:
    """All of a net that is drawn in one frame: straight segments, and the places where it forks."""

    net: int
    segments: list[Segment] = field(default_factory=list)
    forks: list[tuple[float, float]] = field(default_factory=list)


@dataclass
class Frame:
    """The sheet, or an open box: pieces, and ports at both sides, in order. `lay_out` fills in places, wires and the size."""

    pieces: list[Piece]
    left: list[Port]
    right: list[Port]
    name: str = ""
    wires: list[Wire] = field(default_factory=list)
    wide: float = 0
    high: float = 0

    @property
    def all_pieces(self) -> list[Piece]:
        """The pieces of this frame and of those inside it."""
        return self.pieces + [p for piece in self.pieces if piece.inner for p in piece.inner.all_pieces]


def text_wide(text: str, size: float) -> float:
    """About how wide a text is."""
    return len(text) * size * 0.58


def up(value: float, grid: int = GRID) -> float:
    """The next multiple of the grid."""
    return -(-value // grid) * grid
