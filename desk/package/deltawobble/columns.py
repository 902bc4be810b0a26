"""Recorded bits in columns: of each signal the values of so many ticks, one byte a tick. Columns come in pieces, so that memory stays small.

A value is 0 or 1; 2 to 9 are digits that are no bits, 10 is `x` and 11 is `z`, which nobody knows.
"""
from __future__ import annotations

import os
import stat
from typing import Iterator, Optional

X, Z = 10, 11
#: the signs of values, and what they mean
SIGNS = b"0123456789xXzZ"
VALUES = bytes.maketrans(SIGNS, bytes([*range(10), X, X, Z, Z]))
#: only the values that are bits; and whether a value is one
BITS = bytes([0, 1])
KNOWN = bytes([1, 1]) + bytes(254)


class Columns:
    """A file of columns: their `names`, and the values as they are taken."""

    name: str
    names: list[str]

    def __init__(self) -> None:
        self._coming: Optional[Iterator[list[bytes]]] = None
        self._kept: list[bytes] = []

    def __del__(self) -> None:
        stream = getattr(self, "_stream", None)
        if stream is not None and self.name != "-":
            stream.close()

    def pieces(self) -> Iterator[list[bytes]]:
        """The columns, piece by piece; all of one piece are of one length."""
        raise NotImplementedError

    def size(self) -> int:
        """The bytes of the file, 0 where that is not known."""
        try:
            found = os.fstat(self._stream.fileno())  # type: ignore[attr-defined]
            return found.st_size if stat.S_ISREG(found.st_mode) else 0
        except (OSError, AttributeError):
            return 0

    def position(self) -> int:
        """How many bytes of it have been read."""
        return self._stream.tell()  # type: ignore[attr-defined]

    def place(self, tick: int) -> str:
        """Where a tick of the last pieces stands in the file, as far as it is known."""
        return self.name

    def take(self, ticks: int) -> list[bytes]:
        """The next ticks of each column; fewer where the file ends."""
        if self._coming is None:
            self._coming, self._kept = self.pieces(), [b""] * len(self.names)
        while len(self._kept[0]) < ticks:
            piece = next(self._coming, None)
            if piece is None:
                break
            self._kept = [kept + more for kept, more in zip(self._kept, piece)] if self._kept[0] else piece
        taken = [column[:ticks] for column in self._kept]
        self._kept = [column[ticks:] for column in self._kept]
        return taken


def first_not(column: bytes, wanted: bytes) -> int:
    """The first tick whose value is none of those wanted; -1 where all are."""
    odd = column.translate(None, wanted)
    return column.index(odd[0]) if odd else -1
