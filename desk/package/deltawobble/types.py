"""Types of the calculus, and how a person writes them."""
from __future__ import annotations

from dataclasses import dataclass
from functools import cached_property
from typing import Optional


@dataclass(frozen=True)
class Type:
    """A single bit (kind 1), which has no sides, a product (2), a sharable arrow (3) or a linear arrow (4)."""

    kind: int
    left: "Type" = None  # type: ignore[assignment]
    right: "Type" = None  # type: ignore[assignment]

    @property
    def sharable(self) -> bool:
        """Single bits and products are sharable, arrows are linear."""
        return self.kind <= 2

    @cached_property
    def size(self) -> int:
        """The number of single bits, counted with repetition."""
        return 1 if self.kind == 1 else self.left.size + self.right.size

    @cached_property
    def _hash(self) -> int:
        return hash((self.kind, self.left, self.right))

    def __hash__(self) -> int:
        return self._hash

    def __str__(self) -> str:
        return written(self)


BIT = Type(1)


def product(left: Type, right: Type) -> Type:
    return Type(2, left, right)


def arrow(left: Type, right: Type) -> Type:
    """The arrow of the left side's sort: sharable for a sharable one, else linear."""
    return Type(3 if left.sharable else 4, left, right)


def part_type(part: int, inputs: int, second: bool) -> Type:
    """The type of a part: in the second edition the two-input gates take a pair."""
    if inputs == 2 and second:
        return Type(3, product(BIT, BIT), BIT)
    wanted = BIT
    for _ in range(inputs):
        wanted = Type(3, BIT, wanted)
    return wanted


SIGNS = {2: "*", 3: "->", 4: "-o"}


def written(t: Type, names: Optional[dict[Type, str]] = None, inner: int = 0) -> str:
    """The type in words; `names` has names that stand for types, `inner` is 0 at the top, 1 left of an arrow, 2 left in a product.

    >>> written(arrow(arrow(BIT, BIT), product(BIT, BIT)))
    '(1 -> 1) -o 1 * 1'
    """
    if t.kind == 1:
        return "1"
    if names and t in names:
        return names[t]
    left, right = (2, 1) if t.kind == 2 else (1, 0)
    if t.kind == 2 and t.right.kind != 2:
        right = 2
    text = "%s %s %s" % (written(t.left, names, left), SIGNS[t.kind], written(t.right, names, right))
    return "(%s)" % text if inner == 2 or (inner == 1 and t.kind != 2) else text
