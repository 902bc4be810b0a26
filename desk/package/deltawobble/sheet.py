"""Sheets, parsed from bytes. Nothing is judged here: which sheets are accepted, the proved call says."""
from __future__ import annotations

from dataclasses import dataclass, field
from typing import Iterator, Optional

from .types import Type
from .words import KINDS, PARTS

SUBTERMS = {0x11: 0, 0x12: 0, 0x13: 1, 0x14: 2, 0x15: 1, 0x16: 2, 0x17: 2, 0x18: 2, 0x19: 1, 0x1A: 0, 0x1B: 2}
BODY = {0x11: 1, 0x12: 1, 0x13: 1, 0x14: 0, 0x15: 1, 0x16: 0, 0x17: 1, 0x18: 0, 0x19: 1, 0x1A: 2, 0x1B: 0}
#: how many variables a node binds in its last subterm
BINDS = {0x13: 1, 0x15: 1, 0x18: 2, 0x19: 1, 0x1B: 1}
#: the opening of the second edition (document 02, L7)
SECOND = 0x31


@dataclass
class Node:
    """A node of the term: its number, kind, place in the sheet, what its record says, and its subterms.

    `binder` is a variable's, `part` a constant's, `type_number` what any record with a type names; -1 where a record has none.
    """

    number: int
    kind: int
    offset: int
    end: int = 0
    depth: int = 1
    binder: int = -1
    part: int = -1
    type_number: int = -1
    parent: Optional["Node"] = field(default=None, repr=False)
    subterms: list["Node"] = field(default_factory=list, repr=False)

    @property
    def word(self) -> str:
        """The kind in words."""
        return KINDS[self.kind]

    @property
    def is_variable(self) -> bool:
        return self.binder >= 0

    def above(self) -> list["Node"]:
        """The nodes above this one, from the root down."""
        chain, at = [], self.parent
        while at is not None:
            chain.append(at)
            at = at.parent
        return chain[::-1]


@dataclass
class Own:
    """A notation's own names: for the variables that a node binds, by its number, and for types."""

    binders: dict[int, list[str]] = field(default_factory=dict)
    types: dict[Type, str] = field(default_factory=dict)


@dataclass
class Sheet:
    """A sheet: its edition, its types in record order, the nodes of its term in record order, and the names it was written with."""

    data: bytes
    edition: int
    types: list[Type]
    nodes: list[Node]
    own: Own = field(default_factory=Own, repr=False)

    @property
    def term(self) -> Node:
        return self.nodes[0]

    @property
    def depth(self) -> int:
        return max(node.depth for node in self.nodes)

    @staticmethod
    def parse(data: bytes, own: Optional[Own] = None) -> "Sheet":
        """The sheet in these bytes. ValueError, with the offset, where they are none (refusals 3, 4, 5 and 9)."""
        edition = 2 if data[:1] == bytes([SECOND]) else 1
        records, at = read_types(data, edition - 1)
        return Sheet(data, edition, [t for _, t in records], list(_nodes(data, at, edition)), own or Own())


def read_types(data: bytes, at: int) -> tuple[list[tuple[int, Type]], int]:
    """The type records from an offset on, each with its offset, up to the first that is none; and where that is.

    A type over 128 single bits ends the reading too: the sheet is refused there (8).
    """
    found: list[tuple[int, Type]] = []
    while at < len(data) and 1 <= data[at] <= 4:
        kind, size = data[at], 1 if data[at] == 1 else 3
        sides = data[at + 1:at + size]
        if len(sides) < size - 1 or any(n >= len(found) for n in sides):
            break
        t = Type(kind, *(found[n][1] for n in sides))
        if t.size > 128:
            break
        found.append((at, t))
        at += size
    return found, at


def _nodes(data: bytes, at: int, edition: int) -> Iterator[Node]:
    """The nodes of the term at an offset, in record order; their ends and subterms are filled in as they close."""
    waiting: list[tuple[Node, int]] = []
    number = 0
    while True:
        node = _record(data, at, edition, number)
        if waiting:
            node.parent, node.depth = waiting[-1][0], waiting[-1][0].depth + 1
            node.parent.subterms.append(node)
        number, at = number + 1, node.end
        waiting.append((node, SUBTERMS[node.kind]))
        while waiting and len(waiting[-1][0].subterms) == waiting[-1][1]:
            waiting.pop()[0].end = at
        yield node
        if not waiting:
            break
    if at != len(data):
        raise ValueError("bytes after the term at offset %d" % at)


def _record(data: bytes, at: int, edition: int, number: int) -> Node:
    if at >= len(data):
        raise ValueError("a record was due at the sheet's end, offset %d" % at)
    kind = data[at]
    if kind not in BODY or (kind == 0x1B and edition == 1):
        raise ValueError("no node has the kind %02X, at offset %d" % (kind, at))
    body = data[at + 1:at + 1 + BODY[kind]]
    if len(body) < BODY[kind]:
        raise ValueError("the record at offset %d is cut short" % at)
    node = Node(number, kind, at, at + 1 + len(body))
    if kind in (0x11, 0x12):
        node.binder = body[0]
    elif kind == 0x1A:
        node.part, node.type_number = body[0], body[1]
    elif body:
        node.type_number = body[0]
    return node


def part_name(number: int) -> str:
    """The name of a part; parts that are none have their number."""
    return PARTS[number][0] if number < len(PARTS) else "part %d" % number
