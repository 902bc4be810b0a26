"""A sheet written from the records of a term: the table of types is made without repeats, and binder numbers are counted."""
from __future__ import annotations

from dataclasses import dataclass, field
from typing import Optional

from .sheet import SECOND
from .types import BIT, Type


@dataclass
class Binder:
    """A variable."""

    name: str
    type: Type


@dataclass
class Record:
    """A node to be: kind, body, subterms, its type if that is known, and what it binds in the last subterm."""

    kind: int
    body: list
    subterms: list["Record"]
    type: Optional[Type]
    binds: list[Binder] = field(default_factory=list)


def table_of(root: Record) -> list[Type]:
    """The types in the order of their records, each behind its sides."""
    found: dict[Type, None] = {BIT: None}

    def add(t: Type) -> None:
        if t not in found:
            add(t.left)
            add(t.right)
            found[t] = None

    def go(record: Record) -> None:
        for x in record.body:
            if isinstance(x, Type):
                add(x)
        for s in record.subterms:
            go(s)

    go(root)
    return list(found)


def encode(edition: int, root: Record) -> tuple[bytes, list[Record]]:
    """The sheet, and the nodes in record order."""
    number = {t: i for i, t in enumerate(table_of(root))}
    out = bytearray([SECOND] if edition == 2 else [])
    nodes: list[Record] = []
    for t in number:
        out += bytes([1]) if t.kind == 1 else bytes([t.kind, number[t.left] & 255, number[t.right] & 255])

    def go(record: Record, scope: list[Binder]) -> None:
        nodes.append(record)
        out.append(record.kind)
        for x in record.body:
            place = next((i for i, b in enumerate(reversed(scope)) if b is x), 0)
            out.append((number[x] if isinstance(x, Type) else place if isinstance(x, Binder) else x) & 255)
        for i, s in enumerate(record.subterms):
            go(s, scope + record.binds if i == len(record.subterms) - 1 else scope)

    go(root, [])
    return bytes(out), nodes
