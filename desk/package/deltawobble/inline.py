"""A linear argument put straight into the body at the one place where its variable stands (document 02, L13)."""
from __future__ import annotations

from dataclasses import dataclass

from .sheet import BINDS, Node, Sheet


@dataclass
class _Copy:
    """A node of the sheet that is written: the record's own bytes, its binder number apart, and its subterms."""

    own: bytes
    binder: int
    subterms: list["_Copy"]
    binds: int


def applications(sheet: Sheet) -> list[Node]:
    """The linear functions that are applied to an argument: their applications, in record order."""
    return [n for n in sheet.nodes if n.kind == 0x16 and n.subterms[0].kind == 0x15]


def put_in(data: bytes, number: int) -> bytes:
    """The sheet with the argument of the application at a node put in, and binder numbers adjusted. Types stay."""
    sheet = Sheet.parse(data)
    chosen = next((n for n in applications(sheet) if n.number == number), None)
    if chosen is None:
        raise ValueError("node %d is no linear function applied to an argument" % number)
    return data[:sheet.term.offset] + _written(_copied(data, sheet.term, chosen))


def _copied(data: bytes, node: Node, chosen: Node | None) -> _Copy:
    if node is chosen:
        body, argument = node.subterms[0].subterms[0], node.subterms[1]
        return _replaced(_copied(data, body, None), 0, _copied(data, argument, None))
    end = node.subterms[0].offset if node.subterms else node.end
    return _Copy(data[node.offset:end], node.binder, [_copied(data, s, chosen) for s in node.subterms], BINDS.get(node.kind, 0))


def _over(node: _Copy, change) -> _Copy:
    """The node over its subterms, each changed; what it binds is known in the last."""
    last = len(node.subterms) - 1
    return _Copy(node.own, node.binder, [change(s, node.binds if i == last else 0) for i, s in enumerate(node.subterms)], node.binds)


def _replaced(node: _Copy, inside: int, argument: _Copy) -> _Copy:
    """The argument where the variable stands, `inside` binders further in; variables from outside lose one binder."""
    if node.binder == inside:
        return _raised(argument, 0, inside)
    if node.binder > inside:
        return _Copy(node.own, node.binder - 1, [], 0)
    return _over(node, lambda s, binds: _replaced(s, inside + binds, argument))


def _raised(node: _Copy, inside: int, by: int) -> _Copy:
    if node.binder >= inside:
        return _Copy(node.own, node.binder + by, [], 0)
    return _over(node, lambda s, binds: _raised(s, inside + binds, by))


def _written(node: _Copy) -> bytes:
    own = node.own if node.binder < 0 else node.own[:1] + bytes([node.binder])
    return own + b"".join(_written(s) for s in node.subterms)
