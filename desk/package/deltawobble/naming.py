"""Names for the binders of a sheet, and what each variable is called. A name never stands for two binders in one scope."""
from __future__ import annotations

from dataclasses import dataclass, field
from typing import Iterable, Optional

from .sheet import BINDS, Node, Sheet
from .typed import Typed
from .types import Type

#: first letters: single bits, products, arrows
LETTERS = {1: "xyzuvw", 2: "pqrs", 3: "fghk", 4: "fghk"}


@dataclass
class Binder:
    """A variable that a node binds: its name, the node, its type as far as it is known, and whether it is linear."""

    name: str
    node: Node
    type: Optional[Type]
    linear: bool


@dataclass
class Names:
    """For each node the binders that it binds, and for each variable its binder: None where it is out of scope."""

    bound: dict[int, list[Binder]] = field(default_factory=dict)
    meant: dict[int, Optional[Binder]] = field(default_factory=dict)
    #: the binders around each variable, the nearest first
    scope: dict[int, list[Binder]] = field(default_factory=dict)
    #: names for types
    types: dict[Type, str] = field(default_factory=dict)

    def word(self, node: Node) -> str:
        """What a variable is called."""
        binder = self.meant[node.number]
        return binder.name if binder else "binder %d" % node.binder


def fresh(t: Optional[Type], taken: Iterable[str]) -> str:
    """The first free name by the sort of a type: x, y, z .. x1, y1 .. for bits, p .. for pairs, f .. for circuits."""
    taken = set(taken)
    letters = LETTERS[t.kind if t else 1]
    for round_ in range(len(taken) + 1):
        for letter in letters:
            name = letter + (str(round_) if round_ else "")
            if name not in taken:
                return name
    raise AssertionError("there are more names than binders")


def names_of(sheet: Sheet) -> Names:
    """Names for all binders of a sheet that can be read: its own, or fresh ones."""
    names, typed = Names(types=sheet.own.types), Typed(sheet)

    def go(node: Node, scope: list[Binder]) -> None:
        if node.is_variable:
            names.meant[node.number] = scope[node.binder] if node.binder < len(scope) else None
            names.scope[node.number] = scope
        inner = scope
        if node.kind in BINDS:
            own = sheet.own.binders.get(node.number, [])
            for i, t in enumerate(typed.bound(node)):
                name = own[i] if i < len(own) else fresh(t, [b.name for b in inner])
                inner = [Binder(name, node, t, node.kind == 0x15)] + inner
            names.bound[node.number] = inner[:BINDS[node.kind]][::-1]
        for i, subterm in enumerate(node.subterms):
            go(subterm, inner if i == len(node.subterms) - 1 else scope)

    go(sheet.term, [])
    return names
