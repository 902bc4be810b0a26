"""The types of nodes as far as their records tell them, for showing. Whether a sheet is typed, the proved call says."""
from __future__ import annotations

from typing import Optional

from .sheet import BINDS, Node, Sheet
from .types import Type


class Typed:
    """For each node of a sheet that can be read its type, or None where its parts do not fit together."""

    def __init__(self, sheet: Sheet):
        self.sheet = sheet
        self._of: dict[int, Optional[Type]] = {}
        self._bound: dict[int, list[Optional[Type]]] = {}
        self._go(sheet.term, [])

    def of(self, node: Node) -> Optional[Type]:
        return self._of[node.number]

    def root(self) -> Type:
        """The type of an accepted sheet's term."""
        t = self.of(self.sheet.term)
        assert t is not None, "an accepted sheet has a type"
        return t

    def number(self, node: Node) -> Optional[int]:
        """The number of a node's type in the sheet's table."""
        t = self.of(node)
        return self.sheet.types.index(t) if t in self.sheet.types else None

    def bound(self, node: Node) -> list[Optional[Type]]:
        """The types of the variables that a node binds, the nearest last."""
        return self._bound.get(node.number, [])

    def _written(self, node: Node) -> Optional[Type]:
        """The type that a record names; None where it names none."""
        known = self.sheet.types
        return known[node.type_number] if 0 <= node.type_number < len(known) else None

    def _go(self, node: Node, scope: list[Optional[Type]]) -> Optional[Type]:
        found: list[Optional[Type]] = []
        inner = scope
        for i, subterm in enumerate(node.subterms):
            if i == len(node.subterms) - 1 and node.kind in BINDS:
                self._bound[node.number] = self._binds(node, found)
                inner = self._bound[node.number][::-1] + scope
            found.append(self._go(subterm, inner))
        self._of[node.number] = self._result(node, found, scope)
        return self._of[node.number]

    def _binds(self, node: Node, found: list[Optional[Type]]) -> list[Optional[Type]]:
        if node.kind == 0x18:
            pair = found[0]
            return [pair.left, pair.right] if pair and pair.kind == 2 else [None, None]
        if node.kind == 0x1B:
            return [found[0]]
        written = self._written(node)
        return [written if node.kind == 0x19 else written.left if written else None]

    def _result(self, node: Node, found: list[Optional[Type]], scope: list[Optional[Type]]) -> Optional[Type]:
        if node.is_variable:
            return scope[node.binder] if node.binder < len(scope) else None
        if node.kind in (0x14, 0x16):
            return found[0].right if found[0] and found[0].kind > 2 else None
        if node.kind in (0x18, 0x1B):
            return found[1]
        return self._written(node)
