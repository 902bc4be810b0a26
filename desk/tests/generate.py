"""Sheets for the tests: typed terms of both editions grown at random, over tables in any order, and damaged ones."""
from __future__ import annotations

import random
from typing import Optional

from deltawobble.sheet import Sheet
from deltawobble.types import BIT, Type, arrow, part_type, product
from deltawobble.words import PARTS

SMALL = [BIT, BIT, BIT, product(BIT, BIT), product(BIT, product(BIT, BIT))]
CIRCUITS = [arrow(BIT, BIT), arrow(BIT, arrow(BIT, BIT)), arrow(arrow(BIT, BIT), BIT), arrow(product(BIT, BIT), BIT)]


class Binder:
    """A variable in scope."""

    def __init__(self, t: Type):
        self.type = t


class Term:
    """A record to be: its kind, its body (types, binders, part numbers), its subterms, and what it binds in the last."""

    def __init__(self, kind: int, body: list, subterms: list["Term"], binds: tuple[Binder, ...] = ()):
        self.kind, self.body, self.subterms, self.binds = kind, body, subterms, binds


class Grower:
    """Grows a term of a type in which each linear variable of a set stands exactly once."""

    def __init__(self, rng: random.Random, edition: int):
        self.rng, self.edition = rng, edition

    def term(self, goal: Type, scope: list[Binder], must: list[Binder], fuel: int) -> Term:
        if fuel <= 0:
            return self.short(goal, scope, must)
        ways = [self._apply, self._apply, self._project]
        ways += [self._fix, self._fix] if goal.sharable else []
        ways += [self._name] if self.edition == 2 else []
        ways += [self._pair] * 3 if goal.kind == 2 else []
        ways += [self._function] * 4 if goal.kind > 2 else []
        ways += [self._leaf, self.short] if fuel < 4 else []
        return self.rng.choice(ways)(goal, scope, must, fuel) or self.short(goal, scope, must)

    def short(self, goal: Type, scope: list[Binder], must: list[Binder], fuel: int = 0) -> Term:
        """A small term: first the linear variables that must be used, then a leaf, a pair or a function."""
        leaf = self._leaf(goal, scope, must, 0)
        if leaf:
            return leaf
        if goal.kind > 2:
            return self._function(goal, scope, must, 0)
        if must:
            return self._used_up(goal, scope, must)
        return self._pair(goal, scope, must, 0) if goal.kind == 2 else self._constant(self.rng.choice([0, 6]))

    def _split(self, must: list[Binder]) -> tuple[list[Binder], list[Binder]]:
        left = [b for b in must if self.rng.random() < 0.5]
        return left, [b for b in must if b not in left]

    def _leaf(self, goal, scope, must, fuel) -> Optional[Term]:
        if len(must) == 1 and must[0].type == goal:
            return Term(0x12, [must[0]], [])
        if must:
            return None
        found = [Term(0x11, [b], []) for b in scope if b.type == goal and goal.sharable]
        found += [self._constant(p) for p in range(7) if part_type(p, PARTS[p][1], self.edition == 2) == goal]
        return self.rng.choice(found) if found else None

    def _constant(self, part: int) -> Term:
        return Term(0x1A, [part, part_type(part, PARTS[part][1], self.edition == 2)], [])

    def _function(self, goal, scope, must, fuel) -> Term:
        own = Binder(goal.left)
        inner = must + [own] if goal.kind == 4 else must
        return Term(0x13 if goal.kind == 3 else 0x15, [goal], [self.term(goal.right, scope + [own], inner, fuel - 1)], (own,))

    def _apply(self, goal, scope, must, fuel) -> Term:
        of = self.rng.choice(SMALL + CIRCUITS)
        left, right = self._split(must)
        subterms = [self.term(arrow(of, goal), scope, left, fuel - 1), self.term(of, scope, right, fuel - 1)]
        return Term(0x14 if of.sharable else 0x16, [], subterms)

    def _project(self, goal, scope, must, fuel) -> Term:
        pair = self.rng.choice(SMALL[3:])
        left, right = self._split(must)
        own = (Binder(pair.left), Binder(pair.right))
        return Term(0x18, [], [self.term(pair, scope, left, fuel - 1), self.term(goal, scope + list(own), right, fuel - 1)], own)

    def _name(self, goal, scope, must, fuel) -> Term:
        own = Binder(self.rng.choice(SMALL))
        left, right = self._split(must)
        return Term(0x1B, [], [self.term(own.type, scope, left, fuel - 1), self.term(goal, scope + [own], right, fuel - 1)], (own,))

    def _fix(self, goal, scope, must, fuel) -> Term:
        own = Binder(goal)
        return Term(0x19, [goal], [self.term(goal, scope + [own], must, fuel - 1)], (own,))

    def _pair(self, goal, scope, must, fuel) -> Term:
        left, right = self._split(must)
        return Term(0x17, [goal], [self.term(goal.left, scope, left, fuel - 1), self.term(goal.right, scope, right, fuel - 1)])

    def _used_up(self, goal, scope, must) -> Term:
        """A circuit is applied until a sharable result is left, which a function takes and does not read."""
        used = Term(0x12, [must[0]], [])
        t = must[0].type
        while t.kind > 2:
            used = Term(0x14 if t.kind == 3 else 0x16, [], [used, self.short(t.left, scope, [])])
            t = t.right
        own = Binder(t)
        rest = Term(0x13, [arrow(t, goal)], [self.short(goal, scope + [own], must[1:])], (own,))
        return Term(0x14, [], [rest, used])


def table_of(term: Term, rng: random.Random, shuffled: bool) -> list[Type]:
    """The types that a term needs, each behind its sides; shuffled, and with some that nobody needs."""
    needed: list[Type] = [BIT]

    def add(t: Type) -> None:
        if t not in needed:
            if t.kind > 1:
                add(t.left)
                add(t.right)
            needed.append(t)

    def go(node: Term) -> None:
        for x in node.body:
            if isinstance(x, Type):
                add(x)
        for s in node.subterms:
            go(s)

    go(term)
    if not shuffled:
        return needed
    for t in rng.sample(CIRCUITS + SMALL, rng.randrange(4)):
        add(t)
    left, table = needed[1:], [BIT]
    while left:
        ready = [t for t in left if t.left in table and t.right in table]
        table.append(left.pop(left.index(rng.choice(ready))))
    return table


def encode(term: Term, edition: int, table: list[Type]) -> bytes:
    """The bytes of a sheet."""
    out = bytearray([0x31] if edition == 2 else [])
    for t in table:
        out += bytes([1] if t.kind == 1 else [t.kind, table.index(t.left), table.index(t.right)])

    def go(node: Term, scope: list[Binder]) -> None:
        out.append(node.kind)
        for x in node.body:
            out.append(table.index(x) if isinstance(x, Type) else scope[::-1].index(x) if isinstance(x, Binder) else x)
        for i, s in enumerate(node.subterms):
            go(s, scope + list(node.binds) if i == len(node.subterms) - 1 else scope)

    go(term, [])
    return bytes(out)


def sheet(seed: int) -> bytes:
    """A typed sheet: which edition, which table and which term, the seed says."""
    rng = random.Random(seed)
    edition = 1 + seed % 2
    term = Grower(rng, edition).term(rng.choice(SMALL + CIRCUITS), [], [], rng.randrange(1, 9))
    return encode(term, edition, table_of(term, rng, shuffled=seed % 4 > 1))


OTHER = {0x11: 0x12, 0x12: 0x11, 0x13: 0x15, 0x15: 0x13, 0x14: 0x16, 0x16: 0x14, 0x17: 0x18, 0x18: 0x14, 0x19: 0x13, 0x1A: 0x1A, 0x1B: 0x18}


def damaged(seed: int) -> bytes:
    """A sheet with some bytes changed, left out or put in; or one that can be read, with a node's record changed."""
    rng = random.Random(seed)
    data = bytearray(sheet(seed))
    if seed % 3:
        _mistyped(rng, data)
    else:
        _broken(rng, data)
    return bytes(data)


def _mistyped(rng: random.Random, data: bytearray) -> None:
    read = Sheet.parse(bytes(data))
    circuits = [n for n in read.nodes if n.kind == 0x12]
    if circuits and CIRCUITS[0] in read.types and rng.random() < 0.4:
        # a register in the place of a linear variable: that is unused then
        at = rng.choice(circuits).offset
        data[at:at + 2] = bytes([0x1A, 1, read.types.index(CIRCUITS[0])])
        return
    node = rng.choice([n for n in read.nodes if n.is_variable] or read.nodes) if rng.random() < 0.5 else rng.choice(read.nodes)
    if node.is_variable and rng.random() < 0.9:
        data[node.offset + 1] = rng.randrange(4)
    elif node.type_number >= 0 and rng.random() < 0.6:
        data[node.offset + (2 if node.part >= 0 else 1)] = rng.randrange(len(read.types))
    elif node.part >= 0:
        data[node.offset + 1] = rng.randrange(9)
    else:
        data[node.offset] = OTHER[node.kind]


def _broken(rng: random.Random, data: bytearray) -> None:
    for _ in range(rng.randrange(1, 4)):
        if not data:
            return
        at = rng.randrange(len(data))
        way = rng.randrange(4)
        if way == 0:
            data[at] = rng.choice([0, 1, 2, 3, 4, 5, 7, 0x11, 0x12, 0x13, 0x14, 0x16, 0x17, 0x18, 0x1A, 0x1B, 0x31, 255])
        elif way == 1:
            data[at] = (data[at] + rng.choice([1, 255])) % 256
        elif way == 2:
            del data[at:at + rng.randrange(1, 3)]
        else:
            data.insert(at, rng.randrange(32))
