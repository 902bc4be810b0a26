"""Two sheets with the same pins joined into one: both take the same inputs, and its one output pin is 1 where some output differs.

The joined sheet of two sheets of one edition is the one that `against` names (crates/same_theorems/specs/Joint), over a table of types of its own: what
a search of it says of the two is a theorem (`same-call`). It is translated by the proved call. That it holds both circuits, and compares them, is
looked at on the three lean netlists all the same: each part of the two, each wire, each pin, the registers of the one and then of the other, and ors
of xors. Where the two are of different editions, the one of the first is written in the second, and this look is all that there is.
"""
from __future__ import annotations

from dataclasses import dataclass
from typing import Callable, Optional

from .circuit import Circuit
from .files import Source, WrongUse
from .naming import names_of
from .netlist import Element, Netlist
from .records import Binder, Record, encode
from .sheet import Node, Own, Sheet
from .typed import Typed
from .types import BIT, Type, arrow, part_type, product
from .words import PARTS

XOR, OR = 4, 3


class Joined(Source):
    """The joined sheet, with the names of what it was made from, and for each of its nodes which node of which sheet it is."""

    def __init__(self, name: str, nodes: list[Record], data: bytes, origin: dict[int, tuple[int, int]]):
        super().__init__(name, data)
        self.nodes, self.origin = nodes, origin

    @property
    def own(self) -> Optional[Own]:
        return Own({number: [b.name for b in record.binds] for number, record in enumerate(self.nodes) if record.binds})


def node(kind: int, body: list, subterms: list[Record], t: Optional[Type], *binds: Binder) -> Record:
    return Record(kind, body, subterms, t, list(binds))


def variable(binder: Binder) -> Record:
    return node(0x11, [binder], [], binder.type)


def apply(function: Record, argument: Record) -> Record:
    assert function.type is not None
    return node(0x14, [], [function, argument], function.type.right)


def function(binder: Binder, body: Record) -> Record:
    whole = arrow(binder.type, body.type or BIT)
    return node(0x13, [whole], [body], whole, binder)


class Joining:
    """The records of two sheets, and those that join them."""

    def __init__(self, one: Circuit, other: Circuit):
        self.circuits = [one, other]
        self.edition = max(c.sheet.edition for c in self.circuits)
        self.origin: dict[int, tuple[int, int]] = {}

    def joined(self) -> Joined:
        root = Typed(self.circuits[0].sheet).root()
        names = [binders[0].name for binders in _heads(self.circuits[0].sheet)]
        inputs: list[Binder] = []
        while root.kind == 3:
            inputs.append(Binder(names[len(inputs)] if len(inputs) < len(names) else "in%d" % (len(inputs) + 1), root.left))
            root = root.right
        values = [self._applied(which, inputs) for which in (0, 1)]
        term = self._differing(values[0], values[1])
        for binder in reversed(inputs):
            term = function(binder, term)
        data, nodes = encode(self.edition, term)
        origin = {number: self.origin[id(record)] for number, record in enumerate(nodes) if id(record) in self.origin}
        return Joined("the two sheets joined", nodes, data, origin)

    def _applied(self, which: int, inputs: list[Binder]) -> Record:
        sheet = self.circuits[which].sheet
        bound = names_of(sheet).bound
        term = self._copied(which, sheet, sheet.term, [], lambda n: [b.name for b in bound.get(n.number, [])], Typed(sheet))
        for binder in inputs:
            term = apply(term, variable(binder))
        return term

    def _copied(self, which: int, sheet: Sheet, at: Node, scope: list[Binder], names: Callable[[Node], list[str]], typed: Typed) -> Record:
        """A node of one of the sheets as a record, its variables by what binds them."""
        if at.kind == 0x1A:
            return self._constant(at.part, (which, at.number), sheet.edition == 1)
        binds = [Binder(name, t or BIT) for name, t in zip(names(at), typed.bound(at))]
        last = len(at.subterms) - 1
        below = [self._copied(which, sheet, s, scope + binds if i == last else scope, names, typed) for i, s in enumerate(at.subterms)]
        body: list = [scope[-1 - at.binder]] if at.is_variable else [sheet.types[at.type_number]] if at.type_number >= 0 else []
        return node(at.kind, body, below, typed.of(at), *binds)

    def _constant(self, part: int, origin: Optional[tuple[int, int]], curried: bool) -> Record:
        """A part; a gate that takes one bit after the other is in the second edition one of a pair, put into a function of two bits."""
        second = self.edition == 2
        t = part_type(part, PARTS[part][1], second)
        made = node(0x1A, [part, t], [], t)
        if origin is not None:
            self.origin[id(made)] = origin
        if not (second and curried and PARTS[part][1] == 2):
            return made
        a, b = Binder("a", BIT), Binder("b", BIT)
        pair = product(BIT, BIT)
        return function(a, function(b, apply(made, node(0x17, [pair], [variable(a), variable(b)], pair))))

    def _gate(self, part: int, one: Record, other: Record) -> Record:
        """A gate of two bits: one after the other, or in the second edition a pair."""
        if self.edition == 1:
            return apply(apply(self._constant(part, None, True), one), other)
        both = product(BIT, BIT)
        return apply(self._constant(part, None, False), node(0x17, [both], [one, other], both))

    def _differing(self, one: Record, other: Record) -> Record:
        """1 where some bit of two values differs: an xor of two bits, an or of the two halves."""
        t = one.type
        assert t is not None
        if t.kind == 1:
            return self._gate(XOR, one, other)
        mine, theirs = ([Binder("%s_left" % sign, t.left), Binder("%s_right" % sign, t.right)] for sign in "uv")
        halves = [self._differing(variable(mine[half]), variable(theirs[half])) for half in (0, 1)]
        return self._projected(one, mine, self._projected(other, theirs, self._gate(OR, halves[0], halves[1])))

    @staticmethod
    def _projected(value: Record, binders: list[Binder], body: Record) -> Record:
        return node(0x18, [], [value, body], body.type, *binders)


def _heads(sheet: Sheet) -> list:
    """What the outermost functions bind."""
    found, at, bound = [], sheet.term, names_of(sheet).bound
    while at.kind == 0x13:
        found.append(bound[at.number])
        at = at.subterms[0]
    return found


def fit(one: Circuit, other: Circuit, positions: bool) -> None:
    """Wrong use, where two sheets have other pins."""
    names = [c.source.name for c in (one, other)]
    for what, mine, theirs in (("input", one.inputs, other.inputs), ("output", one.outputs, other.outputs)):
        if len(mine) != len(theirs):
            raise WrongUse("%s has the %s pins %s, and %s has %s: only sheets with the same pins can be compared"
                           % (names[0], what, ", ".join(mine) or "none", names[1], ", ".join(theirs) or "none"))
        if mine != theirs and not positions:
            raise WrongUse("%s calls its %s pins %s, and %s calls them %s: --positions takes them one by one, whatever they are called"
                           % (names[0], what, ", ".join(mine), names[1], ", ".join(theirs)))
    types = [Typed(c.sheet).root() for c in (one, other)]
    if types[0] != types[1]:
        raise WrongUse("%s has the type %s, and %s has %s: only sheets of one type can be joined" % (names[0], types[0], names[1], types[1]))
    if any(_linear(t) for t in types):
        raise WrongUse("the type %s takes a circuit: only sheets that take bits can be joined" % types[0])


def _linear(t: Type) -> bool:
    while t.kind == 3:
        t = t.right
    return t.kind == 4


# ---- whether the joined netlist holds both

class NotJoined(Exception):
    """The joined netlist is not what it should be."""


def need(held: bool, what: str) -> None:
    if not held:
        raise NotJoined(what)


class Place:
    """Where each terminal of a netlist stands in the joined one: points at its input pins at the joined one's pins, parts by their nodes."""

    def __init__(self, which: int, net: Netlist, joint: Netlist, origin: dict[int, tuple[int, int]]):
        there = {origin[e.node]: e for e in joint.parts if e.node in origin}
        need(len(there) == sum(1 for e in joint.parts if e.node in origin), "a node made two parts")
        points = {e.first: e for e in joint.points}
        self.net, self.joint, self.of, self.parts = net, joint, {}, 0
        for element in net.parts:
            self._put(element, there.get((which, element.node if element.node is not None else -1)))
            self.parts += 1
        pins = dict(zip(net.input_pins, joint.input_pins))
        need(len(net.input_pins) == len(joint.input_pins), "input pins are missing")
        for element in net.points:
            self._put(element, points.get(pins.get(element.first, -1)))
        self._look(pins, points)

    def _put(self, element: Element, there: Optional[Element]) -> None:
        need(there is not None and there.part == element.part, "%s %d is missing" % (element.name, element.first))
        assert there is not None
        for mine, its in zip(element.terminals, there.terminals):
            self.of[mine] = its

    def _look(self, pins: dict[int, int], points: dict[int, Element]) -> None:
        wires = set(self.joint.wires)
        for source, target in self.net.wires:
            need((self.of[source], self.of[target]) in wires, "wire %d %d is missing" % (source, target))
        for mine, pin in pins.items():
            place = self.of[mine]
            need(pin == place or (pin in points and (pin + 1, place) in wires), "pin %d does not lead to its place" % mine)

    def outputs(self) -> list[int]:
        return [self.of[pin] for pin in self.net.output_pins]

    def registers(self) -> list[int]:
        return [self.of[e.output] for e in self.net.registers]


@dataclass
class Looked:
    """How many parts are the one's, the other's, and the comparison's."""

    one: int
    other: int
    comparing: int


def looked(joint: Netlist, nets: list[Netlist], origin: dict[int, tuple[int, int]]) -> Looked:
    """What the joined netlist holds. NotJoined where it does not hold both circuits and compares their outputs, and nothing else."""
    places = [Place(which, net, joint, origin) for which, net in enumerate(nets)]
    need([e.output for e in joint.registers] == places[0].registers() + places[1].registers(), "the registers are others, or in another order")
    need(len(joint.output_pins) == 1, "there is not one output pin")
    gates = _compares(joint, joint.output_pins[0], places[0].outputs(), places[1].outputs())
    need(len(joint.parts) == places[0].parts + places[1].parts + gates, "there are other parts too")
    return Looked(places[0].parts, places[1].parts, gates)


def _compares(joint: Netlist, at: int, ones: list[int], others: list[int]) -> int:
    """An xor of one pair, or an or of two that compare the pairs in their order: how many gates it has."""
    fed = {target: source for source, target in joint.wires}
    made = {e.output: e for e in joint.parts}
    pairs, ors = list(zip(ones, others)), [len(ones) - 1]

    def gates(output: int) -> int:
        found = made.get(output)
        need(found is not None and found.part in (OR, XOR), "terminal %d is no or and no xor" % output)
        assert found is not None
        drivers = fed.get(found.inputs[0], -1), fed.get(found.inputs[1], -1)
        if found.part == OR:
            ors[0] -= 1
            need(ors[0] >= 0, "there are ors too many")
            return gates(drivers[0]) + gates(drivers[1]) + 1
        need(bool(pairs) and drivers == pairs.pop(0), "an output is not compared where it should be")
        return 1

    found = gates(at)
    need(not pairs, "an output is not compared")
    return found
