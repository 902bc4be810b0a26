"""Which terminals the variables and the nodes of an accepted sheet stand for (document 01, "The full netlist"), and the names that nets get
from them. Nothing is decided here: elements, wires and pins are the proved call's, and a test holds this walk to them."""
from __future__ import annotations

from dataclasses import dataclass

from .naming import Names, names_of
from .netlist import Netlist
from .sheet import Node, Sheet
from .typed import Typed
from .types import Type
from .words import PARTS


def turned(t: Type, flipped: bool = False) -> list[bool]:
    """For each single bit of a type, if it stands left of an odd number of arrows."""
    if t.kind == 1:
        return [flipped]
    return turned(t.left, flipped ^ (t.kind > 2)) + turned(t.right, flipped)


class Interfaces:
    """For each node its interface, and for each node that binds the interfaces of its variables."""

    def __init__(self, sheet: Sheet):
        self.typed, self.free = Typed(sheet), 0
        self.of: dict[int, list[int]] = {}
        self.bound: dict[int, list[list[int]]] = {}
        self._go(sheet.term, [])

    def _go(self, node: Node, scope: list[list[int]]) -> list[int]:
        self.of[node.number] = found = self._interface(node, scope)
        return found

    def _interface(self, node: Node, scope: list[list[int]]) -> list[int]:
        if node.is_variable:
            return scope[node.binder]
        if node.kind == 0x1A:
            return self._take(PARTS[node.part][1] + 1)
        if node.kind in (0x13, 0x15, 0x19):
            return self._binder(node, scope)
        first = self._go(node.subterms[0], scope)
        if node.kind in (0x18, 0x1B):
            halves = [t.size for t in self.typed.bound(node) if t]
            self.bound[node.number] = [first] if node.kind == 0x1B else [first[:halves[0]], first[halves[0]:]]
            return self._go(node.subterms[1], self.bound[node.number][::-1] + scope)
        second = self._go(node.subterms[1], scope)
        return first + second if node.kind == 0x17 else first[len(second):]

    def _take(self, count: int) -> list[int]:
        self.free += count
        return list(range(self.free - count, self.free))

    def _binder(self, node: Node, scope: list[list[int]]) -> list[int]:
        """Points for the bound type; the variable's two interfaces share their terminals out."""
        t = self.typed.bound(node)[0]
        assert t is not None, "an accepted sheet has types"
        turns = turned(t)
        points = self._take(2 * len(turns))
        shown = [points[2 * i] if turn else points[2 * i + 1] for i, turn in enumerate(turns)]
        taken = [points[2 * i + 1] if turn else points[2 * i] for i, turn in enumerate(turns)]
        self.bound[node.number] = [shown]
        body = self._go(node.subterms[0], [shown] + scope)
        return body if node.kind == 0x19 else taken + body


class Nets:
    """The nets of a netlist. A net is known by the output that drives it, or by the input that is its pin."""

    def __init__(self, net: Netlist, full: Netlist):
        self.drivers = {target: source for source, target in full.wires}
        self.points = {e.output: e.first for e in full.points}
        self.inputs = set(net.input_pins)
        #: points that a pin drives are part of the pin's net, in a lean netlist
        self.at_pins = {e.output: e.first for e in net.points if e.first in self.inputs} if net is not full else {}
        self.kept = {e.output for e in net.elements}

    def of(self, terminal: int) -> int:
        """The net of an output terminal of the full netlist, in the netlist that is drawn."""
        seen = set()
        while terminal not in self.kept:
            seen.add(terminal)
            terminal = self.drivers[self.points[terminal]]
            assert terminal not in seen, "a ring of points keeps one of them"
        return self.at_pins.get(terminal, terminal)


@dataclass
class Named:
    """A name of a net: the variable's, the node that binds it, and the rank among the names of the net."""

    name: str
    node: int
    rank: tuple


def net_names(sheet: Sheet, nets: Nets, interfaces: Interfaces, through: dict[int, int]) -> dict[int, list[Named]]:
    """The names of each net, the best first: those bound in `main` before those in definitions, bits before those of vectors.

    `through` says for a node how many definitions it was put in with.
    """
    names: Names = names_of(sheet)
    found: dict[int, list[Named]] = {}
    for number, bound in interfaces.bound.items():
        for binder, interface in zip(names.bound[number], bound):
            if binder.type is None or not binder.type.sharable or binder.name == "rest":
                continue
            for bit, terminal in enumerate(interface):
                name = binder.name if len(interface) == 1 else "%s.%d" % (binder.name, bit)
                rank = (through.get(number, 0), len(interface) > 1, number)
                found.setdefault(nets.of(terminal), []).append(Named(name, number, rank))
    return {net: sorted(all_, key=lambda n: n.rank) for net, all_ in found.items()}
