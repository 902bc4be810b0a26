"""Names for what is inside a circuit: the nets that the text's variables stand for, the parts, and the registers.

A net goes by each variable that stands for it: `old`, or `count.3` for a variable of several bits. A name that stands for different nets at
several places of the text has `~2`, `~3` behind it from the second place on, by rising node. A part's output that no variable stands for is called
after its part and terminal, `or@27`.
"""
from __future__ import annotations

from collections import defaultdict
from dataclasses import dataclass, field
from typing import Optional

from .naming import Binder, names_of
from .netlist import Element, Netlist
from .sheet import Node, Sheet
from .typed import Typed


def result_size(t) -> int:
    """The bits of a type's result, behind all its arrows."""
    while t.kind > 2:
        t = t.right
    return t.size


class Meant:
    """For each variable of an accepted sheet the output terminals of the full netlist that it stands for; of a circuit, those of its result."""

    def __init__(self, sheet: Sheet, full: Netlist):
        self.typed = Typed(sheet)
        self.made: dict[int, list[Element]] = defaultdict(list)
        for element in full.elements:
            if element.node is not None:
                self.made[element.node].append(element)
        self.of: dict[tuple[int, int], list[int]] = {}
        self._value(sheet.term, [])

    def _value(self, node: Node, scope: list[list[int]]) -> list[int]:
        """The terminals that a node's result comes from; `scope` has those of the variables, the nearest first."""
        if node.is_variable:
            return scope[node.binder]
        if node.kind == 0x1A:
            return [element.output for element in self.made[node.number]]
        values = [self._value(subterm, scope) for subterm in node.subterms[:-1]]
        inner = self._bound(node, values)
        last = self._value(node.subterms[-1], inner[::-1] + scope)
        if node.kind in (0x14, 0x16):
            return values[0]
        return values[0] + last if node.kind == 0x17 else last

    def _bound(self, node: Node, values: list[list[int]]) -> list[list[int]]:
        """What the variables stand for that a node binds, the nearest last."""
        if node.kind == 0x18:
            pair = self.typed.of(node.subterms[0])
            assert pair is not None
            found = [values[0][:pair.left.size], values[0][pair.left.size:]]
        elif node.kind == 0x1B:
            found = [values[0]]
        elif node.kind in (0x13, 0x15, 0x19):
            size = result_size(self.typed.bound(node)[0])
            found = [[point.output for point in self.made[node.number]][-size:]]
        else:
            return []
        for k, terminals in enumerate(found):
            self.of[node.number, k] = terminals
        return found


@dataclass
class Register:
    """A register: its input and output terminal, the node that made it, its name, and what else it may be called."""

    element: Element
    name: str = ""
    aliases: list[str] = field(default_factory=list)

    @property
    def terminal(self) -> int:
        return self.element.output


class Signals:
    """The nets of a sheet's lean netlist by name; `nets` has for each name the output terminal that drives it."""

    def __init__(self, sheet: Sheet, full: Netlist, lean: Netlist):
        self.full, self.lean = full, lean
        self._driver = {to: source for source, to in full.wires}
        self._points = {point.output: point.inputs[0] for point in full.points}
        self._kept = {element.output for element in lean.elements}
        self.nets: dict[str, int] = {}
        #: the names of each net, the outermost variable's first
        self.names: dict[int, list[str]] = defaultdict(list)
        self._name_variables(sheet)
        for element in lean.elements:
            if element.part is not None:
                self._add("%s@%d" % (element.name, element.output), element.output)

    def _name_variables(self, sheet: Sheet) -> None:
        meant, bound = Meant(sheet, self.full), names_of(sheet).bound
        for node in sheet.nodes:
            for k, binder in enumerate(bound.get(node.number, [])):
                self._name(binder, meant.of.get((node.number, k), []))

    def _name(self, binder: Binder, terminals: list[int]) -> None:
        found = [self.driver_of(terminal) for terminal in terminals]
        if not found or None in found:
            return
        for name in self._spelt(binder.name):
            names = [name] if len(found) == 1 else ["%s.%d" % (name, i) for i in range(len(found))]
            known = [self.nets.get(one) for one in names]
            if known == found:
                return
            if known == [None] * len(found):
                for one, terminal in zip(names, found):
                    self._add(one, terminal)
                return

    @staticmethod
    def _spelt(name: str):
        yield name
        count = 2
        while True:
            yield "%s~%d" % (name, count)
            count += 1

    def _add(self, name: str, terminal: Optional[int]) -> None:
        assert terminal is not None
        self.nets[name] = terminal
        self.names[terminal].append(name)

    def driver_of(self, terminal: int) -> Optional[int]:
        """The output terminal of the lean netlist that an output terminal of the full one has its bit from; None on a ring of points."""
        seen: set[int] = set()
        while terminal not in self._kept:
            if terminal in seen or self._points.get(terminal) not in self._driver:
                return None
            seen.add(terminal)
            terminal = self._driver[self._points[terminal]]
        return terminal

    def registers(self) -> list[Register]:
        """The registers by rising terminal. One is called after a variable that stands for its output; else after one that it delays."""
        found = [Register(element) for element in self.lean.registers]
        into = {to: source for source, to in self.lean.wires}
        taken: set[str] = set()
        for register in found:
            out = self._variables(register.terminal)
            register.name, register.aliases = (out or [""])[0], list(self.names[register.terminal])
            taken.update(out)
        for register in found:
            delayed = self._variables(into.get(register.element.inputs[0]))
            register.aliases += delayed
            free = [name for name in delayed if name not in taken]
            register.name = register.name or (free + ["reg@%d" % register.terminal])[0]
            taken.add(register.name)
        return found

    def _variables(self, terminal: Optional[int]) -> list[str]:
        """The variables that stand for a net, first those of a single bit."""
        return sorted((name for name in self.names.get(terminal or -1, []) if "@" not in name), key=lambda name: "." in name)


def vector(name: str, found: dict[str, int]) -> list[str]:
    """The names that a name stands for: itself, or name.0, name.1 and so on; none where it is not known."""
    if name in found:
        return [name]
    names: list[str] = []
    while "%s.%d" % (name, len(names)) in found:
        names.append("%s.%d" % (name, len(names)))
    return names
