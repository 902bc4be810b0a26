"""Netlists, parsed from bytes (document 01, "The full netlist"; document 02, L6)."""
from __future__ import annotations

from dataclasses import dataclass, field
from typing import Optional

from .words import PARTS

#: kind: body length
BODY = {0x21: 2, 0x22: 3, 0x23: 4, 0x24: 2, 0x25: 4, 0x26: 5}


@dataclass(frozen=True)
class Element:
    """A point, or a part with its number. Terminals run from `first` on, inputs before the output."""

    first: int
    part: Optional[int] = None
    node: Optional[int] = None

    @property
    def name(self) -> str:
        return "point" if self.part is None else PARTS[self.part][0]

    @property
    def inputs(self) -> list[int]:
        count = 1 if self.part is None else PARTS[self.part][1]
        return list(range(self.first, self.first + count))

    @property
    def output(self) -> int:
        return self.first + len(self.inputs)

    @property
    def terminals(self) -> list[int]:
        return self.inputs + [self.output]


@dataclass
class Netlist:
    """Elements in making order, wires (from, to), and pins (terminals)."""

    elements: list[Element] = field(default_factory=list)
    wires: list[tuple[int, int]] = field(default_factory=list)
    pins: list[int] = field(default_factory=list)

    @staticmethod
    def parse(data: bytes) -> "Netlist":
        """The netlist in these bytes. ValueError, with the offset, at a record that is none."""
        if not isinstance(data, (bytes, bytearray, memoryview)):
            raise TypeError("a netlist is bytes, and not %s" % type(data).__name__)
        net, at, data = Netlist(), 0, bytes(data)
        while at < len(data):
            kind = data[at]
            body = data[at + 1:at + 1 + BODY.get(kind, 0)]
            if kind not in BODY or len(body) < BODY[kind] or (kind in (0x22, 0x26) and body[0] >= len(PARTS)):
                raise ValueError("no record of a netlist begins at offset %d" % at)
            net._take(kind, body)
            at += 1 + len(body)
        return net

    def _take(self, kind: int, body: bytes) -> None:
        part = body[0] if kind in (0x22, 0x26) else None
        rest = body if part is None else body[1:]
        numbers = [int.from_bytes(rest[i:i + 2], "little") for i in range(0, len(rest), 2)]
        if kind == 0x23:
            self.wires.append((numbers[0], numbers[1]))
        elif kind == 0x24:
            self.pins.append(numbers[0])
        else:
            self.elements.append(Element(numbers[0], part, numbers[1] if len(numbers) > 1 else None))

    @property
    def points(self) -> list[Element]:
        return [e for e in self.elements if e.part is None]

    @property
    def parts(self) -> list[Element]:
        return [e for e in self.elements if e.part is not None]

    @property
    def registers(self) -> list[Element]:
        """The registers by rising terminal, as a run takes their starts."""
        return sorted((e for e in self.elements if e.name == "reg"), key=lambda e: e.first)

    @property
    def input_pins(self) -> list[int]:
        """The pins that are input terminals, in pin order."""
        inputs = {i for e in self.elements for i in e.inputs}
        return [p for p in self.pins if p in inputs]

    @property
    def output_pins(self) -> list[int]:
        inputs = {i for e in self.elements for i in e.inputs}
        return [p for p in self.pins if p not in inputs]

    def element_of(self, terminal: int) -> Optional[Element]:
        """The element that has this terminal."""
        return next((e for e in self.elements if terminal in e.terminals), None)

    def nodes(self) -> list[tuple[str, dict]]:
        """Elements and pins as networkx takes them: a name, and what is known of it.

            >>> net = Netlist([Element(0, 5)], [], [0, 1])
            >>> [name for name, _ in net.nodes()], [edge[:2] for edge in net.edges()]
            (['inv 0', 'pin 0', 'pin 1'], [('pin 0', 'inv 0'), ('inv 0', 'pin 1')])
        """
        inputs = set(self.input_pins)
        found: list[tuple[str, dict]] = [(self._name(e), {"kind": e.name, "node": e.node, "terminals": e.terminals}) for e in self.elements]
        return found + [("pin %d" % i, {"kind": "input pin" if pin in inputs else "output pin", "terminals": [pin]}) for i, pin in enumerate(self.pins)]

    def edges(self) -> list[tuple[str, str, dict]]:
        """Wires from element to element, and from and to pins: for a networkx.MultiDiGraph, by add_edges_from."""
        at, inputs = {t: self._name(e) for e in self.elements for t in e.terminals}, set(self.input_pins)
        found: list[tuple[str, str, dict]] = [(at[a], at[b], {"source": a, "target": b}) for a, b in self.wires]
        for i, pin in enumerate(self.pins):
            ends = ("pin %d" % i, at[pin]) if pin in inputs else (at[pin], "pin %d" % i)
            found.append((*ends, {"source": pin, "target": pin}))
        return found

    @staticmethod
    def _name(e: Element) -> str:
        return "%s %d" % (e.name, e.first)

    def lines(self) -> list[str]:
        """The netlist as the listing has it."""
        said = []
        for e in self.elements:
            word = "point" if e.part is None else "part " + e.name
            said.append(" ".join([word] + [str(t) for t in e.terminals]))
        said += ["wire %d %d" % wire for wire in self.wires]
        return said + ["pin %d" % pin for pin in self.pins]


def listing(full: Netlist, lean: Netlist) -> str:
    """The listing of an accepted sheet (document 01)."""
    return "\n".join(["full"] + full.lines() + ["lean"] + lean.lines() + ["end"]) + "\n"
