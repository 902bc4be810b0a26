"""A netlist as frames: elements and boxes, the names of wires, and the ports of boxes in the order of what was put in."""
from __future__ import annotations

from dataclasses import dataclass, field
from typing import Optional

from ..files import Source
from ..interfaces import Interfaces, Named, Nets, net_names
from ..netlist import Element, Netlist
from ..pins import pin_names
from ..sheet import Node, Sheet
from .frame import GRID, HIGH, WIDE, Frame, Piece, Port, text_wide, up

#: characters of a name that a picture has room for
MOST_NAME = 14
#: sizes of letters: at wires, in boxes
SMALL, PLAIN = 8, 9
POINT = 20

#: the first nodes of the definitions that were put in around something, from the outside inwards
Path = tuple[int, ...]


def cut(name: str) -> str:
    return name if len(name) <= MOST_NAME else name[:MOST_NAME - 1] + "…"


@dataclass
class Box:
    """A definition that was put in: its name, its elements, and the boxes in it."""

    path: Path
    name: str
    elements: list[Element] = field(default_factory=list)
    boxes: dict[Path, "Box"] = field(default_factory=dict)

    @property
    def all_elements(self) -> list[Element]:
        return self.elements + [e for box in self.boxes.values() for e in box.all_elements]


class Plan:
    """What is known of one sheet's netlist for drawing it."""

    def __init__(self, source: Source, net: Netlist, full: Netlist, depth: Optional[int] = None, nodes: bool = False):
        self.source, self.net, self.depth = source, net, depth
        self.numbered = nodes or source.made is None
        self.sheet = Sheet.parse(source.bytes, source.own)
        self.nets, self.interfaces = Nets(net, full), Interfaces(self.sheet)
        through = {i: len(origin.through) for i, origin in enumerate(source.made.origins)} if source.made else {}
        self.names: dict[int, list[Named]] = net_names(self.sheet, self.nets, self.interfaces, through)
        self.driven = {target: self.nets.at_pins.get(start, start) for start, target in net.wires}
        self.elements = [e for e in net.elements if e.output not in self.nets.at_pins]
        self.root = self.boxes()
        self.readers: dict[int, set[int]] = {}
        for element in self.elements:
            for terminal in element.inputs:
                self.readers.setdefault(self.net_at(terminal), set()).add(element.first)
        self.out_nets = [self.nets.at_pins.get(pin, pin) for pin in net.output_pins]

    def net_at(self, terminal: int) -> int:
        """The net at an input terminal: its driver's, or its own where it is a pin."""
        return self.driven.get(terminal, terminal)

    # ---- boxes

    def path_of(self, node: Optional[int]) -> list[tuple[Path, str]]:
        """The boxes around what a node made, from the outside inwards."""
        made = self.source.made
        if made is None or node is None:
            return []
        origin = made.origins[node]
        return [(origin.path[:i + 1], put.name) for i, put in enumerate(origin.through)]

    def boxes(self) -> Box:
        root = Box((), "")
        for element in self.elements:
            box = root
            for path, name in self.path_of(element.node):
                box = box.boxes.setdefault(path, Box(path, name))
            box.elements.append(element)
        return root

    def ports(self, box: Box) -> tuple[list[Port], list[Port]]:
        """The nets that enter a box and those that leave it, in the order of its variables and of its result."""
        inside = box.all_elements
        firsts = {e.first for e in inside}
        drives = [self.nets.at_pins.get(e.output, e.output) for e in inside]
        own = set(drives)
        entering = list(dict.fromkeys(n for e in inside for n in map(self.net_at, e.inputs) if n not in own))
        leaving = [n for n in drives if self.readers.get(n, set()) - firsts or n in self.out_nets]
        taken, given = self.signature(box)
        return (sorted_ports(entering, taken), sorted_ports(leaving, given))

    def signature(self, box: Box) -> tuple[dict[int, str], dict[int, str]]:
        """The nets of a definition's variables by name, and those of its result; each in its order."""
        made = self.source.made
        assert made is not None, "boxes come from a notation"
        node: Node = self.sheet.nodes[box.path[-1]]
        taken: dict[int, str] = {}
        while node.kind in (0x13, 0x15):
            bound = self.interfaces.bound[node.number][0]
            name = made.origins[node.number].binds[0]
            if node.kind == 0x13:
                for bit, terminal in enumerate(bound):
                    taken.setdefault(self.nets.of(terminal), name if len(bound) == 1 else "%s.%d" % (name, bit))
            node = node.subterms[0]
        result = [t for t in self.interfaces.of[node.number] if t in self.nets.points or t in self.nets.kept]
        given: dict[int, str] = {}
        for terminal in result:
            given.setdefault(self.nets.of(terminal), "")
        return taken, given

    # ---- frames

    def frame(self) -> Frame:
        """The sheet's own frame: its ports are the pins."""
        names = pin_names(self.sheet)
        inputs = set(self.net.input_pins)
        left = [Port(pin, 0, name) for pin, name in zip(self.net.pins, names) if pin in inputs]
        right = [Port(self.nets.at_pins.get(pin, pin), 0, name) for pin, name in zip(self.net.pins, names) if pin not in inputs]
        return Frame(self.pieces(self.root, 1), left, right)

    def pieces(self, box: Box, level: int) -> list[Piece]:
        found = [self.element_piece(e) for e in box.elements] + [self.box_piece(b, level) for b in box.boxes.values()]
        return sorted(found, key=lambda p: p.key)

    def box_piece(self, box: Box, level: int) -> Piece:
        key = min(e.first for e in box.all_elements)
        left, right = self.ports(box)
        if self.depth is not None and level >= self.depth:
            return closed_box(box, key, left, right)
        return Piece("open", key, 0, 0, element=box, inner=Frame(self.pieces(box, level + 1), left, right, box.name))

    def element_piece(self, e: Element) -> Piece:
        name = self.best_name(e)
        below = self.below(e, name)
        ins = [self.net_at(t) for t in e.inputs]
        if e.part is None:
            return Piece("point", e.first, POINT, up(POINT + GRID * len(below)), [Port(ins[0], POINT / 2)], [Port(e.output, POINT / 2)], "", below, e)
        wire = "" if e.name == "reg" else name
        wide = max(WIDE, 56 + text_wide(wire, SMALL) + 2) if wire else WIDE
        heights = {0: [], 1: [HIGH / 2], 2: [HIGH / 4, HIGH * 3 / 4]}[len(ins)]
        return Piece(e.name, e.first, wide, up(HIGH + GRID * len(below)), [Port(n, y) for n, y in zip(ins, heights)],
                     [Port(e.output, HIGH / 2)], wire, below, e)

    def below(self, e: Element, name: str) -> list[str]:
        """What stands below a shape: a register's name; the numbers where they are asked for, or there are no names."""
        lines = [name] if name and e.name == "reg" else []
        if self.numbered:
            lines += ["%s %d" % (e.name, e.first)] + (["node %d" % e.node] if e.node is not None else [])
        return lines

    def best_name(self, e: Element) -> str:
        """A text's own name for what an element drives, of those that are bound around it; fresh names of a sheet in bytes are none."""
        made = self.source.made
        if made is None or e.node is None:
            return ""
        here = made.origins[e.node].path
        around = lambda n: made.origins[n.node].path
        return next((cut(n.name) for n in self.names.get(e.output, []) if here[:len(around(n))] == around(n)), "")


def sorted_ports(nets: list[int], named: dict[int, str]) -> list[Port]:
    place = {net: i for i, net in enumerate(named)}
    return [Port(net, 0, named.get(net, "")) for net in sorted(nets, key=lambda n: place.get(n, len(place)))]


def closed_box(box: Box, key: int, left: list[Port], right: list[Port]) -> Piece:
    for ports in (left, right):
        for at, port in enumerate(ports):
            port.y = GRID * (3 + 2 * at)
            port.name = cut(port.name)
    rows = max(len(left), len(right), 1)
    wide = max(WIDE, text_wide(box.name, PLAIN) + 16, text_wide(max([p.name for p in left] + [""], key=len), SMALL) + 30)
    return Piece("closed", key, up(wide, 2), GRID * (2 * rows + 3), left, right, element=box)


def planned(source: Source, net: Netlist, full: Netlist, depth: Optional[int] = None, nodes: bool = False) -> Plan:
    return Plan(source, net, full, depth, nodes)
