"""What a report says of terminals: how many there are (16), the root's (27), and one of the lean netlist (18, 19, 28, 29)."""
from __future__ import annotations

from . import calls
from .answer import Refused
from .at_node import node_line
from .netlist import Element, Netlist
from .sheet import Sheet
from .tree import tree_lines
from .typed import Typed
from .types import Type
from .words import PARTS


def terminals(sheet: Sheet) -> list[str]:
    """Which nodes make the most terminals."""
    typed = Typed(sheet)
    made = []
    for node in sheet.nodes:
        bound = typed.bound(node) if node.kind in (0x13, 0x15, 0x19) else []
        count = sum(2 * t.size for t in bound if t) if bound else PARTS[node.part][1] + 1 if node.kind == 0x1A else 0
        made.append((count, node))
    most = sorted(made, key=lambda m: (-m[0], m[1].number))[:5]
    return ["%d terminals in all" % sum(count for count, _ in made)] + ["node %d, a %s, makes %d" % (n.number, n.word, c) for c, n in most]


def root_fault(root: Type) -> str:
    """Where the chain of sharable arrows breaks off."""
    while root.kind == 3:
        root = root.right
    return "%s is a linear arrow: a circuit would have to be plugged in from outside" % root if root.kind == 4 else ""


def at_terminal(sheet: Sheet, refused: Refused) -> list[str]:
    """The element that has a terminal of the lean netlist, and the node that made it."""
    lean = Netlist.parse(calls.translate(sheet.data, lean=True))
    element = lean.element_of(refused.place)
    if element is None:
        return []
    lines = ["terminal %d: %s" % (refused.place, element_words(element))]
    if refused.number != 29:
        lines.append("look at: " + ring_words(lean, element))
    if element.node is None:
        return lines
    node = sheet.nodes[element.node]
    return lines + ["made by " + node_line(node), "the term, with the node marked:"] + tree_lines(sheet, node)


def ring_words(net: Netlist, start: Element) -> str:
    """A shortest ring through an element that passes no register: from element to element along the wires."""
    owner = {i: e for e in net.elements for i in e.inputs}
    next_: dict[int, list[Element]] = {}
    for source, target in net.wires:
        next_.setdefault(source, []).append(owner[target])
    came: dict[int, Element] = {}
    waiting = [start]
    while waiting:
        element = waiting.pop(0)
        for e in next_.get(element.output, []):
            if e.first == start.first:
                chain = [element]
                while chain[0].first != start.first:
                    chain.insert(0, came[chain[0].first])
                return "the ring %s" % " -> ".join("%s %d" % (x.name, x.first) for x in chain + [start])
            if e.first not in came and e.name != "reg":
                came[e.first] = element
                waiting.append(e)
    return ""


def element_words(element: Element) -> str:
    """An element and its terminals."""
    inputs = " and ".join(str(i) for i in element.inputs)
    what = "a point" if element.part is None else "the part %s" % element.name
    return "%s, %soutput %d" % (what, "input %s, " % inputs if inputs else "", element.output)
