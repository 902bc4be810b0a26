"""What a report says where a sheet is refused at a node (10 to 15)."""
from __future__ import annotations

from typing import Callable

from . import calls
from .answer import Refused
from .hexes import shortened
from .naming import names_of
from .sheet import Node, Sheet, part_name
from .tree import tree_lines
from .typed import Typed
from .types import part_type
from .words import FORM, KINDS, PARTS


def node_line(node: Node) -> str:
    return "node %d: %s (%02X)" % (node.number, KINDS[node.kind], node.kind)


def at_node(sheet: Sheet, refused: Refused) -> tuple[list[str], list[str]]:
    """The node, where it stands, what is above it, the term with the node marked; and what to look at."""
    node = sheet.nodes[refused.place]
    start, size = calls.stretch(sheet.data, node.number)
    lines = [clash(sheet, node, refused)] if refused.number == 12 else []
    lines += [node_line(node), "offset %d:%s" % (start, shortened(sheet.data[start:start + size]))]
    above = node.above()
    lines.append("above it, from the root down:" if above else "above it: nothing, it is the root")
    lines += [node_line(n) for n in above]
    lines += ["the term, with the node marked:"] + tree_lines(sheet, node)
    return lines, HINTS[refused.number](sheet, node, refused)


def type_words(sheet: Sheet, number: int) -> str:
    return "type %d: %s" % (number, sheet.types[number])


def wanted_form(sheet: Sheet, node: Node) -> str:
    """The form that a rule wants, where it wants no one type (document 02, L3)."""
    if node.kind == 0x1A:
        name, inputs = PARTS[node.part]
        return "the type of the part %s, %s, which stands nowhere in this sheet" % (name, part_type(node.part, inputs, sheet.edition == 2))
    return {0x13: "a sharable arrow", 0x14: "a sharable arrow", 0x15: "a linear arrow", 0x16: "a linear arrow", 0x17: "a product",
            0x18: "a product", 0x19: "a sharable type", 0x1B: "a sharable type"}[node.kind]


def clash(sheet: Sheet, node: Node, refused: Refused) -> str:
    """Refusal 12's two types in words."""
    wanted = wanted_form(sheet, node) if refused.wanted == FORM else type_words(sheet, refused.wanted)
    return "wanted %s, found %s" % (wanted, type_words(sheet, refused.found))


def _misfit(sheet: Sheet, node: Node, refused: Refused) -> list[str]:
    wanted, found = refused.wanted, sheet.types[refused.found]
    subterms = [s.number for s in node.subterms]
    if node.kind == 0x1A:
        return ["node %d names the part %s, and its record gives it %s" % (node.number, part_name(node.part), found)]
    if node.kind in (0x14, 0x16):
        if wanted != FORM:
            return ["the function, node %d, takes %s; its argument, node %d, has type %s" % (subterms[0], sheet.types[wanted], subterms[1], found)]
        other = {3: 0x14, 4: 0x16}.get(found.kind)
        meant = "; %02X, a %s, goes with it" % (other, KINDS[other]) if other else ", and can be applied to nothing"
        return ["the function, node %d, has type %s%s" % (subterms[0], found, meant)]
    if node.kind in (0x18, 0x1B):
        return ["what is %s, node %d, has type %s" % ("taken apart" if node.kind == 0x18 else "named", subterms[0], found)]
    if wanted == FORM:
        return ["the type that its record names, %d, is %s" % (refused.found, found)]
    if node.kind == 0x17:
        typed = Typed(sheet)
        half = 0 if typed.number(node.subterms[0]) == refused.found and sheet.types[node.type_number].left != found else 1
        which = ("first", "second")[half]
        return ["the pair's %s half, node %d, has type %s, and the product wants %s" % (which, subterms[half], found, sheet.types[wanted])]
    result = "the fixed point" if node.kind == 0x19 else "the arrow's right side"
    return ["the body, node %d, has type %s, and %s is %s" % (subterms[0], found, result, sheet.types[wanted])]


def _scope(sheet: Sheet, node: Node, refused: Refused) -> list[str]:
    scope = names_of(sheet).scope[node.number]
    if not scope:
        return ["no binder is around it, and its number is %d" % node.binder]
    return ["its number is %d, and the binders around it are 0 to %d" % (node.binder, len(scope) - 1)] + \
        ["binder %d is %s of node %d" % (i, b.name, b.node.number) for i, b in list(enumerate(scope))[:8]]


def _sort(sheet: Sheet, node: Node, refused: Refused) -> list[str]:
    binder = names_of(sheet).scope[node.number][node.binder]
    return ["binder %d is %s of node %d, a %s: %s %02X goes with it" % (node.binder, binder.name, binder.node.number, KINDS[binder.node.kind],
                                                                      "12" if binder.linear else "11", node.binder)]


def _used(sheet: Sheet, node: Node, refused: Refused) -> list[str]:
    names = names_of(sheet)
    binder = names.scope[node.number][node.binder]
    first = [n for n, b in names.meant.items() if b is binder and n < node.number]
    return ["%s of node %d is used at node %s, and again here" % (binder.name, binder.node.number, first[0])] if first else []


def _unused(sheet: Sheet, node: Node, refused: Refused) -> list[str]:
    binder = names_of(sheet).bound[node.number][0]
    return ["%s : %s stands nowhere in node %d's body" % (binder.name, binder.type, node.number)]


def _part(sheet: Sheet, node: Node, refused: Refused) -> list[str]:
    return ["its record says part %02X; there are %s" % (node.part, ", ".join("%02X %s" % (i, name) for i, (name, _) in enumerate(PARTS)))]


HINTS: dict[int, Callable[[Sheet, Node, Refused], list[str]]] = {10: _scope, 11: _sort, 12: _misfit, 13: _used, 14: _unused, 15: _part}
