"""A sheet's term as a tree of lines, with one node marked."""
from __future__ import annotations

from typing import Optional

from .naming import Names, names_of
from .sheet import Node, Sheet, part_name
from .typed import Typed
from .types import written

#: a term of more nodes is shown around the marked node alone
MOST = 40
#: and so many levels below it
BELOW = 3


def label(node: Node, names: Names) -> str:
    """A node in the words of the notation, without its subterms."""
    bound = names.bound.get(node.number, [])
    if node.is_variable:
        return names.word(node)
    if node.kind in (0x13, 0x15, 0x19):
        t = bound[0].type
        return "%s %s : %s" % ("fix" if node.kind == 0x19 else "fun", bound[0].name, written(t, names.types) if t else "?")
    if node.kind == 0x18:
        return "let (%s, %s) =" % (bound[0].name, bound[1].name)
    if node.kind == 0x1B:
        return "let %s =" % bound[0].name
    if node.kind == 0x1A:
        return part_name(node.part)
    return {0x14: "apply", 0x16: "apply, linear", 0x17: "pair"}[node.kind]


def shown(sheet: Sheet, mark: Optional[Node]) -> set[int]:
    """The numbers of the nodes that are shown: all of a small term, else those above the marked one, beside and closely below it."""
    if len(sheet.nodes) <= MOST:
        return {node.number for node in sheet.nodes}
    centre = mark or sheet.term
    chain = centre.above() + [centre]
    near = {node.number for node in chain} | {s.number for node in chain for s in node.subterms}
    return near | {n.number for n in sheet.nodes if n.depth <= centre.depth + BELOW and centre in n.above()}


def tree_lines(sheet: Sheet, mark: Optional[Node] = None) -> list[str]:
    """A line for each node shown: `>` at the marked one, its number, the node, and its type where that is known."""
    names, typed, show = names_of(sheet), Typed(sheet), shown(sheet, mark)
    rows: list[tuple[str, str]] = []

    def go(node: Node, level: int) -> None:
        head = "%s %4d  %s%s" % (">" if node is mark else " ", node.number, "  " * level, label(node, names))
        hidden = any(s.number not in show for s in node.subterms)
        t = typed.of(node)
        rows.append((head + (" ..." if hidden else ""), "" if t is None else written(t, names.types)))
        for s in node.subterms:
            if s.number in show:
                go(s, level + 1)

    go(sheet.term, 0)
    wide = min(max(len(head) for head, _ in rows), 60)
    return [("%-*s   %s" % (wide, head, t)).rstrip() for head, t in rows]
