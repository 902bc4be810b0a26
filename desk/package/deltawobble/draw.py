"""DOT: the netlist of an accepted sheet, for who lays it out otherwise; and the term of a refused one with the node marked, which Graphviz draws."""
from __future__ import annotations

import shutil
import subprocess
from typing import Optional

from .files import WrongUse
from .naming import names_of
from .netlist import Element, Netlist
from .sheet import Node, Sheet
from .tree import label, shown

#: what stands in a part's box: the rectangular signs of IEC 60617
SIGNS = {"and": "&amp;", "or": "≥1", "xor": "=1", "inv": "1 o", "reg": "D", "zero": "0", "one": "1"}

#: a table that shows nothing of itself
BARE = 'BORDER="0" CELLBORDER="0" CELLSPACING="0" CELLPADDING="0"'


def q(text: str) -> str:
    return '"%s"' % text.replace("\\", "\\\\").replace('"', '\\"')


# ---- netlists

def netlist_dot(net: Netlist, names: list[str], title: str) -> str:
    """The netlist in DOT: parts in boxes, points, pins at the sides."""
    lines = ["digraph circuit {", "  rankdir=LR; ranksep=0.35; nodesep=0.2; fontname=Helvetica; fontsize=12; labelloc=t; label=%s;" % q(title),
             "  node [fontname=Helvetica fontsize=9 shape=none margin=0]; edge [arrowsize=0.45 penwidth=0.9 fontname=Helvetica fontsize=7];"]
    lines += [element_dot(e) for e in net.elements]
    inputs = set(net.input_pins)
    sides: dict[str, list[str]] = {"source": [], "sink": []}
    for position, (pin, name) in enumerate(zip(net.pins, names)):
        sides["source" if pin in inputs else "sink"].append("p%d" % position)
        lines.append("  p%d [shape=cds style=filled fillcolor=%s margin=\"0.08,0.03\" label=%s];" % (
            position, "lightblue" if pin in inputs else "palegreen", q("%s" % name)))
    for side, pins in sides.items():
        lines.append("  { rank=%s; %s }" % (side, "; ".join(pins))) if pins else None
    ports = {t: port for e in net.elements for t, port in terminal_ports(e)}
    lines += ["  %s -> %s;" % (ports[a], ports[b]) for a, b in net.wires]
    for position, pin in enumerate(net.pins):
        ends = ("p%d:e" % position, ports[pin]) if pin in inputs else (ports[pin], "p%d:w" % position)
        lines.append("  %s -> %s;" % ends)
    return "\n".join(lines + ["}"]) + "\n"


def terminal_ports(e: Element) -> list[tuple[int, str]]:
    """Where a wire begins or ends at a terminal."""
    if e.part is None:
        return [(e.first, "e%d:p:w" % e.first), (e.output, "e%d:p:e" % e.first)]
    return [(i, "e%d:i%d:w" % (e.first, k)) for k, i in enumerate(e.inputs)] + [(e.output, "e%d:o:e" % e.first)]


def element_dot(e: Element) -> str:
    """A point is a dot; a part is a table with its inputs left, its shape, its output right, and its numbers below."""
    node = "" if e.node is None else "node %d" % e.node
    if e.part is None:
        dot = '<TABLE BORDER="0" STYLE="ROUNDED" BGCOLOR="black" FIXEDSIZE="TRUE" WIDTH="9" HEIGHT="9"><TR><TD></TD></TR></TABLE>'
        rows = '<TR><TD PORT="p" FIXEDSIZE="TRUE" WIDTH="9" HEIGHT="9">%s</TD></TR><TR><TD>%s</TD></TR>' % (dot, small("point %d" % e.first, node))
        return "  e%d [label=<<TABLE %s>%s</TABLE>>];" % (e.first, BARE, rows)
    inputs = len(e.inputs) or 1
    cells = []
    for k in range(inputs):
        cells.append('<TR><TD PORT="i%d" FIXEDSIZE="TRUE" WIDTH="1" HEIGHT="%d"></TD>' % (k, 40 // inputs))
        if k == 0:
            cells[-1] += '<TD ROWSPAN="%d" BORDER="1" FIXEDSIZE="TRUE" WIDTH="36" HEIGHT="40">%s</TD>' % (inputs, SIGNS[e.name])
            cells[-1] += '<TD PORT="o" ROWSPAN="%d" FIXEDSIZE="TRUE" WIDTH="1" HEIGHT="40"></TD>' % inputs
        cells[-1] += "</TR>"
    cells.append('<TR><TD COLSPAN="3">%s</TD></TR>' % small("%s %d" % (e.name, e.first), node))
    return "  e%d [label=<<TABLE %s>%s</TABLE>>];" % (e.first, BARE, "".join(cells))


def small(first: str, second: str) -> str:
    """One or two lines below an element."""
    return '<FONT POINT-SIZE="8" COLOR="gray30">%s%s</FONT>' % (first, "<BR/>" + second if second else "")


# ---- terms

def tree_dot(sheet: Sheet, mark: Optional[Node], title: str) -> str:
    """The term as a tree, the node marked; of a large term what stands around it."""
    names, seen = names_of(sheet), shown(sheet, mark)
    lines = ["digraph term {", "  ranksep=0.3; nodesep=0.2; labelloc=t; fontname=Helvetica; fontsize=12; label=%s;" % q(title),
             "  node [shape=box style=\"rounded,filled\" fillcolor=white fontname=Helvetica fontsize=10 height=0.25 margin=\"0.08,0.04\"];",
             "  edge [arrowsize=0.5];"]
    for node in sheet.nodes:
        if node.number not in seen:
            continue
        more = " .." if any(s.number not in seen for s in node.subterms) else ""
        look = " color=red penwidth=2 fillcolor=mistyrose" if node is mark else ""
        lines.append("  n%d [label=%s%s];" % (node.number, q("%d  %s%s" % (node.number, label(node, names), more)), look))
        lines += ["  n%d -> n%d;" % (node.number, s.number) for s in node.subterms if s.number in seen]
    return "\n".join(lines + ["}"]) + "\n"


# ---- Graphviz

def rendered(dot: str, kind: str) -> bytes:
    """A tree as svg or png."""
    if shutil.which("dot") is None:
        raise WrongUse("the picture of a term needs Graphviz (Debian package graphviz); '-o FILE.dot' writes the DOT without it")
    words = ["dot", "-T" + kind] + (["-Gdpi=110"] if kind == "png" else [])
    done = subprocess.run(words, input=dot.encode(), capture_output=True)
    if done.returncode:
        raise WrongUse("Graphviz could not draw this: %s" % done.stderr.decode(errors="replace").strip()[:300])
    return done.stdout
