"""deltawobble where: which node made the element that has a terminal."""
from __future__ import annotations

import argparse
import json

from .. import calls
from ..answer import Refused
from ..at_node import node_line
from ..at_terminal import element_words
from ..files import WrongUse, read
from ..hexes import shortened
from ..netlist import Netlist
from ..refusing import say
from ..sheet import Sheet

WORDS = "say which node of a sheet made the element that has a terminal"
EXAMPLE = "deltawobble where examples/full-adder.hex 5"


def add(parser: argparse.ArgumentParser) -> None:
    parser.add_argument("sheet", help="raw bytes, commented hex or notation; - for standard input")
    parser.add_argument("terminal", type=int, help="a terminal's number, as in both netlists")


def run(given: argparse.Namespace) -> int:
    source = read(given.sheet)
    try:
        full, lean = (Netlist.parse(calls.translate(source.bytes, lean=lean)) for lean in (False, True))
    except Refused as refused:
        return say(source, refused, given.json)
    element = full.element_of(given.terminal)
    if element is None:
        raise WrongUse("%s: there is no terminal %d: they are 0 to %d" % (given.sheet, given.terminal, full.elements[-1].output))
    assert element.node is not None  # a netlist that was not asked for in plain kinds names its nodes (L6)
    sheet = Sheet.parse(source.bytes)
    node = sheet.nodes[element.node]
    start, size = calls.stretch(source.bytes, node.number)
    kept = lean.element_of(given.terminal) is not None
    if given.json:
        print(json.dumps({"accepted": True, "terminal": given.terminal, "element": element.name, "terminals": element.terminals,
                          "kept": kept, "node": node.number, "kind": node.word, "offset": start, "size": size, "above": [n.number for n in node.above()]}))
        return 0
    side = "output" if given.terminal == element.output else "input"
    print("terminal %d: the %s of %s%s" % (given.terminal, side, element_words(element), "" if kept else "; not in the lean netlist"))
    print("made by " + node_line(node))
    print("offset %d:%s" % (start, shortened(source.bytes[start:start + size])))
    above = node.above()
    print("above it, from the root down:" if above else "above it: nothing, it is the root")
    for n in above:
        print(node_line(n))
    if source.made:
        print(*source.made.text.shown(source.made.mark(node.number), "node %d" % node.number), sep="\n")
    return 0
