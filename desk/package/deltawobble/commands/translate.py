"""deltawobble translate: a sheet to its netlist."""
from __future__ import annotations

import argparse
import json

from .. import calls
from ..answer import Refused
from ..files import read
from ..hexes import netlist_hex
from ..output import put
from ..outputs import ending
from ..refusing import say

WORDS = "translate a sheet to its full or lean netlist"
EXAMPLE = "deltawobble translate --lean examples/full-adder.hex -o adder.net"


def add(parser: argparse.ArgumentParser) -> None:
    parser.add_argument("sheet", help="raw bytes, commented hex or notation; - for standard input")
    parser.add_argument("-o", metavar="FILE", dest="output", help="raw bytes to FILE, commented hex to FILE.hex; without it commented hex is printed")
    wishes(parser)


def wishes(parser: argparse.ArgumentParser) -> None:
    parser.add_argument("--lean", action="store_true", help="the lean netlist, not the full one")
    parser.add_argument("--plain", action="store_true", help="kinds 21 and 22, which name no nodes")
    parser.add_argument("--card", action="store_true", help="hold it to the card's profile (27 to 29)")


def run(given: argparse.Namespace) -> int:
    ending(given.output, ".net", ".hex")
    source = read(given.sheet)
    try:
        net = calls.translate(source.bytes, lean=given.lean, plain=given.plain, card=given.card)
    except Refused as refused:
        return say(source, refused, given.json)
    if given.json:
        print(json.dumps({"accepted": True, "bytes": len(net), "netlist": net.hex()}))
    if given.output or not given.json:
        put(given.output, net, netlist_hex, ".net")
    return 0
