"""deltawobble check: a netlist from outside."""
from __future__ import annotations

import argparse
import json

from .. import calls
from ..answer import Refused
from ..files import read_net
from ..netlist import Netlist
from ..nets import say_net
from ..terminal import paint

WORDS = "check a netlist from another program, in kinds 21 to 24"
EXAMPLE = "deltawobble check theirs.net --lean"


def add(parser: argparse.ArgumentParser) -> None:
    parser.add_argument("netlist", help="raw bytes or commented hex; - for standard input")
    parser.add_argument("--lean", action="store_true", help="it is a lean one: gaps in the numbers are allowed")


def run(given: argparse.Namespace) -> int:
    source = read_net(given.netlist)
    try:
        calls.check(source.bytes, lean=given.lean)
    except Refused as refused:
        return say_net(source, refused, given.json)
    net = Netlist.parse(source.bytes)
    counts = {"points": len(net.points), "parts": len(net.parts), "wires": len(net.wires), "pins": len(net.pins)}
    if given.json:
        print(json.dumps(dict(accepted=True, **counts)))
    else:
        print(paint("accepted", "green") + ": " + ", ".join("%d %s" % (n, word) for word, n in counts.items()))
    return 0
