"""deltawobble back: from a netlist to a sheet."""
from __future__ import annotations

import argparse
import json
import sys

from .. import calls
from ..answer import Refused
from ..files import read_net
from ..hexes import sheet_hex
from ..nets import say_net
from ..notation import show
from ..output import put
from ..outputs import ending

WORDS = "make a sheet from a netlist of 1 to 16 parts"
EXAMPLE = "deltawobble translate --lean --plain examples/P6.hex -o p6.net\ndeltawobble back --lean --show p6.net"


def add(parser: argparse.ArgumentParser) -> None:
    parser.add_argument("netlist", help="raw bytes or commented hex; - for standard input")
    parser.add_argument("--lean", action="store_true", help="it is a lean one: gaps in the numbers are allowed")
    parser.add_argument("--show", action="store_true", help="print the sheet in the notation")
    parser.add_argument("-o", metavar="FILE", dest="output", help="raw bytes to FILE, commented hex to FILE.hex; without it commented hex is printed")


def run(given: argparse.Namespace) -> int:
    ending(given.output, ".sheet", ".hex")
    source = read_net(given.netlist)
    try:
        sheet = calls.back(source.bytes, lean=given.lean)
    except Refused as refused:
        return say_net(source, refused, given.json)
    if given.json:
        print(json.dumps({"accepted": True, "bytes": len(sheet), "sheet": sheet.hex()}))
    elif given.show:
        sys.stdout.write(show(sheet))
    if given.output or not (given.json or given.show):
        put(given.output, sheet, sheet_hex)
    return 0
