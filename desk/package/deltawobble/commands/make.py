"""deltawobble make: notation to a sheet."""
from __future__ import annotations

import argparse
import json

from .. import calls
from ..answer import Refused
from ..files import Source, need_text, raw
from ..hexes import sheet_hex
from ..notation import check_unused, make
from ..output import put
from ..outputs import ending
from ..refusing import say

WORDS = "make a sheet from a text in the notation (docs/NOTATION.md)"
EXAMPLE = "deltawobble make examples/sticky.dw -o sticky.sheet"


def add(parser: argparse.ArgumentParser) -> None:
    parser.add_argument("text", help="a file in the notation; - for standard input")
    parser.add_argument("-o", metavar="FILE", dest="output", help="raw bytes to FILE, commented hex to FILE.hex; without it commented hex is printed")


def run(given: argparse.Namespace) -> int:
    ending(given.output, ".sheet", ".hex")
    made = make(need_text(given.text, raw(given.text)), given.text)
    check_unused(made)
    try:
        calls.translate(made.sheet)
    except Refused as refused:
        return say(Source(given.text, made.sheet, made), refused, given.json)
    if given.json:
        print(json.dumps({"accepted": True, "bytes": len(made.sheet), "sheet": made.sheet.hex()}))
    if given.output or not given.json:
        put(given.output, made.sheet, lambda sheet: sheet_hex(sheet, made.own()))
    return 0
