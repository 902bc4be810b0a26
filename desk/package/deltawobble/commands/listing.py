"""deltawobble listing: both netlists in words, or the refusal."""
from __future__ import annotations

import argparse
import json
import sys

from .. import calls
from ..answer import Refused
from ..files import read
from ..netlist import Netlist, listing

WORDS = "print both netlists of a sheet in words (document 01's listing)"
EXAMPLE = "deltawobble listing examples/P3.hex"


def add(parser: argparse.ArgumentParser) -> None:
    parser.add_argument("sheet", help="raw bytes, commented hex or notation; - for standard input")


def run(given: argparse.Namespace) -> int:
    sheet = read(given.sheet).bytes
    try:
        full, lean = (Netlist.parse(calls.translate(sheet, lean=lean)) for lean in (False, True))
    except Refused as refused:
        print(json.dumps(refused.as_json()) if given.json else "refused %d %d" % (refused.number, refused.place))
        return 1
    if given.json:
        print(json.dumps({"accepted": True, "full": full.lines(), "lean": lean.lines()}))
    else:
        sys.stdout.write(listing(full, lean))
    return 0
