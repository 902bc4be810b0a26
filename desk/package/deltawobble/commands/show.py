"""deltawobble show: a sheet as notation."""
from __future__ import annotations

import argparse
import json

from ..answer import Refused
from ..files import read
from ..notation import show
from ..output import write
from ..outputs import ending
from ..refusing import say

WORDS = "write an accepted sheet in the notation, with names; those of a text are kept"
EXAMPLE = "deltawobble show examples/P3.hex"


def add(parser: argparse.ArgumentParser) -> None:
    parser.add_argument("sheet", help="raw bytes, commented hex or notation; - for standard input")
    parser.add_argument("-o", metavar="FILE", dest="output", help="write the text to FILE.dw; without it it is printed")


def run(given: argparse.Namespace) -> int:
    ending(given.output, ".dw")
    source = read(given.sheet)
    try:
        text = show(source.bytes, source.own)
    except Refused as refused:
        return say(source, refused, given.json)
    if given.output:
        write(given.output, text.encode())
    if given.json:
        print(json.dumps({"accepted": True, "notation": text}))
    elif not given.output:
        print(text, end="")
    return 0
