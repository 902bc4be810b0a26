"""deltawobble inline: a linear argument put into the function's body."""
from __future__ import annotations

import argparse
import json
import sys

from .. import calls
from ..answer import Refused
from ..files import Source, WrongUse, read
from ..hexes import sheet_hex
from ..inline import applications, put_in
from ..notation import show
from ..output import put
from ..outputs import ending
from ..refusing import say
from ..sheet import Sheet

WORDS = ("put a linear argument straight into the body of its function (that this is harmless is proved, for first-edition sheets; "
         "the rewriting done here is tested)")
EXAMPLE = "deltawobble inline --show examples/P3.hex"


def add(parser: argparse.ArgumentParser) -> None:
    parser.add_argument("sheet", help="raw bytes, commented hex or notation; - for standard input")
    parser.add_argument("--node", type=int, metavar="N", help="the application at this node; without it the first one")
    parser.add_argument("--all", action="store_true", help="one after the other, until none is left or a sheet on the way is refused")
    parser.add_argument("--show", action="store_true", help="print the sheet in the notation")
    parser.add_argument("-o", metavar="FILE", dest="output", help="raw bytes to FILE, commented hex to FILE.hex; without it commented hex is printed")


def run(given: argparse.Namespace) -> int:
    ending(given.output, ".sheet", ".hex")
    source = read(given.sheet)
    try:
        calls.translate(source.bytes)
    except Refused as refused:
        return say(source, refused, given.json)
    sheet, node = source.bytes, chosen(source, given.node)
    done: list[int] = []
    while node is not None:
        sheet = put_in(sheet, node)
        done.append(node)
        # the theorem asks of each sheet on the way that it can be read
        try:
            calls.translate(sheet)
        except Refused as refused:
            return stopped(source, sheet, refused, done, given.json)
        node = next((n.number for n in applications(Sheet.parse(sheet))), None) if given.all else None
    if given.json:
        print(json.dumps({"accepted": True, "put_in": done, "bytes": len(sheet), "sheet": sheet.hex()}))
    elif given.show:
        sys.stdout.write(show(sheet))
    if given.output or not (given.json or given.show):
        put(given.output, sheet, sheet_hex)
    return 0


def stopped(source: Source, sheet: bytes, refused: Refused, done: list[int], as_json: bool) -> int:
    """Says the refusal of a sheet on the way, and at which step it came; nothing is written."""
    if as_json:
        print(json.dumps(dict(refused.as_json(), file=source.name, put_in=done)))
        return 1
    return say(Source("%s, step %d, node %d put in" % (source.name, len(done), done[-1]), sheet), refused)


def chosen(source: Source, node: int | None) -> int:
    """The application that is put in first."""
    sheet = Sheet.parse(source.bytes)
    found = [n.number for n in applications(sheet)]
    if sheet.edition == 2:
        raise WrongUse("%s: this is a second-edition sheet, and the theorem is about the first" % source.name)
    if not found:
        raise WrongUse("%s: no linear function is applied to an argument here" % source.name)
    if node is not None and node not in found:
        raise WrongUse("%s: node %d is no linear function applied to an argument; these are: %s" % (source.name, node, ", ".join(map(str, found))))
    return found[0] if node is None else node
