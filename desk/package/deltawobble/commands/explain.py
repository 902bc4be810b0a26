"""deltawobble explain: what is wrong with a sheet, or what it holds."""
from __future__ import annotations

import argparse
import json

from .. import calls
from ..at_node import type_words, wanted_form
from ..explain import counts, report
from ..files import read
from ..sheet import Sheet
from ..terminal import paint
from ..typed import Typed
from ..words import FORM

WORDS = "say in words what is wrong with a sheet, or what it holds"
EXAMPLE = "deltawobble explain examples/fault-misfit.hex"


def add(parser: argparse.ArgumentParser) -> None:
    parser.add_argument("sheet", help="raw bytes, commented hex or notation; - for standard input")
    parser.add_argument("--card", action="store_true", help="hold it to the card's profile too (27 to 29)")


def run(given: argparse.Namespace) -> int:
    source = read(given.sheet)
    refused, lines = report(source.bytes, card=given.card, own=source.own)
    if refused and source.made:
        lines += source.made.place_lines(source.bytes, refused)
    if given.json:
        said = refused.as_json() if refused else {"accepted": True, **numbers(source.bytes)}
        if refused and refused.number == 12:
            sheet = Sheet.parse(source.bytes)
            said["wanted_words"] = wanted_form(sheet, sheet.nodes[refused.place]) if refused.wanted == FORM else type_words(sheet, refused.wanted)
            said["found_words"] = type_words(sheet, refused.found)
        print(json.dumps(dict(said, lines=lines)))
        return int(bool(refused))
    for number, line in enumerate(lines):
        if number == 0:
            line = paint(line, "red" if refused else "green")
        elif line.startswith("> ") or line.startswith(("wanted ", "look at: ")):
            line = paint(line, "yellow")
        print(line)
    return int(bool(refused))


def numbers(data: bytes) -> dict:
    """What an accepted sheet holds, for programs."""
    sheet = Sheet.parse(data)
    root = Typed(sheet).root()
    return {"counts": {name.replace(" ", "_"): count for name, count in counts(sheet, calls.translate(data, plain=True)).items()},
            "root_type": sheet.types.index(root), "root_words": str(root)}
