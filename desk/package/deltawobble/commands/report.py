"""deltawobble report: one page that shows a sheet whole."""
from __future__ import annotations

import argparse
import json
import sys

from ..files import WrongUse, read
from ..output import write
from ..page import page

WORDS = "make one page that shows a sheet whole: text, picture, waves, counts, or its refusal"
EXAMPLE = "deltawobble report examples/sticky.dw examples/sticky.trace -o sticky.html"


def add(parser: argparse.ArgumentParser) -> None:
    parser.add_argument("sheet", help="raw bytes, commented hex or notation; - for standard input")
    parser.add_argument("traces", nargs="*", metavar="trace", help="traces, as run takes them: each has its waves on the page")
    parser.add_argument("--starts", metavar="BITS", help="what each register shows at tick 0, by rising terminal (0 where not said)")
    parser.add_argument("-o", metavar="FILE", dest="output", required=True, help="FILE.html; - for standard output")


def run(given: argparse.Namespace) -> int:
    if [given.sheet, *given.traces].count("-") > 1:
        raise WrongUse("only one of sheet and traces can come from standard input")
    source = read(given.sheet)
    text, facts = page(source, given.traces, given.starts)
    write(given.output, text.encode())
    refused = facts.refused
    if given.json:
        said = refused.as_json() if refused else {"accepted": True}
        print(json.dumps(dict(said, file=source.name, output=given.output, bytes=len(text.encode()))))
    elif refused:
        print("%s: %s" % (source.name, refused), file=sys.stderr)
    elif given.output != "-":
        print("%s: %s on one page" % (given.output, source.name))
    return int(refused is not None)
