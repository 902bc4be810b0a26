"""deltawobble draw: a picture of a circuit, or of a refused term."""
from __future__ import annotations

import argparse
import json
import sys
from pathlib import Path

from .. import calls
from ..answer import Refused
from ..bits import ticks
from ..draw import netlist_dot, rendered, tree_dot
from ..files import Source, WrongUse, read
from ..netlist import Netlist
from ..output import write
from ..picture import lay_out, planned, svg
from ..picture.png import png
from ..pins import pin_names
from ..refusing import say
from ..runs import recorded
from ..sheet import Sheet

WORDS = "draw the netlist of a sheet, or the term of a refused one with the node marked"
EXAMPLE = "deltawobble draw examples/accumulator.dw -o accumulator.svg\n" \
    "deltawobble draw examples/sticky.dw --trace examples/sticky.trace --tick 3 -o sticky.svg"
KINDS = (".svg", ".png", ".dot")


def add(parser: argparse.ArgumentParser) -> None:
    parser.add_argument("sheet", help="raw bytes, commented hex or notation; - for standard input")
    parser.add_argument("--full", action="store_true", help="the full netlist, with every point")
    parser.add_argument("--lean", action="store_true", help="the lean netlist, which is drawn in any case")
    parser.add_argument("--nodes", action="store_true", help="numbers of terminals and nodes below each element, beside the names")
    parser.add_argument("--depth", type=int, metavar="N", help="definitions so deep in one another are drawn as closed boxes, from 1")
    parser.add_argument("--trace", metavar="FILE", help="colour the wires by the bits of this trace")
    parser.add_argument("--tick", type=int, metavar="N", help="at this tick, from 0 on")
    parser.add_argument("--starts", metavar="BITS", help="what each register shows at tick 0, by rising terminal (0 where not said)")
    parser.add_argument("-o", metavar="FILE", dest="output", help="FILE.svg, FILE.png or FILE.dot; without it DOT is printed")


def run(given: argparse.Namespace) -> int:
    kind = Path(given.output).suffix if given.output else ".dot"
    check(given, kind)
    source = read(given.sheet)
    said: dict = {"accepted": True}
    try:
        data = circuit(source, given, kind)
    except Refused as refused:
        if refused.number < 10 or refused.number > 16:
            return say(source, refused, given.json)
        if not given.json:
            say(source, refused)
        said, data = refused.as_json(), term(source, refused, kind)
    if given.output:
        write(given.output, data)
    elif not given.json:
        sys.stdout.write(data.decode())
    if given.json:
        picture = {} if given.output else {"dot": data.decode()}
        print(json.dumps(dict(said, file=source.name, output=given.output, bytes=len(data), **picture)))
    return int(not said["accepted"])


def check(given: argparse.Namespace, kind: str) -> None:
    """What cannot be asked for together."""
    if kind not in KINDS:
        raise WrongUse("%s: a picture is FILE.svg, FILE.png or FILE.dot" % given.output)
    if given.full and given.lean:
        raise WrongUse("--full and --lean ask for different netlists")
    if given.depth is not None and given.depth < 1:
        raise WrongUse("--depth counts from 1, which draws each definition of main as a closed box")
    if (given.trace is None) != (given.tick is None):
        raise WrongUse("--trace FILE and --tick N go together")
    if given.trace is not None and (given.full or kind == ".dot"):
        raise WrongUse("--trace colours the lean netlist, in FILE.svg or FILE.png")
    if given.starts is not None and given.trace is None:
        raise WrongUse("--starts goes with --trace FILE and --tick N")


def circuit(source: Source, given: argparse.Namespace, kind: str) -> bytes:
    """The picture of an accepted sheet."""
    full = Netlist.parse(calls.translate(source.bytes))
    net = full if given.full else Netlist.parse(calls.translate(source.bytes, lean=True))
    title = source.stem + (", full netlist" if given.full else "")
    if kind == ".dot":
        return netlist_dot(net, pin_names(Sheet.parse(source.bytes, source.own)), title).encode()
    bits = bits_at(source, net, given) if given.trace is not None else None
    title += "" if bits is None else ", tick %d" % given.tick
    text = svg(lay_out(planned(source, net, full, given.depth, given.nodes).frame()), title, bits)
    return text.encode() if kind == ".svg" else png(text)


def bits_at(source: Source, net: Netlist, given: argparse.Namespace) -> dict[int, int]:
    """The bit of each net at the tick asked for."""
    ran, starts = recorded(source, net, given.trace, given.starts)
    if not 0 <= given.tick < len(ran.rows):
        raise WrongUse("%s: the trace has the ticks 0 to %d, and no tick %d" % (given.trace, len(ran.rows) - 1, given.tick))
    steps = ticks(net, starts, ran.rows)
    for _ in range(given.tick + 1):
        inside = next(steps)
    return dict(enumerate(inside.bits))


def term(source: Source, refused: Refused, kind: str) -> bytes:
    """The term of a sheet that is refused with 10 to 16; with 16 no node is marked."""
    sheet = Sheet.parse(source.bytes, source.own)
    mark = sheet.nodes[refused.place] if refused.number < 16 else None
    dot = tree_dot(sheet, mark, "%s, %s" % (source.stem, str(refused).split(":")[0]))
    return dot.encode() if kind == ".dot" else rendered(dot, kind[1:])
