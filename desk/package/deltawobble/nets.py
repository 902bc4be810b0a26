"""Netlists from outside: what commands say where one is refused."""
from __future__ import annotations

import json
import sys

from .answer import Refused
from .files import Source
from .hexes import shortened
from .netlist import BODY, Netlist
from .terminal import paint
from .words import PARTS


def say_net(source: Source, refused: Refused, as_json: bool) -> int:
    """Shows a refusal of a netlist (21 to 26) on standard error; the exit status is 1."""
    if as_json:
        print(json.dumps(dict(refused.as_json(), file=source.name)))
        return 1
    lines = ["%s: %s" % (source.name, refused)] + around(source.bytes, refused)
    print(paint(lines[0], "red", sys.stderr), *lines[1:], sep="\n", file=sys.stderr)
    return 1


def around(data: bytes, refused: Refused) -> list[str]:
    """The record at an offset and the one before it; or what drives a terminal."""
    if refused.number in (21, 22, 25):
        size = 1 + BODY.get(data[refused.place], 0) if refused.place < len(data) else 0
        lines = ["offset %d:%s" % (refused.place, shortened(data[refused.place:refused.place + size]) or " the end")]
        return lines + ["look at: " + hint for hint in [record_fault(data, refused)] if hint]
    if refused.number == 23:
        net = Netlist.parse(data)
        wires = [w for w in net.wires if w[1] == refused.place]
        pins = [i for i, pin in enumerate(net.pins) if pin == refused.place]
        element = next(e for e in net.elements if refused.place in e.inputs)
        return ["look at: it is an input of %s %d; %d wires drive it%s, and it is %d pins" % (
            element.name, element.first, len(wires), "".join(" (from %d)" % w[0] for w in wires), len(pins))]
    if refused.number == 26:
        net = Netlist.parse(data)
        driven = {to for _, to in net.wires}
        undriven = sum(1 for e in net.elements for i in e.inputs if i not in driven)
        return ["look at: it has %d parts and %d undriven inputs" % (len(net.parts), undriven)]
    return []


def record_fault(data: bytes, refused: Refused) -> str:
    """A word on a record that is refused with 21."""
    place = refused.place
    if refused.number != 21 or place >= len(data):
        return ""
    kind = data[place]
    if kind in (0x25, 0x26):
        return "25 and 26 name nodes, and are not read here: translate --plain writes 21 and 22"
    if kind not in BODY:
        return "kinds are 21 point, 22 part, 23 wire, 24 pin"
    if len(data) < place + 1 + BODY[kind]:
        return "a record of kind %02X has %d bytes, and %d are there" % (kind, 1 + BODY[kind], len(data) - place)
    if kind == 0x22 and data[place + 1] >= len(PARTS):
        return "parts are 00 to 06, not %02X" % data[place + 1]
    return "elements stand before wires, and wires before pins"
