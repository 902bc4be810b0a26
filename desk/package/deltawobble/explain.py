"""What is wrong with a sheet, in words; or what it holds."""
from __future__ import annotations

from typing import Optional

from . import calls
from .answer import Refused
from .at_node import at_node
from .at_offset import at_offset
from .at_terminal import at_terminal, root_fault, terminals
from .hexes import shortened
from .netlist import Netlist
from .sheet import Own, Sheet
from .typed import Typed

MOST_BEFORE = 16


def explain(sheet: bytes, *, card: bool = False) -> str:
    """A report on a sheet, its first line `accepted` or `refused NUMBER PLACE`; `card` asks for the card's profile too."""
    return "\n".join(report(sheet, card=card)[1]) + "\n"


def report(sheet: bytes, *, card: bool = False, own: Optional[Own] = None) -> tuple[Optional[Refused], list[str]]:
    """The refusal, if there is one, and the report's lines. `own` are a notation's names."""
    try:
        full = calls.translate(sheet, plain=True, card=card)
    except Refused as refused:
        return refused, refused_lines(sheet, refused, own)
    return None, accepted_lines(sheet, full)


# ---- accepted

def counts(sheet: Sheet, plain_full: bytes) -> dict[str, int]:
    """Counts of an accepted sheet. Netlists are counted in plain kinds."""
    full, plain_lean = Netlist.parse(plain_full), calls.translate(sheet.data, lean=True, plain=True)
    lean = Netlist.parse(plain_lean)
    return dict([("nodes", len(sheet.nodes)), ("depth", sheet.depth), ("types", len(sheet.types)), ("parts", len(full.parts)),
              ("points", len(full.points)), ("kept points", len(lean.points)), ("wires", len(full.wires)), ("pins", len(full.pins)),
              ("full netlist bytes", len(plain_full)), ("lean netlist bytes", len(plain_lean)),
              ("registers", len(lean.registers)), ("input pins", len(lean.input_pins)), ("output pins", len(lean.output_pins))])


def accepted_lines(data: bytes, plain_full: bytes) -> list[str]:
    sheet = Sheet.parse(data)
    root = Typed(sheet).root()
    lines = ["accepted"] + ["%s %d" % count for count in counts(sheet, plain_full).items()]
    lines.append("root type %d: %s" % (sheet.types.index(root), root))
    try:
        calls.translate(data, card=True)
        lines.append("card: the profile holds")
    except Refused as refused:
        lines.append("card: %s" % refused)
    return lines


# ---- refused

def refused_lines(data: bytes, refused: Refused, own: Optional[Own] = None) -> list[str]:
    """The report of a refusal of this sheet, by any call on sheets."""
    lines = ["refused %d %d" % (refused.number, refused.place), refused.sentence]
    if 2 <= refused.number <= 9:
        return lines + _around(data, refused.place) + _look(at_offset(data, refused))
    if 10 <= refused.number <= 15:
        said, hints = at_node(Sheet.parse(data, own), refused)
        return lines + said + _look(hints)
    if refused.number == 16:
        return lines + _look(terminals(Sheet.parse(data)))
    if refused.number == 27:
        sheet = Sheet.parse(data)
        root = Typed(sheet).root()
        return lines + ["root type %d: %s" % (sheet.types.index(root), root)] + _look([root_fault(root)])
    if refused.number in (18, 19, 28, 29):
        return lines + at_terminal(Sheet.parse(data, own), refused)
    if refused.number == 17:
        return lines + ["%d bytes are needed" % refused.place]
    return lines


def _look(hints: list[str]) -> list[str]:
    return ["look at: " + hint for hint in hints if hint]


def _around(data: bytes, place: int) -> list[str]:
    low = max(place - MOST_BEFORE, 0)
    before = "before it, from offset %d:%s" % (low, shortened(data[low:place])) if place else "before it: nothing"
    return ["offset %d:%s" % (place, shortened(data[place:]) or " the sheet's end"), before]
