"""What the page shows of one sheet, gathered from the proved calls."""
from __future__ import annotations

import base64
import operator
from dataclasses import dataclass, field
from typing import Optional

from .. import calls
from ..answer import Refused
from ..bits import Inside, ticks
from ..explain import refused_lines
from ..files import Source
from ..netlist import Netlist
from ..picture import Frame, lay_out
from ..picture.plan import Plan
from ..pins import pin_names
from ..runs import recorded
from ..sheet import Sheet
from ..words import place_word
from .words import lines_of, term_lines

#: the registers' bits are kept at every so many ticks; the page goes on from there
STEP = 256
#: a sheet of more parts opens with its boxes closed
MANY = 60
#: waves of registers that have a row of their own
ROWS = 64
NUMBERS = {operator.and_: 0, operator.or_: 1, operator.xor: 2}


@dataclass
class Facts:
    """`data` is for the page's script; the pictures are drawn into the page; `refused` is the sheet's refusal, or the first of its runs'."""

    data: dict = field(default_factory=dict)
    whole: Optional[Frame] = None
    closed: Optional[Frame] = None
    refused: Optional[Refused] = None


def gathered(source: Source, traces: list[str], starts: Optional[str] = None) -> Facts:
    """Everything of a sheet, accepted or refused."""
    try:
        full = Netlist.parse(calls.translate(source.bytes))
    except Refused as refused:
        return refused_facts(source, refused)
    lean = Netlist.parse(calls.translate(source.bytes, lean=True))
    plan = Plan(source, lean, full)
    facts = Facts(whole=lay_out(plan.frame()))
    if plan.root.boxes:
        facts.closed = lay_out(Plan(source, lean, full, depth=1).frame())
    facts.data = {"text": lines_of(source, plan, lean, None).as_json(), "counts": counts(source, full, lean), "card": card(source.bytes),
                  "verilog": verilog(source.bytes), "refusal": None, "closed_first": len(lean.parts) > MANY, "gates": gates(plan, lean),
                  "waves": waves(plan, lean), "traces": []}
    for name in traces:
        try:
            facts.data["traces"].append(trace(source, lean, name, starts))
        except Refused as refused:
            facts.refused = facts.refused or refused
            facts.data["traces"].append({"name": name, "refusal": str(refused)})
    # a sheet with a ring that passes no register has no run, and no order to step through it
    facts.data["circuit"] = circuit(lean) if any("refusal" not in t for t in facts.data["traces"]) else None
    return facts


def refused_facts(source: Source, refused: Refused) -> Facts:
    lines = refused_lines(source.bytes, refused, source.own)
    if source.made:
        lines = source.made.place_lines(source.bytes, refused) or lines
    data = {"text": lines_of(source, None, None, fault_at(source, refused)).as_json(), "counts": refused_counts(source),
            "refusal": {"words": str(refused), "lines": lines, "tree": tree(source, refused)}, "traces": []}
    return Facts(data, refused=refused)


def fault_at(source: Source, refused: Refused) -> Optional[object]:
    """Where in the panel a refusal stands: a stretch of the text, a node or an offset."""
    if source.made:
        return source.made.span_of(refused)
    return refused.place if place_word(refused.number) in ("node", "offset") else None


def tree(source: Source, refused: Refused) -> Optional[dict]:
    """The term with the node marked, where it was written in a notation: a term of bytes stands in the text's panel already."""
    if not source.made or refused.number < 10:
        return None
    place = refused.place if place_word(refused.number) == "node" else None
    return term_lines(Sheet.parse(source.bytes, source.own), None, None, place).as_json()


# ---- counts, the card, Verilog

def counts(source: Source, full: Netlist, lean: Netlist) -> list[list]:
    """What there is and, where there is one, the limit."""
    terminals = sum(len(e.terminals) for e in full.elements)
    return refused_counts(source) + [["terminals", terminals, 8192], ["parts", len(lean.parts), None], ["registers", len(lean.registers), None],
                                     ["input pins", len(lean.input_pins), None], ["output pins", len(lean.output_pins), None]]


def refused_counts(source: Source) -> list[list]:
    found: list[list] = [["bytes", len(source.bytes), 16384]]
    try:
        sheet = Sheet.parse(source.bytes)
        found += [["types", len(sheet.types), 256], ["nodes", len(sheet.nodes), 2048], ["depth", sheet.depth, 64]]
    except (ValueError, IndexError, RecursionError):
        pass
    return found


def card(sheet: bytes) -> str:
    try:
        calls.translate(sheet, card=True)
        return "The card's profile holds."
    except Refused as refused:
        return "The card's profile does not hold: %s" % refused


def verilog(sheet: bytes) -> str:
    try:
        return calls.verilog(sheet)
    except Refused as refused:
        return "// %s" % refused


# ---- gates and waves

def gates(plan: Plan, lean: Netlist) -> dict[str, dict]:
    """For each gate the net that it drives, and what it is called."""
    return {str(e.first): {"net": e.output, "name": " ".join(filter(None, [e.name, plan.best_name(e)])), "node": e.node} for e in plan.elements}


def circuit(lean: Netlist) -> dict:
    """The lean netlist as the page's script steps through it: the gates in an order in which each finds its inputs settled."""
    inside = Inside(lean, bytes(len(lean.registers)))
    return {"size": len(inside.bits), "one": inside.one, "steps": [n for gate, a, b, out in inside.steps for n in (NUMBERS[gate], a, b, out)],
            "registers": [list(pair) for pair in inside.registers], "ones": [e.output for e in lean.elements if e.name == "one"],
            "inputs": inside.inputs, "outputs": inside.outputs}


def waves(plan: Plan, lean: Netlist) -> list[dict]:
    """The rows of the waves: pins in their order, then registers."""
    inputs = set(lean.input_pins)
    places = {"in": 0, "out": 0}
    rows = []
    for pin, name in zip(lean.pins, pin_names(plan.sheet)):
        side = "in" if pin in inputs else "out"
        rows.append({"name": name, "side": side, "place": places[side], "net": plan.nets.at_pins.get(pin, pin)})
        places[side] += 1
    shown = {row["net"] for row in rows}
    left = [e for e in lean.registers if e.output not in shown][:ROWS]
    return rows + [{"name": plan.best_name(e) or "reg %d" % e.first, "side": "reg", "place": 0, "net": e.output} for e in left]


def packed(bits: bytes) -> str:
    """Bits, the first lowest in its byte, as base64."""
    text = bits.translate(bytes([48, 49]) + bytes(254))[::-1].decode() or "0"
    return base64.b64encode(int(text, 2).to_bytes((len(bits) + 7) // 8, "little")).decode()


def trace(source: Source, lean: Netlist, name: str, starts: Optional[str]) -> dict:
    """A trace's bits pin by pin as the proved call ran it, and the registers' at every STEP ticks."""
    ran, first = recorded(source, lean, name, starts)
    states = bytearray()
    for tick, inside in enumerate(ticks(lean, first, ran.rows)):
        if tick % STEP == 0:
            states += bytes(inside.state)
    signals = [packed(bits) for _, bits in ran.signals]
    return {"name": name, "ticks": len(ran.rows), "step": STEP, "in": signals[:len(ran.inputs)], "out": signals[len(ran.inputs):], "states": packed(bytes(states))}
