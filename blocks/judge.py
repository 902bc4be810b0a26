"""A block judged: its property by the proved call `never`, its model by the proved call `lanes`, its cost by the proved netlists."""
from __future__ import annotations

import struct
import zlib
from array import array
from dataclasses import dataclass, field
from functools import lru_cache
from random import Random
from typing import Optional, Sequence

import library
import models
from catalogue import Block
from library import Made, NotationError
from deltawobble import Netlist, Refused, Sheet, calls
from deltawobble.lanes import BIT, LANES, Traces, pack, unpack

#: ticks of all lanes together that a block is tried for, above the sizes that are proved, and at each size that is
TICKS, FEW_TICKS = 1_000_000, 4_000
#: the refusals that say how far a search can go: levels, nodes or depth of a sheet; registers; input pins
LIMITS = {34, 41, 42}
#: the folder of the texts whose registers start with 0
WATCHING = "properties"


class Wrong(Exception):
    """What was claimed of a block is not so."""


@dataclass
class Proved:
    """A property that holds: how many states the registers can have."""

    term: str
    inputs: int
    registers: int
    states: int


@dataclass
class Cost:
    """What a block of one size takes. `card` is whether the card's profile holds."""

    size: tuple[int, ...]
    parts: int
    registers: int
    terminals: int
    depth: int
    nodes: int
    card: bool


@dataclass
class Judged:
    name: str
    proved: list[Proved] = field(default_factory=list)
    #: the refusal at the next size: 34 the sheet would be too large or too deep, 41 registers, 42 input pins
    stopped: int = 0
    agreed: dict[tuple[int, ...], int] = field(default_factory=dict)
    costs: list[Cost] = field(default_factory=list)


@lru_cache(maxsize=None)
def sheet_of(file: str, term: str) -> Made:
    """The sheet of a term over the blocks of a file, by the desk's maker. Wrong where the second program makes another one, or refuses the text otherwise."""
    text = library.block_text(file, term)
    try:
        made = library.made_of(text)
    except NotationError as refused:
        hold_to_second(term, text, (refused.number, refused.place))
        raise
    hold_to_second(term, text, (made.sheet, made.places))
    return made


def hold_to_second(term: str, text: library.Text, by_desk: tuple) -> None:
    if library.by_second(text) != by_desk:
        raise Wrong("%s: the desk's maker and the second program answer differently" % term)


def starts_for(made: Made, lean: Netlist) -> bytes:
    """Registers of the watching texts start with 0, those of the blocks with either bit."""
    return bytes(0 if library.file_of(made, register.node).parent.name == WATCHING else 2 for register in lean.registers)


def ask(made: Made) -> tuple[Netlist, bytes, calls.Searched]:
    """Whether the one output pin is never 1, in all runs, from all allowed starts."""
    lean = Netlist.parse(calls.translate(made.sheet, lean=True))
    assert len(lean.output_pins) == 1, "a property has one output pin"
    starts = starts_for(made, lean)
    return lean, starts, calls.never(made.sheet, starts, 0)


def prove(block: Block, numbers: tuple[int, ...]) -> Proved:
    term = block.never(numbers)
    lean, starts, found = ask(sheet_of("properties/%s.dw" % block.family, term))
    if found.states is None:
        raise Wrong("%s can be 1, at tick %d" % (term, found.tick))
    return Proved(term, len(lean.input_pins), len(lean.registers), found.states)


def stopped(block: Block) -> int:
    """The limit that the next size passes. Wrong where it passes none: then it could be proved too."""
    try:
        prove(block, block.beyond())
    except (NotationError, Refused) as refused:
        number = refused.number
    else:
        raise Wrong("%s passes no limit, and is not among the sizes proved" % block.never(block.beyond()))
    if number not in LIMITS:
        raise Wrong("%s is refused with %d, which is no limit" % (block.never(block.beyond()), number))
    return number


def go_round(block: Block, numbers: tuple[int, ...]) -> Proved:
    """From the model's start the registers meet 2^n - 1 states, and are never all 0: so all other states come before one comes again."""
    term = block.round + "{%s}" % ", ".join(map(str, numbers))
    made = sheet_of("properties/%s.dw" % block.family, term)
    lean = Netlist.parse(calls.translate(made.sheet, lean=True))
    found = calls.never(made.sheet, bytes(block.model(*numbers).start), 0)
    if found.states != (1 << numbers[0]) - 1:
        raise Wrong("%s: %s" % (term, "it can be 1" if found.states is None else "%d states are met" % found.states))
    return Proved(term, len(lean.input_pins), len(lean.registers), found.states)


def cost(block: Block, size: tuple[int, ...]) -> Cost:
    sheet = sheet_of(home(block), block.block(size)).sheet
    full, lean = Netlist.parse(calls.translate(sheet)), Netlist.parse(calls.translate(sheet, lean=True))
    terminals = 1 + max((max(element.terminals) for element in full.parts + full.points), default=-1)
    parsed = Sheet.parse(sheet)
    return Cost(size, len(lean.parts), len(lean.registers), terminals, parsed.depth, len(parsed.nodes), holds_profile(sheet))


def holds_profile(sheet: bytes) -> bool:
    try:
        calls.translate(sheet, card=True)
    except Refused as refused:
        if refused.number not in (27, 28, 29):
            raise
        return False
    return True


def home(block: Block) -> str:
    """The text that a block's term is written over; scan is tried with the full adders of bits.dw."""
    return ("bits" if block.family == "functions" else block.family) + ".dw"


def bits_in_pin_order(columns: Sequence[Sequence[int]], widths: Sequence[int], ticks: int) -> bytes:
    """Numbers by pin group, each a column over the ticks, as the calls take them: tick after tick, one byte a bit. No number has more than 64 bits."""
    whole, at = sum(widths), 0
    found = bytearray(whole * ticks)
    for column, width in zip(columns, widths):
        octets = struct.pack("<%dQ" % ticks, *column)
        for bit in range(width):
            found[at + bit::whole] = octets[bit >> 3::8].translate(BIT[bit & 7])
        at += width
    return bytes(found)


def lane(model: models.Model, drawn: Random, ticks: int) -> tuple[bytes, bytes]:
    """A run by the model: what is given to the input pins, and what the output pins should show."""
    given = model.columns(drawn, ticks)
    shown = list(map(model.step, *given)) if given else [model.step() for _ in range(ticks)]
    return bits_in_pin_order(given, model.ins, ticks), bits_in_pin_order(list(zip(*shown)), model.outs, ticks)


def agree(block: Block, size: tuple[int, ...], ticks: int) -> int:
    """So many ticks, over sixteen traces, through the lean netlist; Wrong where an output differs from the model."""
    sheet = sheet_of(home(block), block.block(size)).sheet
    each = -(-ticks // LANES)
    drawn = Random(zlib.crc32(block.block(size).encode()))
    made = [block.model(*size) for _ in range(LANES)]
    runs = [lane(model, drawn, each) for model in made]
    traces = Traces(sheet)
    traces.state = start_state(made[0], len(traces.lean.registers))
    if (traces.inputs, traces.outputs) != (sum(made[0].ins), sum(made[0].outs)):
        raise Wrong("%s has %d input and %d output pins, and its model others" % (block.block(size), traces.inputs, traces.outputs))
    shown = traces.run(pack([inputs for inputs, _ in runs]) if traces.inputs else array("H"), each)
    for number, (_, expected) in enumerate(runs):
        if unpack(shown, number) != expected:
            raise Wrong("%s and its model differ, trace %d, tick %s" % (block.block(size), number, first_difference(unpack(shown, number), expected, traces.outputs)))
    return each * LANES


def start_state(model: models.Model, registers: int) -> array:
    if not model.start:
        return array("H", [0] * registers)
    if len(model.start) != registers:
        raise Wrong("the model starts %d registers, and there are %d" % (len(model.start), registers))
    return array("H", [0xFFFF * bit for bit in model.start])


def first_difference(shown: bytes, expected: bytes, width: int) -> Optional[int]:
    return next((at // width for at, pair in enumerate(zip(shown, expected)) if pair[0] != pair[1]), None)


def judge(block: Block) -> Judged:
    """All that is claimed of a block."""
    found = Judged(block.name)
    for numbers in block.proved:
        found.proved.append(prove(block, numbers))
        if block.round:
            found.proved.append(go_round(block, numbers))
    if block.beyond():
        found.stopped = stopped(block)
    small = sorted({size for numbers in block.proved for size in block.proved_blocks(numbers)} - set(block.tried))
    for size in small:
        found.agreed[size] = agree(block, size, FEW_TICKS)
    for size in block.tried:
        found.agreed[size] = agree(block, size, -(-TICKS // len(block.tried)))
    found.costs = [cost(block, size) for size in sorted({*small, *block.tried})]
    return found
