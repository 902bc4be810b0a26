"""A function for each proved call. A refusal is raised as `Refused`."""
from __future__ import annotations

import sys
from array import array
from dataclasses import dataclass, replace
from typing import Optional, Sequence, Union

from .answer import Refused, unpack
from .engine import UNUSED, NoCall, Reply, Request, find
from .netlist import Netlist

#: output bytes that always do for a netlist (document 02, L6)
ROOM = 57728


def _call(request: Request) -> Reply:
    engine = find()
    if not engine.has(request.name):
        raise NoCall(request.name)
    return engine.call(request)


def _written(request: Request) -> bytes:
    """What a call writes. Where the room was too short, it is called once more with what it asks for."""
    reply = _call(request)
    try:
        unpack(reply.word)
    except Refused as refused:
        if refused.number != 17:
            raise
        reply = _call(replace(request, room=refused.place))
        unpack(reply.word)
    return reply.out


def translate(sheet: bytes, *, lean: bool = False, plain: bool = False, card: bool = False) -> bytes:
    """The netlist of a sheet: the full one or the lean one, with nodes named or in plain kinds 21 and 22, held to the card's profile or not."""
    return _written(Request("translate", sheet, room=ROOM, lean=lean, plain=plain, card=card))


def stretch(sheet: bytes, node: int) -> tuple[int, int]:
    """Where a node and its subterms stand in the sheet: start and length. (0, 0) where 2 to 9 refuse the sheet, or there is no such node."""
    word = _call(Request("stretch", sheet, number=node)).word
    return word >> 32, word & 0xFFFFFFFF


def batch(sheets: Sequence[bytes], *, lean: bool = False, plain: bool = False, card: bool = False) -> list[Union[bytes, Refused]]:
    """For each sheet its netlist, or its refusal, from one call."""
    request = Request("batch", b"".join(sheets), lengths=[len(s) for s in sheets], room=ROOM * len(sheets), lean=lean, plain=plain, card=card)
    reply = _call(request)
    unpack(reply.word)
    found: list[Union[bytes, Refused]] = []
    at = 0
    for word in reply.results:
        try:
            size = unpack(word)
            found.append(reply.out[at:at + size])
            at += size
        except Refused as refused:
            found.append(refused)
    return found


def verilog(sheet: bytes) -> str:
    """The lean netlist as one module of structural Verilog (L1)."""
    return _written(Request("verilog", sheet, room=1 << 19)).decode("ascii")


def run(sheet: bytes, inputs: bytes, starts: bytes, ticks: int) -> bytes:
    """The output pins' bits, one byte a bit, tick after tick (L4).

    `inputs` are the input pins' bits, in pin order, tick after tick; `starts` a bit for each register, by rising terminal.
    """
    if not 0 <= ticks <= 65535:
        raise ValueError("a run has 0 to 65535 ticks, not %d" % ticks)
    return _written(Request("run", sheet, inputs=inputs, starts=starts, room=16 * ticks, number=ticks))


def lanes(sheet: bytes, inputs: Sequence[int], state: Sequence[int], ticks: int, room: Optional[int] = None) -> tuple[array, array]:
    """Sixteen traces at once, trace k in bit k of each number: the output pins' numbers, tick after tick, and the state left.

    `inputs` are 16-bit numbers of the input pins, in pin order, tick after tick; `state` one for each register, by rising terminal. A call
    with the state that was left goes on where this one ended: `lanes.Traces` does so. `room` is how many numbers are written, if that is known.
    """
    if not 0 <= ticks <= 65535:
        raise ValueError("a call of lanes has 0 to 65535 ticks, not %d" % ticks)
    request = Request("lanes", sheet, inputs=low_first(inputs), starts=low_first(state), room=2 * (16 * ticks if room is None else room), number=ticks)
    reply = _call(request)
    if reply.word >> 32 & 0xFF == 17:
        reply = _call(replace(request, room=2 * (reply.word & 0xFFFFFFFF)))
    unpack(reply.word)
    return numbers_of(reply.out), numbers_of(reply.state)


#: bytes that are lent for a trace at first
TRACE = 65536
#: more registers are refused (41)
MOST_SEARCHED = 20


@dataclass(frozen=True)
class Searched:
    """What a search found. The pin is never 1, and so many `states` can be met; or it can be 1, at `tick` first, and a shortest trace shows it:
    `starts` and `inputs` are what `run` takes with tick + 1 ticks."""

    states: Optional[int] = None
    tick: Optional[int] = None
    starts: bytes = b""
    inputs: bytes = b""

    @property
    def holds(self) -> bool:
        return self.tick is None


def never(sheet: bytes, starts: bytes, pin: int, lent: Optional[int] = None) -> Searched:
    """Whether an output pin, counted from 0 among the output pins, is 0 at every tick of every run.

    `starts` has a byte for each register by rising terminal: 0, 1, or 2 for either. `lent` are the numbers of trail and queue, 2^registers
    where it is not said.
    """
    if not 0 <= pin <= 65535:
        raise ValueError("a pin's number is 0 to 65535, and not %d" % pin)
    states = 1 << min(len(starts), MOST_SEARCHED) if lent is None else lent
    request = Request("never", sheet, starts=starts, room=TRACE, number=pin, states=states)
    reply = _call(request)
    if reply.word >> 32 != 40:
        return Searched(states=unpack(reply.word))
    tick = reply.word & 0xFFFFFFFF
    pins = len(Netlist.parse(translate(sheet, lean=True)).input_pins)
    size = len(starts) + (tick + 1) * pins
    out = reply.out if size <= TRACE else _call(replace(request, room=size)).out
    return Searched(tick=tick, starts=out[:len(starts)], inputs=out[len(starts):size])


#: output bytes and places that always do for a sheet: an edition's byte, 256 types and 2048 nodes, each record of at most 3 bytes
SHEET, NODES = 1 + 3 * 256 + 3 * 2048, 2048


def make(text: bytes) -> tuple[bytes, list[int]]:
    """The sheet of a text in the notation (docs/NOTATION.md), and for each of its nodes where its word begins; Refused, 30 to 36, at an offset."""
    reply = _call(Request("make", text, room=SHEET, number=NODES))
    unpack(reply.word)
    places = numbers_of(reply.state).tolist()
    return reply.out, places[:places.index(UNUSED)] if UNUSED in places else places


def low_first(numbers: Sequence[int]) -> bytes:
    """16-bit numbers as the calls are lent them."""
    whole = numbers if isinstance(numbers, array) and numbers.typecode == "H" else array("H", numbers)
    if sys.byteorder == "big":
        whole = array("H", whole)
        whole.byteswap()
    return whole.tobytes()


def numbers_of(data: bytes) -> array:
    """The 16-bit numbers that a call wrote."""
    found = array("H", data)
    if sys.byteorder == "big":
        found.byteswap()
    return found


def check(net: bytes, *, lean: bool = False) -> None:
    """Nothing, where a netlist from outside in kinds 21 to 24 is accepted (L8); else its refusal."""
    unpack(_call(Request("check", net, lean=lean)).word)


def back(net: bytes, *, lean: bool = False) -> bytes:
    """The sheet of a netlist that is accepted (L11)."""
    return _written(Request("back", net, room=16384, lean=lean))
