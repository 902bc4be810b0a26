"""After how many ticks a circuit's registers show their starts again, all inputs 0."""
from __future__ import annotations

from array import array
from typing import Optional

from .lanes import LANES, Traces, pack
from .netlist import Netlist
from .running import columns_of
from .trace import Period

#: ticks that are looked through where all registers are pins, and where some are not
MOST, MOST_HIDDEN = 1 << 20, 1 << 18


def period(sheet: bytes, lean: Netlist, starts: bytes) -> Period:
    """The period, if it is found. Every register is looked at, whether it is a pin or not."""
    alone = Traces(sheet, list(starts), lean)  # a ring (19) is refused before anything is said of registers
    if not lean.registers:
        return Period(None, 0, "it has no register: with all inputs 0 the outputs never change")
    pins = all(r.output in lean.output_pins for r in lean.registers)
    found, looked = _among_pins(alone, starts) if pins else _hidden(alone, starts)
    if found is None:
        return Period(None, looked, "no period found: in the %d ticks looked through the registers do not show their starts again" % looked)
    words = "period %d: at tick %d all %d registers show their starts again, and not before"
    return Period(found, found, words % (found, found, len(starts)))


def _among_pins(alone: Traces, starts: bytes) -> tuple[Optional[int], int]:
    """The first tick but 0 at which the registers' pins show the starts."""
    places = [alone.lean.output_pins.index(r.output) for r in alone.lean.registers]
    alone.step(array("H", bytes(2 * alone.inputs)), 1)
    while alone.tick <= MOST:
        first, ticks = alone.tick, min(alone.most, MOST + 1 - alone.tick)
        shown = columns_of(alone.step(array("H", bytes(2 * alone.inputs * ticks)), ticks), alone.outputs)
        odd = 0
        for place, start in zip(places, starts):
            odd |= int.from_bytes(shown[place], "little") ^ int.from_bytes(bytes([start]) * ticks, "little")
        at = odd.to_bytes(ticks, "little").find(0)
        if at >= 0:
            return first + at, first + at
    return None, MOST


def _hidden(alone: Traces, starts: bytes) -> tuple[Optional[int], int]:
    """The same by what a call says that the registers show next: of sixteen runs at once, which began so many ticks from one another."""
    done, apart = 0, LANES
    while done < MOST_HIDDEN:
        apart = min(apart, (MOST_HIDDEN - done) // LANES)
        found = _within(alone, done, apart, starts)
        if found is not None:
            return found, found
        done += LANES * apart
        apart = min(4 * apart, 4096)
    return None, done


def _within(alone: Traces, done: int, apart: int, starts: bytes) -> Optional[int]:
    """The first tick behind `done`, within 16 * `apart`, at which the registers show their starts; `alone` goes on to the end of that."""
    begins: list[bytes] = []
    for _ in range(LANES):
        begins.append(bytes(number & 1 for number in alone.state))
        alone.step(array("H", bytes(2 * alone.inputs * apart)), apart)
    many = Traces(alone.sheet, pack(begins), alone.lean)
    zeros = array("H", bytes(2 * alone.inputs))
    lowest: Optional[int] = None
    for step in range(1, apart + 1):
        many.step(zeros, 1)
        same = 0xFFFF
        for number, bit in zip(many.state, starts):
            same &= number if bit else ~number
        if same:
            tick = done + ((same & -same).bit_length() - 1) * apart + step
            lowest = tick if lowest is None else min(lowest, tick)
    return lowest
