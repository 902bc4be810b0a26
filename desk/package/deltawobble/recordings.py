"""A whole recorded trace at once, from the text that a job carries: the bits of the input pins, and what was recorded of output pins."""
from __future__ import annotations

import io
from dataclasses import dataclass
from typing import Optional

from .circuit import vectors
from .columns import Columns
from .dump import Dump, seconds
from .files import WrongUse
from .recorded import NoBit, Recorded
from .rows import Rows

#: ticks of a trace
MOST_TICKS = 10_000_000


@dataclass(frozen=True)
class Sampled:
    """How a value change dump is sampled: at the rises of a `clock`, or `every` so often; and where its signals are."""

    clock: Optional[str] = None
    every: Optional[str] = None
    scope: Optional[str] = None


@dataclass(frozen=True)
class Pins:
    """The names of a circuit's pins: all that reading a trace asks for."""

    inputs: tuple[str, ...]
    outputs: tuple[str, ...]

    @property
    def pins(self) -> tuple[str, ...]:
        return self.inputs + self.outputs


@dataclass(frozen=True)
class Recording:
    """Bits of the input pins, tick after tick, one byte a bit; the ticks; and by output pin its column, above 1 where nothing is expected."""

    bits: bytes
    ticks: int
    expected: dict[str, bytes]


def recording(name: str, data: bytes, pins: Pins, sampled: Sampled) -> Recording:
    """A text of rows, whose first line may have names, or a value change dump. WrongUse where it does not fit these pins."""
    feed = Recorded(pins, columns_of(name, data, pins, sampled))  # type: ignore[arg-type]
    try:
        columns, expected, ticks = feed.take(MOST_TICKS + 1)
    except NoBit as fault:
        raise WrongUse(fault.place) from None
    if ticks > MOST_TICKS:
        raise WrongUse("%s: a trace of a campaign has at most %d ticks" % (name, MOST_TICKS))
    bits = bytearray(len(columns) * ticks)
    for i, column in enumerate(columns):
        bits[i::len(columns)] = column
    return Recording(bytes(bits), ticks, {pin: column for pin, column in zip(pins.outputs, expected) if column is not None})


def columns_of(name: str, data: bytes, pins: Pins, sampled: Sampled) -> Columns:
    if not name.lower().endswith(".vcd") and not data[:64].lstrip().startswith(b"$"):
        return Rows(name, io.BytesIO(data), pins.pins, "input pins" if pins.inputs else "output pins", pins.inputs or pins.outputs)
    if (sampled.clock is None) == (sampled.every is None):
        raise WrongUse("%s: a dump is sampled: traces.clock or traces.every says how" % name)
    widths = [(pin, len(group)) for group in vectors(pins.pins) for pin in group]
    return Dump(name, io.BytesIO(data), widths, sampled.clock, seconds(sampled.every) if sampled.every else None, sampled.scope)
