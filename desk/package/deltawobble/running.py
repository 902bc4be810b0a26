"""A run, stretch by stretch: what it is fed with goes through the proved call, and what the pins show comes back in columns."""
from __future__ import annotations

from dataclasses import dataclass
from typing import Iterator, Optional, Sequence

from . import calls
from .circuit import Circuit
from .lanes import BIT, Traces
from .recorded import Expected, Feed


@dataclass
class Stretch:
    """Some ticks of a run from `first` on: the bits of the inputs, the outputs and inner nets, and the recorded values of outputs, column by column."""

    first: int
    ticks: int
    inputs: list[bytes]
    outputs: list[bytes]
    expected: list[Optional[bytes]]
    inner: list[bytes]
    #: what the registers showed at its first tick
    starts: bytes


def numbers(columns: Sequence[bytes], ticks: int):
    """Columns of bits as the numbers of lane 0, in pin order, tick after tick."""
    wide = 2 * len(columns)
    data = bytearray(wide * ticks)
    for i, column in enumerate(columns):
        data[2 * i::wide] = column
    return calls.numbers_of(bytes(data))


def columns_of(shown, count: int, lane: int = 0) -> list[bytes]:
    """The bits of one lane, column by column."""
    data = calls.low_first(shown)
    return [data[2 * i + (lane >> 3)::2 * count].translate(BIT[lane & 7]) for i in range(count)]


class Running:
    """A circuit on its way. `starts` are the bits that the registers show at the first tick; `first` is that tick's number."""

    def __init__(self, circuit: Circuit, starts: bytes, first: int = 0):
        self.circuit = circuit
        self.traces = Traces(circuit.source.bytes, list(starts), circuit.lean)
        self.tick = first

    @property
    def state(self) -> bytes:
        """What the registers show at the tick that comes next."""
        return bytes(number & 1 for number in self.traces.state)

    def stretches(self, feed: Feed, expected: Optional[Expected] = None) -> Iterator[Stretch]:
        while True:
            inputs, recorded, ticks = feed.take(self.traces.most)
            if ticks == 0:
                break
            if expected:
                recorded = [mine if other is None else other for mine, other in zip(recorded, expected.take(ticks))]
            first, starts = self.tick, self.state
            shown = self.traces.step(numbers(inputs, ticks), ticks)
            self.tick += ticks
            yield Stretch(first, ticks, inputs, columns_of(shown, len(self.circuit.outputs)), recorded, [], starts)
        if expected:
            expected.ended()
