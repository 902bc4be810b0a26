"""A recorded trace through a sheet, for pictures and pages: one door to how traces are read and run."""
from __future__ import annotations

from dataclasses import dataclass
from typing import Optional

from . import calls
from .circuit import Circuit
from .files import Source, WrongUse, raw
from .netlist import Netlist
from .recordings import Pins, Sampled, recording
from .starting import starts_of

#: ticks of one call
MOST_TICKS = 65535


@dataclass
class Rows:
    """A run that was accepted: names of the pins, and their bits tick after tick, inputs and outputs."""

    inputs: list[str]
    outputs: list[str]
    rows: list[tuple[bytes, bytes]]

    @property
    def signals(self) -> list[tuple[str, bytes]]:
        """Each pin's bits over all ticks."""
        return [(name, bytes(row[side][i] for row in self.rows)) for side, names in enumerate((self.inputs, self.outputs)) for i, name in enumerate(names)]


def recorded(source: Source, lean: Netlist, name: str, starts: Optional[str] = None) -> tuple[Rows, bytes]:
    """The run of a trace file by the proved call, and the registers' starts. Refused and WrongUse as `run` has them."""
    circuit = Circuit(source)
    bits = starts_of(starts, circuit)
    given = recording(name, raw(name), Pins(tuple(circuit.inputs), tuple(circuit.outputs)), Sampled())
    if given.ticks > MOST_TICKS:
        raise WrongUse("%s: a run has at most %d ticks, and here are %d" % (name, MOST_TICKS, given.ticks))
    shown = calls.run(source.bytes, given.bits, bits, given.ticks)
    wide, out = len(circuit.inputs), len(circuit.outputs)
    rows = [(given.bits[t * wide:(t + 1) * wide], shown[t * out:(t + 1) * out]) for t in range(given.ticks)]
    return Rows(circuit.inputs, circuit.outputs, rows), bits
