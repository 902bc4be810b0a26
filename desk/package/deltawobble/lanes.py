"""Runs of any length, sixteen traces at once: one in each bit of a number (the proved call `lanes`).

    traces = Traces(sheet)                    # all registers start with 0 in every lane
    shown = traces.run(pack([first, second])) # numbers of the output pins, tick after tick
    unpack(shown, 1)                          # the second trace's bits, one byte a bit

A call has at most 65,535 ticks; what the registers would show next is handed to the next call, so that a run in windows is the run of the
whole (theorem `lanes-calls-join`). One trace alone is lane 0: its ticks stand one behind the other, so it cannot be cut over the lanes.
"""
from __future__ import annotations

from array import array
from typing import Iterable, Iterator, NamedTuple, Optional, Sequence

from . import calls
from .netlist import Netlist

#: traces of a call
LANES = 16
#: ticks of a call (document 02, L4)
MOST_TICKS = 65535
#: numbers of a window's pins, about: it bounds the memory that a run takes
WINDOW = 1 << 19
#: for each lane the bit that it has of a number's low byte, or of its high byte
BIT = [bytes(byte >> lane & 1 for byte in range(256)) for lane in range(8)]


class Window(NamedTuple):
    """A stretch of a run: its first tick, how many ticks it has, and the numbers of the input and the output pins, tick after tick."""

    first: int
    ticks: int
    inputs: array
    outputs: array


class Traces:
    """A sheet's circuit with sixteen traces on their way: `state` is what the registers show next, `tick` the tick that comes next."""

    def __init__(self, sheet: bytes, state: Optional[Sequence[int]] = None, lean: Optional[Netlist] = None):
        """Refused where the sheet is, where a ring passes through no register (19), or where there are not as many numbers as registers (20)."""
        self.sheet = sheet
        self.lean = lean or Netlist.parse(calls.translate(sheet, lean=True))
        self.inputs, self.outputs = len(self.lean.input_pins), len(self.lean.output_pins)
        self.state = array("H", [0] * len(self.lean.registers) if state is None else state)
        self.tick = 0
        calls.lanes(sheet, array("H"), self.state, 0)

    @property
    def most(self) -> int:
        """The ticks of a window: as many as a call takes, and fewer where there are many pins."""
        return min(MOST_TICKS, max(WINDOW // max(self.inputs + self.outputs, 1), 1))

    def step(self, inputs: array, ticks: int) -> array:
        """One call: so many ticks further. `inputs` are numbers, in pin order, tick after tick."""
        shown, self.state = calls.lanes(self.sheet, inputs, self.state, ticks, room=ticks * self.outputs)
        self.tick += ticks
        return shown

    def run(self, inputs: array, ticks: Optional[int] = None) -> array:
        """Any number of ticks; it need be said only where the circuit has no input pins."""
        shown = array("H")
        for window in self.windows([inputs], ticks):
            shown += window.outputs
        return shown

    def windows(self, pieces: Iterable[array], ticks: Optional[int] = None) -> Iterator[Window]:
        """The same of inputs that come in pieces of whole ticks, of any length: a window for each call, none kept."""
        if self.inputs == 0:
            yield from self._unmoved(ticks or 0)
            return
        for piece in pieces:
            if len(piece) % self.inputs:
                raise ValueError("a tick has %d numbers, and %d are no whole ticks" % (self.inputs, len(piece)))
            for at in range(0, len(piece), self.most * self.inputs):
                part = piece[at:at + self.most * self.inputs]
                yield self._window(part, len(part) // self.inputs)

    def _unmoved(self, ticks: int) -> Iterator[Window]:
        """A circuit without input pins goes on by itself."""
        for at in range(0, ticks, self.most):
            yield self._window(array("H"), min(self.most, ticks - at))

    def _window(self, inputs: array, ticks: int) -> Window:
        first = self.tick
        return Window(first, ticks, inputs, self.step(inputs, ticks))


def pack(traces: Sequence[bytes]) -> array:
    """Up to sixteen traces of one length, one byte a bit, as numbers: trace k in bit k."""
    if not 0 < len(traces) <= LANES or len({len(trace) for trace in traces}) != 1:
        raise ValueError("one to %d traces of one length are packed" % LANES)
    numbers = bytearray(2 * len(traces[0]))
    numbers[0::2] = _joined(traces[:8])
    numbers[1::2] = _joined(traces[8:]) or bytes(len(traces[0]))
    return calls.numbers_of(bytes(numbers))


def unpack(numbers: array, lane: int) -> bytes:
    """The bits of one lane, one byte a bit."""
    return calls.low_first(numbers)[lane >> 3::2].translate(BIT[lane & 7])


def _joined(traces: Sequence[bytes]) -> bytes:
    """Bit k of each byte from trace k. A trace is one long number of bytes 0 and 1, so that all bits move at once."""
    if any(trace.translate(None, b"\x00\x01") for trace in traces):
        raise ValueError("a bit is 0 or 1")
    whole = 0
    for k, trace in enumerate(traces):
        whole |= int.from_bytes(trace, "little") << k
    return whole.to_bytes(len(traces[0]), "little") if traces else b""
