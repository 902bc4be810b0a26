"""A run as Python programs use it: names, rows and columns; and traces in the forms in which programs have them."""
from __future__ import annotations

from dataclasses import dataclass
from typing import Iterator, Mapping, Optional, Sequence

from .trace import Run
from .vcd import vcd


@dataclass(frozen=True)
class Ran:
    """A run that was accepted: names of the pins, inputs first, and their bits, tick after tick.

    Its length is its ticks; `ran["out"]` is a pin's column, and it goes through the rows.
    """

    inputs: list[str]
    outputs: list[str]
    given: bytes
    shown: bytes
    ticks: int

    @property
    def names(self) -> list[str]:
        return self.inputs + self.outputs

    @property
    def rows(self) -> list[tuple[int, ...]]:
        """A row for each tick, a bit for each name."""
        return [(*a, *b) for a, b in self._pairs()]

    @property
    def columns(self) -> dict[str, list[int]]:
        """Each pin's bits over all ticks."""
        columns = {name: list(self.given[i::len(self.inputs)]) for i, name in enumerate(self.inputs)}
        return columns | {name: list(self.shown[i::len(self.outputs)]) for i, name in enumerate(self.outputs)}

    def __getitem__(self, name: str) -> list[int]:
        return self.columns[name]

    def __len__(self) -> int:
        return self.ticks

    def __iter__(self) -> Iterator[tuple[int, ...]]:
        return iter(self.rows)

    def _pairs(self) -> list[tuple[bytes, bytes]]:
        a, b = len(self.inputs), len(self.outputs)
        return [(self.given[t * a:(t + 1) * a], self.shown[t * b:(t + 1) * b]) for t in range(self.ticks)]

    def _run(self) -> Run:
        return Run(self.inputs, self.outputs, [bytes(column) for column in self.columns.values()], self.ticks)

    def table(self) -> str:
        """A line for each tick, as `deltawobble run` prints it."""
        run = self._run()
        return "\n".join([run.head(), *run.table()]) + "\n"

    def waves(self, wide: int = 100) -> str:
        """Each pin as a wave, so many columns wide."""
        return "\n".join(self._run().waves(wide)) + "\n"

    def vcd(self) -> str:
        """A value change dump, for GTKWave."""
        return b"".join(vcd(iter([self._run()]), self.names)).decode()

    def array(self):
        """The rows as a numpy array of ticks by pins, where numpy is there."""
        import numpy
        return numpy.array(self.rows, dtype=numpy.uint8).reshape(self.ticks, len(self.names))


def bits_of(trace, names: list[str], ticks: Optional[int]) -> tuple[bytes, int]:
    """The bits of a trace laid end to end, and its ticks: from rows, a dict by pin name, a numpy array, bytes, or none."""
    if ticks is not None and (not isinstance(ticks, int) or ticks < 0):
        raise ValueError("ticks are a number, 0 or more, and not %r" % (ticks,))
    if trace is None:
        if ticks is None:
            raise ValueError("a trace is needed, or so many ticks: the circuit has %d input pins" % len(names))
        return bytes(len(names) * ticks), ticks
    if isinstance(trace, Mapping):
        bits, there = _by_name(trace, names, ticks)
    elif isinstance(trace, (bytes, bytearray, memoryview)):
        bits, there = _laid(bytes(trace), len(names), ticks)
    else:
        bits, there = _by_rows(trace, names, ticks)
    if ticks is not None and there < ticks:
        raise ValueError("the trace has %d ticks, and %d are asked for" % (there, ticks))
    there = there if ticks is None else ticks
    return bits[:there * len(names)], there


def _bits(row, where: str) -> bytes:
    """Bits of a row or of a column: numbers 0 and 1, booleans, or signs 0 and 1."""
    if isinstance(row, str):
        row = [{"0": 0, "1": 1}.get(sign, sign) for sign in row if not sign.isspace()]
    found = bytearray()
    for bit in row:
        if isinstance(bit, str) or bit not in (0, 1):
            raise ValueError("%s: a bit is 0 or 1, and here is %r" % (where, bit))
        found.append(int(bit))
    return bytes(found)


def _laid(bits: bytes, width: int, ticks: Optional[int]) -> tuple[bytes, int]:
    _bits(set(bits), "the trace")
    if width == 0:
        if bits:
            raise ValueError("the circuit has no input pins, and the trace has %d bits" % len(bits))
        return bits, ticks or 0
    if len(bits) % width:
        raise ValueError("%d bits are no whole ticks: there are %d input pins" % (len(bits), width))
    return bits, len(bits) // width


def _by_rows(trace, names: list[str], ticks: Optional[int]) -> tuple[bytes, int]:
    rows = trace.tolist() if hasattr(trace, "tolist") and hasattr(trace, "shape") else trace
    if isinstance(rows, str) or not hasattr(rows, "__iter__"):
        raise TypeError("a trace is rows, a dict by pin name, a numpy array or bytes, and not %s" % type(trace).__name__)
    found = bytearray()
    count = 0
    for count, row in enumerate(rows, 1):
        # of one input pin a row may be the bit itself
        bits = _bits(row if hasattr(row, "__iter__") else [row], "row %d" % (count - 1))
        if len(bits) != len(names):
            raise ValueError("row %d has %d bits, and there are %d input pins: %s" % (count - 1, len(bits), len(names), ", ".join(names)))
        found += bits
    return bytes(found), count


def _by_name(trace: Mapping, names: list[str], ticks: Optional[int]) -> tuple[bytes, int]:
    if sorted(map(str, trace)) != sorted(names):
        raise ValueError("the trace has the columns %s, and the input pins are %s" % (", ".join(map(str, trace)) or "(none)", ", ".join(names) or "(none)"))
    columns = [_bits(trace[name].tolist() if hasattr(trace[name], "tolist") else trace[name], "column %s" % name) for name in names]
    lengths = {len(column) for column in columns}
    if len(lengths) > 1:
        raise ValueError("the columns are of different lengths: %s" % ", ".join("%s %d" % item for item in zip(names, map(len, columns))))
    if not names:
        return b"", ticks or 0
    laid = bytearray(len(names) * len(columns[0]))
    for i, column in enumerate(columns):
        laid[i::len(names)] = column
    return bytes(laid), len(columns[0])


def starts_of(starts: Optional[Sequence[int]], registers: int) -> bytes:
    """A bit for each register; all 0 where nothing is said."""
    if starts is None:
        return bytes(registers)
    if not isinstance(starts, str) and not hasattr(starts, "__iter__"):
        raise TypeError("starts are bits, one for each register, and not %s" % type(starts).__name__)
    found = _bits(starts, "starts")
    if len(found) != registers:
        raise ValueError("there are %d registers, and %d starts" % (registers, len(found)))
    return found
