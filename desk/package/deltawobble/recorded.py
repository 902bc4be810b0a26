"""What a circuit is fed with: a recorded trace, zeros, or random bits; and what a record says of its outputs."""
from __future__ import annotations

import io
import random
from fractions import Fraction
from pathlib import Path
from typing import IO, Optional, Sequence

from .circuit import Circuit
from .columns import BITS, X, Columns, first_not
from .dump import Dump, seconds
from .files import WrongUse
from .rows import Rows
from .streams import given as standard_input


class NoBit(Exception):
    """A digit above 1 for an input pin: the proved call refuses it (20). `row` is the tick's bits, `place` where they stand."""

    def __init__(self, row: bytes, place: str):
        super().__init__(place)
        self.row, self.place = row, place


class Sampling:
    """How a dump is read: `clock` the name of a signal, `every` a time, `scope` where the pins are; `names` of columns without any."""

    def __init__(self, clock: Optional[str] = None, every: Optional[str] = None, scope: Optional[str] = None, names: Optional[Sequence[str]] = None):
        if clock is not None and every is not None:
            raise WrongUse("--clock and --every are two ways to sample a dump: give one")
        try:
            self.every: Optional[Fraction] = None if every is None else seconds(every)
        except ValueError:
            raise WrongUse("--every takes a time above 0, as 10ns, and not '%s'" % every) from None
        self.clock, self.scope, self.names = clock, scope, names
        self.used = False

    def settled(self) -> None:
        """Wrong use, where it was said how to sample a dump and none was opened."""
        if not self.used and (self.clock is not None or self.every is not None or self.scope is not None):
            raise WrongUse("--clock, --every and --scope are about a value change dump, and none was given")


def open_file(name: str) -> IO[bytes]:
    try:
        return standard_input() if name == "-" else open(name, "rb", buffering=1 << 16)  # type: ignore[return-value]
    except OSError as error:
        raise WrongUse("%s: %s" % (name, error.strerror)) from error


def columns_of(name: str, circuit: Circuit, sampling: Sampling, what: str, usual: Sequence[str]) -> Columns:
    """The columns of a file: a dump where its name or its first sign says so, else rows.

    `usual` are the columns of rows without names, and `what` says which pins they are.
    """
    stream = open_file(name)
    try:
        start = stream.peek(64).lstrip() if isinstance(stream, io.BufferedReader) else b""  # type: ignore[attr-defined]
        if Path(name).suffix.lower() != ".vcd" and not start.startswith(b"$"):
            return Rows(name, stream, circuit.pins, what, usual, sampling.names)
    except IsADirectoryError as error:
        raise WrongUse("%s: %s" % (name, error.strerror)) from error
    if sampling.names is not None:
        raise WrongUse("%s: a dump has names of its own: --names PIN=NAME calls a pin as the dump does" % name)
    if sampling.clock is None and sampling.every is None:
        raise WrongUse("%s: a dump is sampled: say --clock NAME, or --every TIME as in --every 10ns" % name)
    sampling.used = True
    return Dump(name, stream, circuit.widths(), sampling.clock, sampling.every, sampling.scope)


def placed(columns: Columns, wanted: Sequence[str], known: Sequence[str]) -> list[Optional[int]]:
    """For each pin the number of its column, None where it has none. A name that is no pin, or stands twice, is wrong use."""
    for name in columns.names:
        if name not in known:
            raise WrongUse("%s: '%s' is no pin: they are %s" % (columns.name, name, ", ".join(known)))
        if columns.names.count(name) > 1:
            raise WrongUse("%s: two columns are called %s" % (columns.name, name))
    return [columns.names.index(name) if name in columns.names else None for name in wanted]


class Feed:
    """Bits for the input pins, and values that the output pins are held against: None for those without."""

    expecting = False
    columns: Optional[Columns] = None

    def take(self, ticks: int) -> tuple[list[bytes], list[Optional[bytes]], int]:
        """The next ticks: the columns of inputs, those of outputs, and how many ticks there were."""
        raise NotImplementedError


class Zeros(Feed):
    """So many ticks with all inputs 0."""

    def __init__(self, circuit: Circuit, ticks: int):
        self.circuit, self.left = circuit, ticks

    def take(self, ticks: int) -> tuple[list[bytes], list[Optional[bytes]], int]:
        some = min(ticks, self.left)
        self.left -= some
        return self.bits(some), [None] * len(self.circuit.outputs), some

    def bits(self, ticks: int) -> list[bytes]:
        return [bytes(ticks)] * len(self.circuit.inputs)


class Random(Zeros):
    """So many ticks of random bits: Python's generator with this seed, bit after bit in pin order, tick after tick."""

    def __init__(self, circuit: Circuit, ticks: int, seed: int):
        super().__init__(circuit, ticks)
        self.random = random.Random(seed)

    def bits(self, ticks: int) -> list[bytes]:
        wide = len(self.circuit.inputs)
        row_after_row = bytes(self.random.getrandbits(1) for _ in range(ticks * wide))
        return [row_after_row[i::wide] for i in range(wide)]


class Recorded(Feed):
    """A file's columns by the names of pins: all inputs, and what outputs it has."""

    def __init__(self, circuit: Circuit, columns: Columns, ticks: Optional[int] = None):
        self.circuit, self.columns, self.left, self.done = circuit, columns, ticks, 0
        if not columns.names:
            raise WrongUse("%s: no signal in it is a pin: they are %s" % (columns.name, ", ".join(circuit.pins)))
        self._inputs = placed(columns, circuit.inputs, circuit.pins)
        missing = next((name for name, at in zip(circuit.inputs, self._inputs) if at is None), None)
        if missing is not None:
            raise WrongUse("%s: no column is called %s, which is an input pin; there are %s" % (columns.name, missing, ", ".join(columns.names) or "none"))
        self._outputs = placed(columns, circuit.outputs, circuit.pins)
        self.expecting = any(at is not None for at in self._outputs)

    def take(self, ticks: int) -> tuple[list[bytes], list[Optional[bytes]], int]:
        some = ticks if self.left is None else min(ticks, self.left)
        taken = self.columns.take(some)
        count = len(taken[0]) if taken else 0
        if self.left is not None:
            if count < some:
                raise WrongUse("%s: the trace has %d ticks, and --ticks asks for %d" % (self.columns.name, self.done + count, self.done + self.left))
            self.left -= count
        if self.done == count == 0 and some:
            raise WrongUse("%s: the trace has no tick" % self.columns.name)
        inputs = [taken[at] for at in self._inputs if at is not None]
        self._judge(inputs)
        expected = [None if at is None else taken[at] for at in self._outputs]
        judge_expected(self.columns, self.circuit.outputs, expected, self.done)
        self.done += count
        return inputs, expected, count

    def _judge(self, inputs: list[bytes]) -> None:
        """An input that nobody knows is wrong use, said with tick and pin; the first tick that has one counts."""
        odd = [(first, name, column[first]) for name, column in zip(self.circuit.inputs, inputs) for first in [first_not(column, BITS)] if first >= 0]
        if not odd:
            return
        first, name, value = min(odd, key=lambda one: one[0])
        place = self.columns.place(self.done + first)
        if value < X:
            raise NoBit(bytes(column[first] for column in inputs), "%s: a bit is 0 or 1, and here is a %d" % (place, value))
        raise WrongUse("%s: the input %s is '%s' at tick %d, and nobody knows its bit" % (place, name, "x" if value == X else "z", self.done + first))


def judge_expected(columns: Columns, names: Sequence[str], expected: Sequence[Optional[bytes]], done: int) -> None:
    """A recorded output is a bit, or x or z, which say nothing."""
    for name, column in zip(names, expected):
        first = -1 if column is None else first_not(column, bytes([0, 1, X, X + 1]))
        if column is not None and first >= 0:
            raise WrongUse("%s: the output %s is %d at tick %d, which is no bit" % (columns.place(done + first), name, column[first], done + first))


class Expected:
    """A file of its own that the outputs are held against: columns of output pins; those of input pins are not looked at."""

    def __init__(self, circuit: Circuit, columns: Columns):
        self.circuit, self.columns, self.done = circuit, columns, 0
        self._outputs = placed(columns, circuit.outputs, circuit.pins)
        if all(at is None for at in self._outputs):
            raise WrongUse("%s: it has no column of an output pin: they are %s" % (columns.name, ", ".join(circuit.outputs)))

    def take(self, ticks: int) -> list[Optional[bytes]]:
        """The next ticks of each output; the file has as many as the run."""
        taken = self.columns.take(ticks)
        if len(taken[0]) < ticks:
            raise WrongUse("%s: it has %d ticks, and the run has more" % (self.columns.name, self.done + len(taken[0])))
        found = [None if at is None else taken[at] for at in self._outputs]
        judge_expected(self.columns, self.circuit.outputs, found, self.done)
        self.done += ticks
        return found

    def ended(self) -> None:
        if self.columns.names and len(self.columns.take(1)[0]):
            raise WrongUse("%s: it has more ticks than the run, which has %d" % (self.columns.name, self.done))
