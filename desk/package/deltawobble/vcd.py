"""Runs as value change dumps (IEEE 1364), for GTKWave and its kin."""
from __future__ import annotations

import re
from collections import defaultdict
from typing import Iterator, Optional, Sequence

from .circuit import base, vectors
from .trace import Run

#: stretches of one value
SAME = re.compile(rb"(.)\1*", re.DOTALL)


def codes(count: int) -> list[str]:
    """Short codes of printable characters."""
    letters = [chr(c) for c in range(33, 127)]
    return [letters[i % 94] + (letters[i // 94 - 1] if i >= 94 else "") for i in range(count)]


class Dumping:
    """One scope, `circuit`, with a wire for each signal, a bus for a vector of bits; a tick is one nanosecond. It is written as the run goes."""

    def __init__(self, names: Sequence[str]):
        self.groups = vectors(names)
        self.codes = codes(len(self.groups))
        self._before: list[Optional[str]] = [None] * len(self.groups)
        self._begun = False

    def head(self) -> bytes:
        lines = ["$comment deltawobble run $end", "$timescale 1 ns $end", "$scope module circuit $end"]
        for code, group in zip(self.codes, self.groups):
            lines.append("$var wire %d %s %s $end" % (len(group), code, self._reference(group)))
        return ("\n".join(lines + ["$upscope $end", "$enddefinitions $end"]) + "\n").encode()

    @staticmethod
    def _reference(group: list[str]) -> str:
        """x [3:0] for x.0 to x.3, x [2] for x.2 alone."""
        name = base(group[0])
        if name == group[0]:
            return name
        return "%s [%d:0]" % (name, len(group) - 1) if group[0].endswith(".0") else "%s [%s]" % (name, group[0].rpartition(".")[2])

    def changes(self, run: Run) -> bytes:
        """The changes of a stretch of the run."""
        found: dict[int, list[str]] = defaultdict(list)
        at = 0
        for k, (code, group) in enumerate(zip(self.codes, self.groups)):
            some = run.columns[at:at + len(group)]
            at += len(group)
            for tick in sorted({m.start() for column in some for m in SAME.finditer(column)}):
                value = "".join(str(column[tick]) for column in reversed(some))
                if value != self._before[k]:
                    self._before[k] = value
                    found[tick].append(value + code if len(group) == 1 else "b%s %s" % (value, code))
        return "".join(self._time(run.first + tick, found[tick]) for tick in sorted(found)).encode()

    def _time(self, time: int, changes: list[str]) -> str:
        first, self._begun = not self._begun, True
        return "#%d\n%s" % (time, "$dumpvars\n%s\n$end\n" % "\n".join(changes) if first else "\n".join(changes) + "\n")

    def end(self, tick: int) -> bytes:
        return b"#%d\n" % tick


def vcd(runs: Iterator[Run], names: Sequence[str]) -> Iterator[bytes]:
    """The dump of a run that comes stretch by stretch."""
    dumping, end = Dumping(names), 0
    yield dumping.head()
    for run in runs:
        yield dumping.changes(run)
        end = run.first + run.ticks
    yield dumping.end(end)
