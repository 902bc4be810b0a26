"""How a run is shown: as a table, as waves, and whether it comes round."""
from __future__ import annotations

import sys
from dataclasses import dataclass
from typing import Optional, Sequence

from .circuit import base, vectors

#: a value as a sign of a table
SIGN = b"01" + b"x" * 254


@dataclass
class Period:
    """After how many ticks something comes again, None where that was not seen; how many ticks were looked through; all in words."""

    ticks: Optional[int]
    looked: int
    words: str

    def as_json(self) -> dict:
        return {"period": self.ticks, "looked": self.looked, "words": self.words}


@dataclass
class Run:
    """Some ticks of a run from `first` on: names of the inputs and of what is shown, and the bits of each, column by column."""

    inputs: list[str]
    outputs: list[str]
    columns: list[bytes]
    ticks: int
    first: int = 0

    @property
    def signals(self) -> list[tuple[str, bytes]]:
        """Each name with its bits over all ticks."""
        return list(zip(self.inputs + self.outputs, self.columns))

    def head(self) -> str:
        """The table's first line: inputs, a bar, outputs."""
        names, wide, _ = self._fields()
        return ("%*s  %s" % (self._tick_width, "tick", " ".join(name.rjust(w) for name, w in zip(names, wide)))).rstrip()

    @property
    def _tick_width(self) -> int:
        return max(len(str(self.first + self.ticks - 1)), 4)

    def _fields(self) -> tuple[list[str], list[int], list[int]]:
        """The table's fields: their names, how wide they are, and how many signals each has; the bar has none."""
        given, shown = columns(self.inputs), columns(self.outputs)
        fields = given + [("|", 0)] + shown
        return [name for name, _ in fields], [max(len(name), size) for name, size in fields], [size for _, size in fields]

    def table(self) -> list[str]:
        """A line for each tick; the bits of a vector stand together, bit 0 first."""
        _, wide, sizes = self._fields()
        blank = " ".join(" " * w if size else "|" for w, size in zip(wide, sizes)).encode()
        rows, at, column = bytearray(blank * self.ticks), 0, 0
        for w, size in zip(wide, sizes):
            for place in range(at + w - size, at + w) if size else ():
                rows[place::len(blank)] = self.columns[column].translate(SIGN)
                column += 1
            at += w + 1
        text, step, last = rows.decode(), len(blank), self._tick_width
        return [("%*d  %s" % (last, self.first + t, text[t * step:(t + 1) * step])).rstrip() for t in range(self.ticks)]

    def waves(self, wide: int = 100) -> list[str]:
        """Each signal as a wave, so many columns wide; longer runs go on below. A value that is no bit is an x."""
        signs = wave_signs()
        name_wide = max([len(name) for name, _ in self.signals] + [4])
        step = max(wide - name_wide - 2, 10)
        lines: list[str] = []
        for at in range(0, self.ticks, step):
            lines += [""] if lines else []
            lines.append("%*s  %s" % (name_wide, "tick", ruler(self.first + at, min(step, self.ticks - at))))
            for name, bits in self.signals:
                lines.append("%*s  %s" % (name_wide, name, "".join([signs[b] for b in bits[at:at + step]])))
        return lines


def wave_signs() -> list[str]:
    """How values are drawn: low, high, and anything else."""
    return (["▁", "▔"] if can_say("▁▔") else ["_", "-"]) + ["x"] * 254


def period_of(shown: Sequence) -> Period:
    """When the row of outputs at tick 0 comes again, and all rows behind it, as far as the run goes."""
    ticks = len(shown)
    if not shown:
        return Period(None, 0, "no tick, no period")
    p = ticks - border(shown)
    if p < ticks:
        return Period(p, ticks, "period %d: in the %d ticks looked through the outputs from tick %d on are those from tick 0 on" % (p, ticks, p))
    different = len(set(shown))
    if different == ticks:
        return Period(None, ticks, "no two of the %d ticks show the same outputs" % ticks)
    return Period(None, ticks, "%d different outputs in %d ticks, and no period from tick 0 on" % (different, ticks))


def border(rows: Sequence) -> int:
    """How many rows the longest beginning has that is an end too, and not all (after Knuth, Morris and Pratt)."""
    same = [0]
    for row in rows[1:]:
        k = same[-1]
        while k and rows[k] != row:
            k = same[k - 1]
        same.append(k + (rows[k] == row))
    return same[-1]


def columns(names: Sequence[str]) -> list[tuple[str, int]]:
    """Names and widths of a table's columns: x.0, x.1 and so on are one, if they are four or more."""
    found: list[tuple[str, int]] = []
    for group in vectors(names):
        found += [(base(group[0]), len(group))] if len(group) >= 4 else [(name, 1) for name in group]
    return found


def ruler(first: int, count: int) -> str:
    """Every tenth tick by its number."""
    line = [" "] * count
    for tick in range(-(-first // 10) * 10, first + count, 10):
        word = str(tick)
        if tick - first + len(word) <= count:
            line[tick - first:tick - first + len(word)] = word
    return "".join(line).rstrip()


def can_say(text: str) -> bool:
    try:
        text.encode(sys.stdout.encoding or "ascii")
        return True
    except (UnicodeEncodeError, LookupError):
        return False
