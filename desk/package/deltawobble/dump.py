"""Value change dumps (IEEE 1364) read back: signals by name, sampled at a clock's rising edges or at equal times.

At a rising edge a signal has the value that it had just before: that is what a register takes, and what a tick is. With equal times, tick k has
the values that hold from the time k * EVERY on.
"""
from __future__ import annotations

import re
from dataclasses import dataclass
from fractions import Fraction
from typing import IO, Iterator, Optional, Sequence

from .columns import VALUES, X, Columns
from .files import WrongUse

BLOCK = 1 << 20
#: bytes of the part with the names, at most
MOST_HEAD = 1 << 26
#: ticks of a piece
PIECE = 65535
UNITS = {"s": 1, "ms": 10 ** 3, "us": 10 ** 6, "ns": 10 ** 9, "ps": 10 ** 12, "fs": 10 ** 15}
TIME, SCALAR = ord("#"), frozenset(b"01xXzZ")
#: columns with their values, and what the clock becomes; a word that changes nothing
Change = tuple[list[tuple[int, int]], list[int]]
SKIPPED: Change = ([], [])
RANGE = re.compile(r"\[(-?\d+)(?::(-?\d+))?\]$")


@dataclass(frozen=True)
class Signal:
    """A signal of the dump: the scopes around it, its name, its code, how many bits it has, and the indices of the first and the last."""

    scope: str
    name: str
    code: bytes
    width: int
    first: Optional[int]
    last: Optional[int]
    kind: str

    @property
    def path(self) -> str:
        return self.scope + "." + self.name if self.scope else self.name


def seconds(words: str) -> Fraction:
    """A time, as `10ns`; ValueError where it is none."""
    match = re.fullmatch(r"(\d+(?:\.\d+)?)\s*(s|ms|us|ns|ps|fs)", words.strip())
    if not match or not Fraction(match[1]):
        raise ValueError(words)
    return Fraction(match[1]) / UNITS[match[2]]


class Head:
    """What stands before `$enddefinitions`: the timescale and the signals."""

    def __init__(self, name: str, stream: IO[bytes]):
        data = bytearray()
        while b"$enddefinitions" not in data:
            more = stream.read(BLOCK)
            if not more or len(data) > MOST_HEAD:
                raise WrongUse("%s: this is no value change dump: $enddefinitions is missing" % name)
            data += more
        head, _, rest = bytes(data).partition(b"$enddefinitions")
        while b"$end" not in rest:
            more = stream.read(BLOCK)
            if not more:
                raise WrongUse("%s: the dump ends behind $enddefinitions" % name)
            rest += more
        self.name, self.rest = name, rest.partition(b"$end")[2]
        self.scale: Optional[Fraction] = None
        self.signals: list[Signal] = []
        self._scopes: list[str] = []
        self._read(head.decode(errors="replace").split())

    def _read(self, words: list[str]) -> None:
        at = 0
        while at < len(words):
            try:
                end = words.index("$end", at)
            except ValueError:
                raise WrongUse("%s: %s has no $end" % (self.name, words[at])) from None
            self._section(words[at], words[at + 1:end])
            at = end + 1

    def _section(self, kind: str, words: list[str]) -> None:
        if kind == "$scope" and len(words) == 2:
            self._scopes.append(words[1])
        elif kind == "$upscope" and self._scopes:
            self._scopes.pop()
        elif kind == "$timescale":
            try:
                self.scale = seconds("".join(words))
            except ValueError:
                raise WrongUse("%s: '%s' is no timescale" % (self.name, " ".join(words))) from None
        elif kind == "$var":
            self._variable(words)

    def _variable(self, words: list[str]) -> None:
        if len(words) < 4 or not words[1].isdecimal():
            raise WrongUse("%s: '$var %s' is no signal" % (self.name, " ".join(words)))
        name = "".join(words[3:]).removeprefix("\\")
        match = RANGE.search(name)
        first, last = (int(match[1]), int(match[2] or match[1])) if match else (None, None)
        plain = name[:match.start()] if match else name
        self.signals.append(Signal(".".join(self._scopes), plain, words[2].encode(), int(words[1]), first, last, words[0]))


class Found:
    """Where in a dump the pins are: for each the code of its signal, and how many bits stand right of it there."""

    def __init__(self, head: Head, scope: Optional[str]):
        self.head, self.scope = head, scope

    def pin(self, pin: str, width: int) -> Optional[tuple[Signal, int]]:
        """The signal of a pin, `x` or bit i of so many, `x.i`; None where there is none. x.i is the bit x[i]."""
        base, _, index = pin.rpartition(".") if width > 1 else (pin, "", "")
        found = [s for s in self.head.signals if index and s.width == 1 and self._named(s, pin)]  # a signal that is called x.2 itself
        found = found or [s for s in self.head.signals if self._named(s, base) and (not index or self._has(s, int(index), width))]
        if not found:
            return None
        if len({s.code for s in found}) > 1:
            raise WrongUse("%s: %s is the name of several signals, %s: --scope says which is meant" % (self.head.name, base, ", ".join(s.path for s in found)))
        signal = found[0]
        if signal.kind in ("real", "realtime", "string", "event"):
            raise WrongUse("%s: %s is a %s, and no bit" % (self.head.name, signal.path, signal.kind))
        if not index and signal.width != 1:
            raise WrongUse("%s: %s has %d bits, and the pin %s one" % (self.head.name, signal.path, signal.width, pin))
        return signal, self._right(signal, int(index)) if index and signal.width > 1 else 0

    def _named(self, signal: Signal, name: str) -> bool:
        inside = self.scope is None or signal.scope == self.scope or signal.scope.endswith("." + self.scope)
        return inside and (signal.name == name or signal.path == name)

    def _has(self, signal: Signal, index: int, width: int) -> bool:
        """A vector as wide as the pins are many, from bit 0 on; or one bit of it, as a signal of its own."""
        if signal.width == 1 and width > 1:
            return signal.first == index
        low, high = sorted((signal.first or 0, signal.last or 0)) if signal.first is not None else (0, signal.width - 1)
        if signal.width != width or (low, high) != (0, width - 1):
            raise WrongUse("%s: %s has the bits %d to %d, and the pins are %s.0 to %s.%d"
                           % (self.head.name, signal.path, low, high, signal.name, signal.name, width - 1))
        return True

    @staticmethod
    def _right(signal: Signal, index: int) -> int:
        rising = signal.first is not None and signal.last is not None and signal.first < signal.last
        return signal.width - 1 - index if rising else index


class Dump(Columns):
    """A dump, sampled. `wanted` are the pins that are looked for, each with the width of its vector; those found are the columns."""

    def __init__(self, name: str, stream: IO[bytes], wanted: Sequence[tuple[str, int]], clock: Optional[str], every: Optional[Fraction],
                 scope: Optional[str] = None):
        super().__init__()
        self.name, self._stream, self.head = name, stream, Head(name, stream)
        found = Found(self.head, scope)
        self.names: list[str] = []
        #: for each code the columns that it sets, and how many bits stand right of each in a vector
        self._sets: dict[bytes, list[tuple[int, int]]] = {}
        for pin, width in wanted:
            place = found.pin(pin, width)
            if place:
                self._sets.setdefault(place[0].code, []).append((len(self.names), place[1]))
                self.names.append(pin)
        self._widths = {signal.code: signal.width for signal in self.head.signals}
        self._clock = self._clock_code(found, clock) if clock is not None else None
        self._every = self._units(every) if every is not None else 0

    def _clock_code(self, found: Found, clock: str) -> bytes:
        place = found.pin(clock, 1)
        if place is None:
            single = sorted({s.name for s in self.head.signals if s.width == 1})
            raise WrongUse("%s: no signal is called %s; of one bit are %s" % (self.name, clock, ", ".join(single[:12]) or "none"))
        return place[0].code

    def _units(self, every: Fraction) -> int:
        if self.head.scale is None:
            raise WrongUse("%s: it has no timescale, so that --every means nothing: take --clock" % self.name)
        units = every / self.head.scale
        if units.denominator != 1:
            raise WrongUse("%s: its times are counted in %s seconds, and --every is no multiple of that" % (self.name, self.head.scale))
        return int(units)

    def pieces(self) -> Iterator[list[bytes]]:
        rows, wide = bytearray(), len(self.names)
        for row, times in (self._edges() if self._clock is not None else self._times()):
            while times:
                some = min(times, PIECE)
                rows += row * some
                times -= some
                if len(rows) >= PIECE * max(wide, 1):
                    yield [bytes(rows[i::wide]) for i in range(wide)]
                    rows.clear()
        if rows:
            yield [bytes(rows[i::wide]) for i in range(wide)]

    # ---- samples: a row, and how many ticks it holds for

    def _edges(self) -> Iterator[tuple[bytes, int]]:
        """The row before each rising edge of the clock, from 0 to 1."""
        now, level = bytearray([X]) * len(self.names), X
        for time, changes, clock, _ in self._steps():
            for value in clock:
                if value > 1 and level <= 1:
                    raise WrongUse("%s: the clock is not known at time %d" % (self.name, time))
                if level == 0 and value == 1:
                    yield bytes(now), 1
                level = value
            for at, value in changes:
                now[at] = value

    def _times(self) -> Iterator[tuple[bytes, int]]:
        """The row that holds at each multiple of the step; the last time is a tick only where something changes at it."""
        now, next_tick = bytearray([X]) * len(self.names), 0
        last, changed = 0, False
        for time, changes, _, some in self._steps():
            count = max(0, -(-time // self._every) - next_tick)
            yield bytes(now), count
            next_tick += count
            for at, value in changes:
                now[at] = value
            last, changed = time, some
        if changed and last == next_tick * self._every:
            yield bytes(now), 1

    def _steps(self) -> Iterator[tuple[int, list[tuple[int, int]], list[int], bool]]:
        """Each time of the dump, with the columns that change then, the values that the clock takes, and whether anything changes at all."""
        time, changes, clock, some = 0, [], [], False
        words, known, begun = self._split(), {}, False
        for word in words:
            change = known.get(word)  # a dump has few different words but times, and each is taken apart once
            if change is None and word[0] == TIME:
                if begun:
                    yield time, changes, clock, some
                later = self._number(word[1:])
                if later < time:
                    raise WrongUse("%s: time %d stands behind time %d" % (self.name, later, time))
                time, changes, clock, some, begun = later, [], [], False, True
                continue
            if change is None:
                change = self._change(word, words)
                if word[0] in SCALAR:
                    known[word] = change
            if change is not SKIPPED:
                begun = some = True
                changes += change[0]
                clock += change[1]
        if begun:
            yield time, changes, clock, some

    def _number(self, word: bytes) -> int:
        if not word.isdigit():
            raise WrongUse("%s: '#%s' is no time" % (self.name, word[:20].decode(errors="replace")))
        return int(word)

    def _change(self, word: bytes, words: Iterator[bytes]) -> "Change":
        """What a word changes: columns with their values, and the clock's value."""
        first = word[0]
        if first in SCALAR:
            return self._set(word[:1], word[1:])
        if first in b"bB":
            return self._set(word[1:] or b"x", next(words, b""))
        if first in b"rRsS":
            next(words, b"")
            return [], []
        if word == b"$comment":
            while next(words, b"$end") != b"$end":
                pass
        elif first != 36:  # '$': $dumpvars, $dumpall, $dumpon, $dumpoff, $end
            raise WrongUse("%s: '%s' is no change of a value" % (self.name, word[:20].decode(errors="replace")))
        return SKIPPED

    def _set(self, value: bytes, code: bytes) -> "Change":
        width = self._widths.get(code)
        if width is None or len(value) > width:
            what = "is the code of no signal" if width is None else "has %d bits, and gets a value of %d" % (width, len(value))
            raise WrongUse("%s: '%s' %s" % (self.name, code[:20].decode(errors="replace"), what))
        return [(at, _bit(value, right)) for at, right in self._sets.get(code, ())], [VALUES[value[-1]]] if code == self._clock else []

    def _split(self) -> Iterator[bytes]:
        kept = self.head.rest
        while True:
            more = self._stream.read(BLOCK)
            data = kept + more
            cut = max(data.rfind(b"\n"), data.rfind(b" ")) + 1 if more else len(data)
            yield from data[:cut].split()
            kept = data[cut:]
            if not more:
                return


def _bit(value: bytes, right: int) -> int:
    """One bit of a value. A short one is filled up on the left: with x and z if it begins so, else with 0."""
    if right < len(value):
        return VALUES[value[len(value) - 1 - right]]
    return VALUES[value[0]] if value[:1] in (b"x", b"X", b"z", b"Z") else 0
