"""A run held against what was recorded: where they first differ, how often, and both in waves around that place."""
from __future__ import annotations

from typing import Callable, Optional, Sequence

from .columns import KNOWN
from .running import Stretch
from .trace import Run

#: ticks that are shown before and behind the first difference
BEFORE, BEHIND = 24, 24
#: a value as a bit, where it is one
AS_BIT = bytes([0, 1]) + bytes(254)


def differing(shown: bytes, recorded: bytes) -> int:
    """The ticks that differ, a byte each, in one long number: 1 where both are bits and not the same."""
    if shown == recorded:
        return 0
    both = int.from_bytes(shown, "little") ^ int.from_bytes(recorded.translate(AS_BIT), "little")
    return both & int.from_bytes(recorded.translate(KNOWN), "little")


class Comparison:
    """What has been held against the record so far."""

    def __init__(self, inputs: Sequence[str], outputs: Sequence[str]):
        self.inputs, self.outputs = list(inputs), list(outputs)
        self.ticks, self.compared = 0, 0
        self.differ = {name: 0 for name in outputs}
        #: the first tick that differs, and the first pin of it
        self.first: Optional[tuple[int, str]] = None
        self.around: Optional[Run] = None
        self.seen: set[str] = set()
        self._before: Optional[Stretch] = None

    def take(self, stretch: Stretch) -> None:
        found: list[tuple[int, int]] = []
        for k, (shown, recorded) in enumerate(zip(stretch.outputs, stretch.expected)):
            if recorded is None:
                continue
            self.seen.add(self.outputs[k])
            self.compared += recorded.count(0) + recorded.count(1)
            odd = differing(shown, recorded)
            if odd:
                self.differ[self.outputs[k]] += odd.bit_count()
                found.append(((odd & -odd).bit_length() - 1 >> 3, k))
        self.ticks += stretch.ticks
        if found and self.first is None:
            at, k = min(found)
            self.first = (stretch.first + at, self.outputs[k])
            self.around = self._cut(stretch, at)
        self._before = stretch

    def _cut(self, stretch: Stretch, at: int) -> Run:
        """The pins around a tick, each compared output with its record below it."""
        start = max(0, at - BEFORE)
        lead = min(BEFORE - (at - start), self._before.ticks) if self._before else 0

        def around(pick: Callable[[Stretch], Optional[bytes]]) -> Optional[bytes]:
            column = pick(stretch)
            if column is None:
                return None
            tail = (pick(self._before) or bytes([2]) * self._before.ticks)[-lead:] if lead and self._before else b""
            return tail + column[start:at + BEHIND]

        names: list[str] = []
        columns: list[bytes] = []
        for k, name in enumerate(self.inputs):
            names.append(name)
            columns.append(around(lambda s, k=k: s.inputs[k]) or b"")
        for k, name in enumerate(self.outputs):
            for word, pick in ((name, lambda s, k=k: s.outputs[k]), (name + " recorded", lambda s, k=k: s.expected[k])):
                column = around(pick)
                if column is not None:
                    names.append(word)
                    columns.append(column)
        return Run(names, [], columns, len(columns[0]), stretch.first + start - lead)

    @property
    def differences(self) -> int:
        return sum(self.differ.values())

    def words(self) -> list[str]:
        pins = "1 output pin" if len(self.seen) == 1 else "%d output pins" % len(self.seen)
        what = "%s at %d ticks, %d recorded bits" % (pins, self.ticks, self.compared)
        if self.first is None:
            return ["alike: %s, no difference" % what]
        each = ", ".join("%s %d" % (name, count) for name, count in self.differ.items() if count)
        lines = ["different: %s at tick %d is the first; %d differ (%s) of %s" % (self.first[1], self.first[0], self.differences, each, what)]
        assert self.around is not None
        drawn = self.around.waves(10 ** 6)
        mark = " " * (len(drawn[1]) - self.around.ticks + self.first[0] - self.around.first) + "^"
        return lines + drawn + [mark]

    def as_json(self) -> dict:
        said: dict = {"accepted": True, "alike": self.first is None, "ticks": self.ticks, "compared": self.compared, "differences": self.differences,
                      "pins": {name: self.differ[name] for name in self.outputs if name in self.seen}}
        if self.first:
            said["first"] = {"tick": self.first[0], "pin": self.first[1]}
        return said
