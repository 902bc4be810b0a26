"""What the registers show at tick 0: bits by rising terminal, bits by name, or all starts at once."""
from __future__ import annotations

import random
from typing import Iterator, Optional, Sequence

from . import calls
from .circuit import Circuit
from .files import WrongUse
from .lanes import BIT, LANES, Traces, pack
from .recorded import Feed

#: registers of which all starts are tried
MOST_REGISTERS = 12


def starts_of(word: Optional[str], circuit: Circuit) -> bytes:
    """The starts that --starts says: `0110`, `s=1,count.3=0`, `all=1`. Bits are left for the call to judge: it refuses a wrong number of them (20)."""
    if word is None:
        return bytes(len(circuit.lean.registers))
    if "=" in word:
        return _by_name(word, circuit)
    plain = word.replace(",", "").replace(" ", "")
    if plain and not (plain.isdecimal() and plain.isascii()):
        raise WrongUse("--starts takes bits, one for each register, or NAME=BIT,.., all=BIT or either, and not '%s'" % word)
    return bytes(int(c) for c in plain)


#: what a register may start with in a run, and in a search
ONE_BIT = {"0": 0, "1": 1}
ANY_BIT = {"0": 0, "1": 1, "2": 2, "either": 2}


def searched_starts(word: Optional[str], circuit: Circuit) -> bytes:
    """The starts of a search, 2 for either: the forms of a run, digits 2 and NAME=either too. What is not said is either."""
    if word in (None, "either"):
        return bytes([2] * len(circuit.lean.registers))
    assert word is not None
    return _by_name(word, circuit, ANY_BIT, 2) if "=" in word else starts_of(word, circuit)


def _by_name(word: str, circuit: Circuit, bits: dict[str, int] = ONE_BIT, rest: int = 0) -> bytes:
    starts: list[Optional[int]] = [None] * len(circuit.registers)
    for item in word.split(","):
        name, _, bit = (part.strip() for part in item.partition("="))
        if bit not in bits:
            raise WrongUse("--starts: '%s' is no NAME=0 or NAME=1%s" % (item.strip(), " or NAME=either" if "either" in bits else ""))
        if name == "all":
            rest = bits[bit]
            continue
        for k in register_of(name, circuit):
            if starts[k] not in (None, bits[bit]):
                words = [("0", "1", "either")[b] for b in sorted((starts[k] or 0, bits[bit]))]
                raise WrongUse("--starts: the register %s is said to start with %s and with %s" % (circuit.registers[k].name, *words))
            starts[k] = bits[bit]
    return bytes(rest if bit is None else bit for bit in starts)


def register_of(name: str, circuit: Circuit) -> list[int]:
    """The register of a name, a terminal's number or another name that means one alone; or the registers of a vector."""
    found = circuit.registers
    for names in ([[r.name] for r in found], [[str(r.terminal)] for r in found], [r.aliases for r in found]):
        hits = [k for k, some in enumerate(names) if name in some]
        if len(hits) == 1:
            return hits
        if hits:
            raise WrongUse("--starts: %s could be %s" % (name, " or ".join(found[k].name for k in hits)))
    whole = [k for k, r in enumerate(found) if name and any(alias.rpartition(".")[0] == name for alias in [r.name] + r.aliases)]
    if whole:
        return whole
    raise WrongUse("--starts: no register is called %s: they are %s" % (name, ", ".join(r.name for r in found) or "none"))


class Either:
    """Many starts at once, with the same inputs: from which tick on each output is the same for all of them."""

    def __init__(self, circuit: Circuit):
        self.circuit, self.registers = circuit, len(circuit.lean.registers)
        self.all = self.registers <= MOST_REGISTERS
        self.traces = [Traces(circuit.source.bytes, list(pack(some)) if self.registers else [], circuit.lean) for some in self._starts()]
        self.ticks = 0
        #: for each output the last tick at which it depends on the starts, and how many do
        self.last: list[Optional[int]] = [None] * len(circuit.outputs)
        self.count = [0] * len(circuit.outputs)

    def _starts(self) -> Iterator[list[bytes]]:
        """Sixteen starts a lane each: all there are, repeated where they are fewer; or all 0, all 1 and fourteen at random."""
        n = self.registers
        if self.all:
            every = [bytes(k >> i & 1 for i in range(n)) for k in range(1 << n)]
            every = every * (-(-LANES // len(every)))
        else:
            some = random.Random(1)
            every = [bytes(n), bytes([1] * n)] + [bytes(some.getrandbits(1) for _ in range(n)) for _ in range(LANES - 2)]
        for at in range(0, len(every), LANES):
            yield every[at:at + LANES]

    def run(self, feed: Feed) -> None:
        most = max(1, self.traces[0].most // 4)
        while True:
            inputs, _, ticks = feed.take(most)
            if ticks == 0:
                return
            given = spread(inputs, ticks)
            self._hold([traces.step(given, ticks) for traces in self.traces], ticks)
            self.ticks += ticks

    def _hold(self, shown: Sequence, ticks: int) -> None:
        wide = 2 * len(self.circuit.outputs)
        halves = [calls.low_first(some) for some in shown]
        for k in range(len(self.circuit.outputs)):
            column = halves[0][2 * k::wide].translate(BIT[0])
            same = int.from_bytes(column.translate(bytes([0, 255]) + bytes(254)), "little")
            odd = 0
            for data in halves:
                odd |= int.from_bytes(data[2 * k::wide], "little") ^ same
                odd |= int.from_bytes(data[2 * k + 1::wide], "little") ^ same
            if odd:
                self.last[k] = self.ticks + (odd.bit_length() - 1 >> 3)
                self.count[k] += ticks - odd.to_bytes(ticks, "little").count(0)

    def words(self) -> list[str]:
        tried = "all %d starts" % (1 << self.registers) if self.all else "16 of 2^%d starts, which tell nothing sure of the others" % self.registers
        lines = ["%d ticks with %s of the %d registers:" % (self.ticks, tried, self.registers)]
        for name, last, count in zip(self.circuit.outputs, self.last, self.count):
            if last is None:
                lines.append("%s: the same for all of them at every tick" % name)
            elif last == self.ticks - 1:
                lines.append("%s: depends on the starts to the last tick, at %d of %d ticks" % (name, count, self.ticks))
            else:
                lines.append("%s: the same for all of them from tick %d on; before that it depends on them at %d ticks" % (name, last + 1, count))
        return lines

    def as_json(self) -> dict:
        return {"accepted": True, "starts": "either", "tried": 1 << self.registers if self.all else LANES, "all": self.all, "ticks": self.ticks,
                "outputs": [{"pin": name, "same_from": 0 if last is None else None if last == self.ticks - 1 else last + 1, "depends_at": count}
                            for name, last, count in zip(self.circuit.outputs, self.last, self.count)]}


def spread(columns: Sequence[bytes], ticks: int):
    """Columns of bits as numbers with the same bit in every lane."""
    wide = 2 * len(columns)
    data = bytearray(wide * ticks)
    for i, column in enumerate(columns):
        data[2 * i::wide] = data[2 * i + 1::wide] = column.translate(bytes([0, 255]) + bytes(254))
    return calls.numbers_of(bytes(data))
