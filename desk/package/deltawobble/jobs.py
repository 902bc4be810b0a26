"""A campaign's jobs, and what becomes of them. What stands here is done wherever the jobs are done, and knows no files and no plan.

A job is a sheet, a trace and a start. Sixteen jobs of one sheet go through one call (`lanes`); a parcel is what is handed to a worker at
once: jobs of one sheet, with the sheet's and the traces' bytes and the hash of the archive that is to be called.
"""
from __future__ import annotations

import hashlib
import json
import random
from array import array
from dataclasses import dataclass, field
from functools import cached_property, lru_cache
from typing import Optional, Union

from . import calls
from .files import WrongUse
from .lanes import BIT, LANES, MOST_TICKS, Traces, pack
from .recordings import Pins, Recording, Sampled, recording
from .version import archive_hash

#: jobs of a parcel
PARCEL = 256


class OtherLibrary(Exception):
    """This worker's library was linked from another archive than the campaign's."""


@dataclass(frozen=True)
class Circuit:
    """A sheet that is accepted: its name, its bytes, the names of its pins, and how many registers it has."""

    name: str
    sheet: bytes
    inputs: tuple[str, ...]
    outputs: tuple[str, ...]
    registers: int


@dataclass(frozen=True)
class Random:
    """A trace that its seed gives: the one of `deltawobble run --random SEED`."""

    seed: int
    ticks: int

    @property
    def name(self) -> str:
        return "random %d" % self.seed

    @property
    def key(self) -> str:
        return "random %d %d" % (self.seed, self.ticks)

    def recording(self, circuit: Circuit) -> Recording:
        return Recording(random_bits(self.seed, self.ticks * len(circuit.inputs)), self.ticks, {})


@dataclass(frozen=True)
class File:
    """A trace from a file: its name, its bytes, and how it is sampled where it is a dump."""

    name: str
    data: bytes
    sampled: Sampled = Sampled()

    @property
    def key(self) -> str:
        return json.dumps([digest(self.data), self.sampled.clock, self.sampled.every, self.sampled.scope, self.name.endswith(".vcd")])

    def recording(self, circuit: Circuit) -> Recording:
        return recorded(self.name, self.data, Pins(circuit.inputs, circuit.outputs), self.sampled)


recorded = lru_cache(maxsize=64)(recording)


@dataclass(frozen=True)
class Expected:
    """What has to hold of every job."""

    columns: bool = False
    zero: tuple[str, ...] = ()
    same: Optional[Circuit] = None


@dataclass
class Parcel:
    """Jobs of one sheet: traces with their starts."""

    archive: str
    circuit: Circuit
    expected: Expected
    jobs: list[tuple[Union[Random, File], int]] = field(default_factory=list)

    @cached_property
    def ids(self) -> list[str]:
        """For each job the hash of all that goes into it."""
        other = self.expected.same
        common = json.dumps([self.archive, digest(self.circuit.sheet), self.circuit.inputs, self.circuit.outputs, self.expected.columns, self.expected.zero,
                             [digest(other.sheet), other.outputs] if other else None])
        return [hashlib.sha256(("%s %s %d" % (common, trace.key, start)).encode()).hexdigest()[:32] for trace, start in self.jobs]

    @cached_property
    def id(self) -> str:
        """The hash of all its jobs, and of the names that its results say."""
        names = [self.circuit.name, self.expected.same and self.expected.same.name, [trace.name for trace, _ in self.jobs]]
        return hashlib.sha256(json.dumps([self.ids, names]).encode()).hexdigest()


def digest(data: bytes) -> str:
    return hashlib.sha256(data).hexdigest()


@lru_cache(maxsize=1024)
def random_bits(seed: int, count: int) -> bytes:
    """So many bits of Python's generator, one byte a bit. Each is the highest of 32 that the generator gives: they are asked for all at once."""
    if not count:
        return b""
    return random.Random(seed).getrandbits(32 * count).to_bytes(4 * count, "little")[3::4].translate(HIGHEST)


HIGHEST = bytes(byte >> 7 for byte in range(256))


# ---- where the jobs are done

def done(parcel: Parcel) -> list[dict]:
    """A result for each job of a parcel, in its order."""
    if archive_hash() != parcel.archive:
        raise OtherLibrary("this worker's library is of the archive %s, and the campaign's is %s" % (archive_hash(), parcel.archive))
    results: list[dict] = []
    named = list(zip(parcel.ids, parcel.jobs))
    for at in range(0, len(named), LANES):
        results += sixteen(parcel, named[at:at + LANES])
    return results


def sixteen(parcel: Parcel, jobs: list) -> list[dict]:
    """Up to sixteen jobs, through one call of each circuit. A trace or a start that cannot be used is a result of its own."""
    results: list[dict] = []
    fit: list[tuple[dict, Recording, int]] = []
    for name, (trace, start) in jobs:
        result = {"job": name, "sheet": parcel.circuit.name, "trace": trace.name, "start": start}
        results.append(result)
        try:
            found = trace.recording(parcel.circuit)
            for circuit in (parcel.circuit, parcel.expected.same):
                if circuit and start >> circuit.registers:
                    raise WrongUse("start %d has more bits than %s has registers, %d" % (start, circuit.name, circuit.registers))
            fit.append((result, found, start))
        except WrongUse as error:
            result.update(result="wrong", why=str(error))
    if fit:
        judge(parcel, fit)
    return results


def judge(parcel: Parcel, fit: list[tuple[dict, Recording, int]]) -> None:
    """Runs the traces and says of each what became of it."""
    circuit, expected = parcel.circuit, parcel.expected
    most = max(found.ticks for _, found, _ in fit)
    # a shorter trace goes on with zeros: what it shows before does not depend on them
    numbers = pack([found.bits.ljust(most * len(circuit.inputs), b"\0") for _, found, _ in fit])
    starts = [start for _, _, start in fit]
    shown = calls.low_first(through(circuit, numbers, starts, most))
    other = calls.low_first(through(expected.same, numbers, starts, most)) if expected.same else b""
    for lane, (result, found, _) in enumerate(fit):
        bits = lane_of(shown, lane)[:found.ticks * len(circuit.outputs)]
        fault = zeros(circuit, expected, bits) or columns(circuit, expected, found, bits)
        if not fault and other != shown and expected.same:
            fault = differs(circuit, bits, lane_of(other, lane)[:len(bits)], "%s shows {}" % expected.same.name)
        result.update(ticks=found.ticks, outputs=digest(bits)[:32], result="failed" if fault else "passed", **(fault or {}))


def lane_of(data: bytes, lane: int) -> bytes:
    """One trace's bits of 16-bit numbers, low byte first."""
    return data[lane >> 3::2].translate(BIT[lane & 7])


def through(circuit: Circuit, numbers: array, starts: list[int], ticks: int) -> array:
    """The outputs of all lanes."""
    state = array("H", [sum((start >> i & 1) << lane for lane, start in enumerate(starts)) for i in range(circuit.registers)])
    if ticks <= MOST_TICKS:
        return calls.lanes(circuit.sheet, numbers, state, ticks, room=ticks * len(circuit.outputs))[0]
    return Traces(circuit.sheet, state).run(numbers, ticks)


def zeros(circuit: Circuit, expected: Expected, bits: bytes) -> Optional[dict]:
    """The first tick at which a pin that must stay 0 does not."""
    wide = len(circuit.outputs)
    for name in expected.zero:
        tick = bits[circuit.outputs.index(name)::wide].find(1)
        if tick >= 0:
            return {"tick": tick, "pin": name, "why": "%s is 1 at tick %d, and must stay 0" % (name, tick)}
    return None


def columns(circuit: Circuit, expected: Expected, found: Recording, bits: bytes) -> Optional[dict]:
    """The first tick at which a recorded column says another bit."""
    if not expected.columns:
        return None
    wide, faults = len(circuit.outputs), []
    for name, column in found.expected.items():
        shown = bits[circuit.outputs.index(name)::wide]
        if shown != column:
            ticks = [t for t, (a, b) in enumerate(zip(shown, column)) if a != b and b < 2]
            faults += [(ticks[0], name, shown[ticks[0]], column[ticks[0]])] if ticks else []
    if not faults:
        return None
    tick, name, bit, wanted = min(faults)
    return {"tick": tick, "pin": name, "why": "%s is %d at tick %d, and %d is recorded" % (name, bit, tick, wanted)}


def differs(circuit: Circuit, bits: bytes, other: bytes, words: str) -> Optional[dict]:
    """The first tick and pin at which two runs show different bits."""
    if bits == other:
        return None
    at = next(i for i, (a, b) in enumerate(zip(bits, other)) if a != b)
    tick, name = at // len(circuit.outputs), circuit.outputs[at % len(circuit.outputs)]
    return {"tick": tick, "pin": name, "why": "%s is %d at tick %d, and %s" % (name, bits[at], tick, words.format(other[at]))}
