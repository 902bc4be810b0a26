"""A campaign: a plan's jobs made into parcels, handed to workers, and their results kept.

A parcel's results are a file of their own, named by the hash of what went in, written whole under another name and then put in its place:
whatever breaks a campaign off, what is there is whole, and what is there is not done again.
"""
from __future__ import annotations

import json
import os
import time
from collections import deque
from dataclasses import dataclass, field
from pathlib import Path
from typing import Callable, Iterable, Iterator, Optional, Union

from . import calls
from .answer import Refused
from .circuit import Circuit as Accepted
from .files import WrongUse, raw, read
from .jobs import PARCEL, Circuit, Expected, File, OtherLibrary, Parcel, Random
from .plan import Plan
from .version import archive_hash
from .workers import Lost, Workers


@dataclass
class Campaign:
    """A plan with its files read: parcels to be done, and results of sheets and traces that cannot be used."""

    plan: Plan
    parcels: list[Parcel] = field(default_factory=list)
    unusable: list[dict] = field(default_factory=list)

    @property
    def jobs(self) -> int:
        return sum(len(parcel.jobs) for parcel in self.parcels) + len(self.unusable)


def circuit_of(path: str, name: str) -> Circuit:
    """A sheet's circuit. Refused where the sheet is, and where a ring passes through no register."""
    found = Accepted(read(path))
    registers = len(found.lean.registers)
    calls.lanes(found.source.bytes, [], [0] * registers, 0)
    return Circuit(name, found.source.bytes, tuple(found.inputs), tuple(found.outputs), registers)


def usable(path: str, name: str, expected: Expected) -> Circuit:
    """A circuit for which all that is expected means something."""
    circuit, other = circuit_of(path, name), expected.same
    for pin in expected.zero:
        if pin not in circuit.outputs:
            raise WrongUse("%s: no output pin is named %s; there are %s" % (name, pin, ", ".join(circuit.outputs)))
    if other and (len(other.inputs), len(other.outputs)) != (len(circuit.inputs), len(circuit.outputs)):
        raise WrongUse("%s has %d input and %d output pins, and %s, which it is held against, %d and %d" % (
            name, len(circuit.inputs), len(circuit.outputs), other.name, len(other.inputs), len(other.outputs)))
    return circuit


def fault_of(error: Union[Refused, WrongUse]) -> dict:
    """What a result says of a file that cannot be used."""
    if isinstance(error, Refused):
        return {"result": "refused", "why": str(error), "number": error.number, "place": error.place}
    return {"result": "wrong", "why": str(error).split("\n")[0]}


def prepared(plan: Plan, size: int = PARCEL) -> Campaign:
    """Reads all files, and makes parcels of so many jobs. One that is missing or refused is one result, and not the end; so is not the sheet that all are held against."""
    campaign = Campaign(plan)
    try:
        expected = Expected(plan.columns, tuple(plan.zero), circuit_of(plan.path(plan.same), plan.same) if plan.same else None)
    except Refused as refused:
        raise WrongUse("expect.same: %s: %s" % (plan.same, refused)) from None
    traces: list[Union[Random, File]] = []
    for name in plan.files:
        try:
            traces.append(File(name, raw(plan.path(name)), plan.sampled))
        except WrongUse as error:
            campaign.unusable.append({"sheet": None, "trace": name, **fault_of(error)})
    traces += [Random(seed, plan.ticks) for seed in plan.seeds]
    jobs = [(trace, start) for trace in traces for start in plan.starts]
    archive = archive_hash()
    for name in plan.sheets:
        try:
            circuit = usable(plan.path(name), name, expected)
        except (Refused, WrongUse) as error:
            campaign.unusable.append({"sheet": name, "trace": None, **fault_of(error)})
            continue
        campaign.parcels += [Parcel(archive, circuit, expected, jobs[at:at + size]) for at in range(0, len(jobs), size)]
    return campaign


class Store:
    """The folder of a campaign's results: parts/, a file for each parcel; results.jsonl, all of them in the plan's order."""

    def __init__(self, folder: str, resume: bool):
        self.folder, self.parts = Path(folder), Path(folder) / "parts"
        try:
            if not resume and self.parts.is_dir() and any(self.parts.iterdir()):
                raise WrongUse("%s has results of an earlier campaign: --resume goes on with it, -o names another folder" % folder)
            self.parts.mkdir(parents=True, exist_ok=True)
            for left in self.parts.glob("*.new"):
                left.unlink()
        except OSError as error:
            raise WrongUse("%s: %s" % (folder, error.strerror)) from error

    def path(self, parcel: Parcel) -> Path:
        return self.parts / (parcel.id + ".jsonl")

    def kept(self, parcel: Parcel) -> Optional[list[dict]]:
        """A parcel's results, if they are there and whole."""
        try:
            found = [json.loads(line) for line in self.path(parcel).read_text().splitlines()]
        except (OSError, ValueError):
            return None
        return found if [result.get("job") for result in found] == parcel.ids else None

    def keep(self, parcel: Parcel, results: list[dict]) -> None:
        self.write(self.path(parcel), results)

    def write(self, path: Path, results: Iterable[dict]) -> None:
        """All lines, or none: a file that cannot be written whole takes no name."""
        beside = path.with_name(path.name + ".new")
        try:
            with open(beside, "w") as file:
                for result in results:
                    file.write(json.dumps(result) + "\n")
            os.replace(beside, path)
        except OSError as error:
            beside.unlink(missing_ok=True)
            raise WrongUse("%s: %s; what was written before is whole, and --resume goes on from it" % (path, error.strerror)) from error

    def all(self, campaign: Campaign) -> Iterator[dict]:
        """Every result, in the plan's order."""
        yield from campaign.unusable
        for parcel in campaign.parcels:
            yield from self.kept(parcel) or []


@dataclass
class Run:
    """A campaign on its way. `told` is called with the results of each parcel, as they come; each parcel's once; `there` with those kept before."""

    campaign: Campaign
    store: Store
    workers: Workers
    told: Callable[[list[dict]], None]
    there: Callable[[list[dict]], None]

    def all(self) -> None:
        waiting, flying = deque(self.left()), 0
        while waiting or flying:
            while waiting and flying < self.workers.window:
                self.workers.send(waiting.popleft())
                flying += 1
            for parcel, back in self.workers.ended(1):
                flying -= 1
                self.take(parcel, back)
            self.told([])

    def left(self) -> Iterator[Parcel]:
        """The parcels that are still to be done."""
        for parcel in self.campaign.parcels:
            found = self.store.kept(parcel)
            if found is None:
                yield parcel
            else:
                self.there(found)

    def take(self, parcel: Parcel, back: Union[list[dict], Exception]) -> None:
        """The results of a parcel are kept, then told."""
        if isinstance(back, (OtherLibrary, Lost)):
            raise WrongUse("%s; what was written before is whole, and --resume goes on from it" % back)
        if isinstance(back, Exception):
            raise WrongUse("a worker could not do its jobs: %s: %s" % (type(back).__name__, back))
        self.store.keep(parcel, back)
        self.told(back)


class Rate:
    """How many jobs are done, how many a second, and how long the rest may take."""

    def __init__(self, total: int):
        self.total, self.before, self.now, self.began, self.last = total, 0, 0, time.monotonic(), time.monotonic()

    def take(self, count: int) -> None:
        self.now, self.last = self.now + count, time.monotonic()

    def there(self, count: int) -> None:
        """So many were done before; time counts from here on."""
        self.before, self.began = self.before + count, time.monotonic()

    def words(self) -> str:
        a_second = self.now / max(self.last - self.began, 1e-9) if self.now else 0
        left = self.total - self.before - self.now
        said = "{:,} of {:,} jobs, {:,.0f} a second".format(self.before + self.now, self.total, a_second)
        if not left or not self.now:
            return said
        seconds = left / a_second
        return said + (", about %d min left" % round(seconds / 60) if seconds >= 90 else ", about %d s left" % max(round(seconds), 1))
