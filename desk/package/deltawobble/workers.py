"""Where jobs are done: in processes on this machine, or by the workers of a Dask scheduler.

Dask (Debian package python3-distributed, a module of Debian's own python3) is an engine of its own: it hands jobs out, and does those of a
lost worker again. Nothing of ours listens anywhere. Here a process has a pipe of its own, so that one that is killed takes nothing with it.
"""
from __future__ import annotations

import multiprocessing
import os
import signal
from collections import deque
from concurrent.futures import CancelledError
from dataclasses import dataclass
from multiprocessing import connection
from queue import Empty, SimpleQueue
from typing import Any, Callable, Optional, Protocol

from .files import WrongUse

#: parcels that are handed out and not yet back, for each process
AHEAD = 4
#: how many processes may be lost over one parcel
MOST_LOST = 3

Work = Callable[[Any], list]
#: what came back: the parcel, and its results or what was wrong
Back = tuple[Any, Any]


class Lost(Exception):
    """The processes that took a parcel were killed, one after the other."""


class Workers(Protocol):
    """What both have: `window` parcels may be on their way at once."""

    window: int

    def send(self, parcel: Any) -> None: ...

    def ended(self, timeout: float) -> list[Back]: ...

    def close(self) -> None: ...


@dataclass
class Process:
    """A process, its pipe, and the parcel that it has."""

    process: Any
    pipe: connection.Connection
    parcel: Any = None


class Local:
    """Processes on this machine."""

    def __init__(self, work: Work, count: int):
        self.work, self.window = work, AHEAD * count
        self.waiting: deque = deque()
        self.lost: dict[int, int] = {}
        self.processes: list[Process] = []
        for _ in range(count):
            self.processes.append(self._started())

    def _started(self) -> Process:
        ours, theirs = multiprocessing.Pipe()
        # the pipes of the others are closed in the new process: each ends when this one does
        others = [other.pipe for other in self.processes] + [ours]
        process = multiprocessing.get_context("fork").Process(target=_serve, args=(self.work, theirs, others), daemon=True)
        process.start()
        theirs.close()
        return Process(process, ours)

    def send(self, parcel: Any) -> None:
        self.waiting.append(parcel)
        for one in self.processes:
            self._feed(one)

    def _feed(self, one: Process) -> None:
        if one.parcel is None and self.waiting:
            one.parcel = self.waiting.popleft()
            try:
                one.pipe.send(one.parcel)
            except OSError:
                pass  # it has ended: its pipe says so when it is read

    def ended(self, timeout: float) -> list[Back]:
        found: list[Back] = []
        ready = connection.wait([one.pipe for one in self.processes if one.parcel is not None], timeout)
        for number, one in enumerate(self.processes):
            if one.pipe in ready:
                try:
                    back, parcel = one.pipe.recv(), one.parcel
                    one.parcel = None
                    self._feed(one)
                    found.append((parcel, back))
                except (EOFError, OSError):
                    found += self._again(number)
        return found

    def _again(self, number: int) -> list[Back]:
        """A process was lost: another takes its place, and its parcel is done again."""
        one = self.processes.pop(number)
        one.pipe.close()
        one.process.join()
        self.processes.insert(number, self._started())
        self.lost[id(one.parcel)] = self.lost.get(id(one.parcel), 0) + 1
        if self.lost[id(one.parcel)] > MOST_LOST:
            return [(one.parcel, Lost("%d processes that took these jobs were killed" % MOST_LOST))]
        self.waiting.appendleft(one.parcel)
        self._feed(self.processes[number])
        return []

    def close(self) -> None:
        for one in self.processes:
            one.pipe.close()
        for one in self.processes:
            one.process.join(2)
            if one.process.is_alive():
                one.process.terminate()
                one.process.join()


def _serve(work: Work, pipe: connection.Connection, others: list[connection.Connection]) -> None:
    """A process: parcels in, results out, until the pipe is closed. Ctrl-C is heard by the campaign alone."""
    signal.signal(signal.SIGINT, signal.SIG_IGN)
    for other in others:
        other.close()
    try:
        while True:
            parcel = pipe.recv()
            try:
                back: Any = work(parcel)
            except Exception as error:
                back = error
            pipe.send(back)
    except (EOFError, OSError):
        os._exit(0)


class Dask:
    """The workers of a scheduler, each with a deltawobble of its own."""

    def __init__(self, work: Work, client: Any, window: int):
        self.work, self.client, self.window = work, client, window
        self.settled: SimpleQueue = SimpleQueue()
        self.lost = 0
        self.flying: dict[Any, tuple[Any, Any]] = {}

    @classmethod
    def at(cls, work: Work, address: str, ca: Optional[str] = None, cert: Optional[str] = None, key: Optional[str] = None) -> Dask:
        """The workers of the scheduler at an address."""
        try:
            from distributed import Client
            from distributed.security import Security
        except ImportError:
            raise WrongUse("--scheduler needs Dask: Debian package python3-distributed, a module of Debian's own /usr/bin/python3; "
                           "with another Python, pip install distributed") from None
        words = {"tls_ca_file": ca, "tls_client_cert": cert, "tls_client_key": key}
        if address.startswith("tls://") and not any(words.values()):
            raise WrongUse("%s: tls:// goes with --tls-ca-file, --tls-cert and --tls-key" % address)
        security = Security(require_encryption=True, **words) if any(words.values()) else None
        try:
            client = Client(address, security=security, timeout=10, set_as_default=False)
        except (OSError, ValueError, TypeError) as error:
            raise WrongUse("%s: no scheduler answers there (%s)" % (address, str(error).split("\n")[0])) from None
        return cls(work, client, 2 * AHEAD * max(sum(client.nthreads().values()), 1))

    def send(self, parcel: Any) -> None:
        future = self.client.submit(self.work, parcel, pure=False)
        self.flying[future.key] = future, parcel
        future.add_done_callback(self.settled.put)

    def ended(self, timeout: float) -> list[Back]:
        found: list[Back] = []
        try:
            found += self._back(self.settled.get(timeout=timeout))
            while True:
                found += self._back(self.settled.get_nowait())
        except Empty:
            return found

    def _back(self, settled: Any) -> list[Back]:
        """What a job gave. Dask does the job of a lost worker again; but a result that is lost with its worker before it was fetched
        may come to us as cancelled, and nobody else cancels here: that parcel is sent once more."""
        future, parcel = self.flying.pop(settled.key)
        try:
            return [(parcel, future.result())]
        except CancelledError:
            self.lost += 1
            if self.lost > MOST_LOST * self.window:
                return [(parcel, Lost("%d results were lost with the workers that had them" % self.lost))]
            self.send(parcel)
            return []
        except Exception as error:
            return [(parcel, error)]

    def close(self) -> None:
        for future, _ in self.flying.values():
            future.cancel()
        self.client.close(timeout=5)


def cores() -> int:
    """The cores that this process may use."""
    return len(os.sched_getaffinity(0)) if hasattr(os, "sched_getaffinity") else os.cpu_count() or 1
