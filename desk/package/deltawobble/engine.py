"""The proved calls of libdeltawobble behind one interface, with two back ends.

`Library` calls a shared library in this process, where library and Python are for one processor; `Host` calls a process that is
linked with the archive and runs under an emulator elsewhere. `desk/build` makes the one that this machine can use. Both may be
called from several threads, and from processes that were forked.
"""
from __future__ import annotations

import atexit
import ctypes
import json
import os
import shlex
import struct
import subprocess
import threading
import weakref
from dataclasses import dataclass, field
from pathlib import Path
from typing import IO, Optional, Protocol, Union

ROOT = Path(__file__).resolve().parents[3]
#: what desk/build makes in a checkout, and what an installed package carries (desk/install, pip)
MADE = ROOT / "target" / "desk"
CARRIED = Path(__file__).resolve().parent / "built"
#: 16-bit numbers of working memory that every call needs
MEMORY = 32768
#: the calls, in the order of the host's numbers; each with what it is lent besides the working memory, and its other parameters
CALLS: dict[str, tuple[str, ...]] = {
    "translate": ("data", "out", "work", "lean", "plain", "card"),
    "stretch": ("data", "number"),
    "batch": ("data", "lengths", "out", "results", "work", "lean", "plain", "card"),
    "verilog": ("data", "out", "work"),
    "run": ("data", "inputs", "starts", "out", "work", "ticks"),
    "check": ("data", "work", "lean"),
    "back": ("data", "out", "work", "lean"),
    "lanes": ("data", "numbers", "state", "out", "work", "ticks"),
    "never": ("data", "starts", "trail", "queue", "out", "work", "ticks"),
    "make": ("data", "out", "places", "work")}


class NoLibrary(Exception):
    """The library has not been built, or cannot be used here."""


class NoCall(NoLibrary):
    """The library is there and has not this call: it is older than this desk."""

    def __init__(self, name: str):
        super().__init__("this library has no %s: it is older than this desk, build it again with desk/build" % name)


@dataclass
class Request:
    """One call: its name, the bytes lent, and the room lent for what it writes.

    Of lanes, `inputs` and `starts`, which is the state, are 16-bit numbers, low byte first; the room is in bytes there too. Of never,
    `number` is the pin, and `states` how many numbers of 32 bits the trail and the queue have, each. Of make, `data` is the text, and
    `number` how many places are lent.
    """

    name: str
    data: bytes
    inputs: bytes = b""
    starts: bytes = b""
    lengths: list[int] = field(default_factory=list)
    room: int = 0
    lean: bool = False
    plain: bool = False
    card: bool = False
    number: int = 0
    states: int = 0

    @property
    def unit(self) -> int:
        """The bytes of what a call counts its output in."""
        return 2 if self.name == "lanes" else 1


@dataclass
class Reply:
    """The answer word, the bytes written, the batch's results; and the 16-bit numbers, low byte first, that lanes left as its state or make
    as its places: all that were lent, and UNUSED where no node has one."""

    word: int
    out: bytes = b""
    results: list[int] = field(default_factory=list)
    state: bytes = b""


#: what stands in a place that make did not write: no word begins there, since a text has at most 65535 bytes
UNUSED = 0xFFFF


class Engine(Protocol):
    """What both back ends have."""

    name: str

    def has(self, name: str) -> bool: ...

    def call(self, request: Request) -> Reply: ...


def _used(request: Request, word: int) -> int:
    """How many bytes of the room were written: the answer's value, where there is room to write into. A search that found a tick (40) may
    have written a trace: the whole room is brought back."""
    if request.name == "never":
        return request.room if word >> 32 == 40 else 0
    return min(word * request.unit, request.room) if word >> 32 == 0 else 0


def _state(request: Request) -> bytes:
    """What a call is lent for 16-bit numbers that it may change, and that are brought back."""
    if request.name == "make":
        return b"\xFF\xFF" * request.number
    return request.starts if request.name == "lanes" else b""


class _Lent:
    """What one call is lent for writing. It is this call's own, since other threads run while the library does."""

    def __init__(self, request: Request):
        self.out = ctypes.create_string_buffer(max(request.room, 2))
        self.results = (ctypes.c_uint64 * max(len(request.lengths), 1))()
        self.state = ctypes.create_string_buffer(_state(request))
        self.work = (ctypes.c_uint16 * MEMORY)()
        self.trail, self.queue = ((ctypes.c_uint32 * max(request.states, 1))() for _ in range(2))


class Library:
    """The shared library, called in this process."""

    def __init__(self, path: Union[str, Path]):
        try:
            self._library = ctypes.CDLL(str(path))
        except OSError as error:
            raise NoLibrary("%s cannot be loaded here (%s): build it with desk/build" % (path, error)) from error
        self.name = "%s, in this process" % path
        self._calls = {}
        for name in CALLS:
            if hasattr(self._library, "deltawobble_" + name):
                self._calls[name] = getattr(self._library, "deltawobble_" + name)
                self._calls[name].restype = ctypes.c_uint64

    def has(self, name: str) -> bool:
        return name in self._calls

    def call(self, request: Request) -> Reply:
        lent = _Lent(request)
        words: list = []
        for parameter in CALLS[request.name]:
            words += self._parameter(parameter, request, lent)
        word = self._calls[request.name](*words)
        state = ctypes.string_at(lent.state, len(_state(request)))
        return Reply(word, ctypes.string_at(lent.out, _used(request, word)), list(lent.results[:len(request.lengths)]), state)

    @staticmethod
    def _parameter(parameter: str, request: Request, lent: _Lent) -> list:
        size = ctypes.c_size_t
        if parameter in ("data", "inputs", "starts"):
            given = getattr(request, parameter)
            return [ctypes.c_char_p(given), size(len(given))]
        if parameter == "numbers":
            return [ctypes.c_char_p(request.inputs), size(len(request.inputs) // 2)]
        if parameter == "state":
            return [lent.state, size(len(request.starts) // 2)]
        if parameter == "places":
            return [lent.state, size(request.number)]
        if parameter == "lengths":
            return [(ctypes.c_uint32 * max(len(request.lengths), 1))(*request.lengths), size(len(request.lengths))]
        if parameter == "out":
            return [lent.out, size(request.room // request.unit)]
        if parameter == "results":
            return [lent.results, size(len(request.lengths))]
        if parameter in ("trail", "queue"):
            return [getattr(lent, parameter), size(request.states)]
        if parameter == "work":
            return [lent.work, size(MEMORY)]
        if parameter == "number":
            return [size(request.number)]
        if parameter == "ticks":
            return [ctypes.c_uint16(request.number)]
        return [ctypes.c_bool(getattr(request, parameter))]


#: how a host's frames are laid out; desk/build notes it, since an older host would wait for ever
FRAMES = 3
ENDED = "the host process has ended: build it again with desk/build"
MIXED = "the host process answered another call than the one that was asked: it has been stopped"


class Host:
    """The host process (desk/host.c), kept running for many calls.

    One call at a time has the pipe. A call that does not come to its end, by Ctrl-C too, ends the process, since what is left in the pipe
    would be taken for the next answer. A forked process starts a host of its own.
    """

    #: the request's number, which call, lengths of data, inputs, starts, lengths; room; the wishes; the node, the ticks, the pin or the places; states
    HEAD = struct.Struct("<10Q")
    #: the request's number again, the word, the bytes written, the bytes of state or places
    ANSWER = struct.Struct("<4Q")

    def __init__(self, words: list[str]):
        self._words, self.name = words, "%s, a process of its own" % " ".join(words)
        self._process: Optional[subprocess.Popen[bytes]] = None
        self._asked, self._lock, self._owner = 0, threading.Lock(), os.getpid()
        _hosts.add(self)
        self._calls = self._whole(len(CALLS), Request("", b"")).word

    def has(self, name: str) -> bool:
        return bool(self._calls >> list(CALLS).index(name) & 1)

    def call(self, request: Request) -> Reply:
        return self._whole(list(CALLS).index(request.name), request)

    def _whole(self, which: int, request: Request) -> Reply:
        """One call from its first byte to its last."""
        with self._lock:
            if self._owner != os.getpid():
                self._leave()
            try:
                return self._ask(which, request)
            except BaseException:
                self._drop()
                raise

    def _ask(self, which: int, request: Request) -> Reply:
        self._asked += 1
        wishes = request.lean | request.plain << 1 | request.card << 2
        head = self.HEAD.pack(self._asked, which, len(request.data), len(request.inputs), len(request.starts), len(request.lengths),
                              request.room, wishes, request.number, request.states)
        given, taken = self._pipes()
        lengths = struct.pack("<%dI" % len(request.lengths), *request.lengths)
        try:
            _all(given, b"".join((head, request.data, request.inputs, request.starts, lengths)))
        except BrokenPipeError:
            raise NoLibrary(ENDED) from None
        number, word, wrote, left = self.ANSWER.unpack(_exactly(taken, self.ANSWER.size))
        if number != self._asked:
            raise NoLibrary(MIXED)
        out, state = _exactly(taken, wrote), _exactly(taken, left)
        results = struct.unpack("<%dQ" % len(request.lengths), _exactly(taken, 8 * len(request.lengths)))
        return Reply(word, out, list(results), state)

    def _pipes(self) -> tuple[IO[bytes], IO[bytes]]:
        """The process's standard input and output; it is started where it is not running."""
        if self._process is None:
            try:
                # no buffer of this process keeps a part of a frame
                self._process = subprocess.Popen(self._words, bufsize=0, stdin=subprocess.PIPE, stdout=subprocess.PIPE, start_new_session=True)
            except OSError as error:
                raise NoLibrary("%s cannot be run (%s): build it again with desk/build" % (self._words[0], error)) from error
            atexit.register(self.close)
        assert self._process.stdin and self._process.stdout
        return self._process.stdin, self._process.stdout

    def _leave(self) -> None:
        """In a forked process: the host is the parent's, and so is what stands in its pipes. They are closed here and left alone."""
        process, self._process, self._owner = self._process, None, os.getpid()
        if process is not None:
            _close(process)
            process.returncode = 0  # it is no child of this process, which so never waits for it

    def _forked(self) -> None:
        self._lock = threading.Lock()  # a thread that is not in this process may have held the old one
        self._leave()

    def _drop(self) -> None:
        """Ends the process at once; the next call starts another."""
        process, self._process = self._process, None
        if process is None:
            return
        process.kill()
        _close(process)
        process.wait()

    def close(self) -> None:
        """Ends the process; the next call starts it again."""
        with self._lock:
            if self._owner == os.getpid():
                self._drop()


def _close(process: "subprocess.Popen[bytes]") -> None:
    for pipe in (process.stdin, process.stdout):
        if pipe:
            pipe.close()


def _all(pipe: IO[bytes], data: bytes) -> None:
    left = memoryview(data)
    while left:
        left = left[pipe.write(left):]


def _exactly(pipe: IO[bytes], size: int) -> bytes:
    data, at = bytearray(size), 0
    while at < size:
        count = pipe.readinto(memoryview(data)[at:])  # type: ignore[attr-defined]
        if not count:
            raise NoLibrary(ENDED)
        at += count
    return bytes(data)


_hosts: "weakref.WeakSet[Host]" = weakref.WeakSet()


def _after_fork() -> None:
    for host in list(_hosts):
        host._forked()


os.register_at_fork(after_in_child=_after_fork)

_found: Optional[Engine] = None
_finding = threading.Lock()


def find() -> Engine:
    """The back end of this machine: what DELTAWOBBLE_LIBRARY or DELTAWOBBLE_HOST names, or what desk/build has made."""
    global _found
    if _found is None:
        with _finding:
            _found = _found or _look()
    return _found


def use(engine: Optional[Engine]) -> None:
    """Takes this back end from now on; None looks again."""
    global _found
    _found = engine


def place() -> Path:
    """The folder with the library, and with what is known of it."""
    return CARRIED if CARRIED.exists() else MADE


def how() -> dict:
    """Which back end: its `library`, or the words that start its `host`; names stand beside the file that has them, or are whole."""
    try:
        return json.loads((place() / "how.json").read_text())
    except (OSError, ValueError):
        raise NoLibrary("the proved library has not been built: run desk/build once (it proves the translator, some minutes)") from None


def _look() -> Engine:
    named, host = os.environ.get("DELTAWOBBLE_LIBRARY"), os.environ.get("DELTAWOBBLE_HOST")
    if named:
        return Library(named)
    if host:
        return Host(shlex.split(host))
    made = how()
    if "library" in made:
        return Library(place() / made["library"])
    if made.get("frames") != FRAMES:
        raise NoLibrary("the host process was built for another desk: build it again with desk/build")
    return Host([*made["host"][:-1], str(place() / made["host"][-1])])
