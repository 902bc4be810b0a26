"""Where a command's bytes go: a file, raw or as commented hex by its name; or standard output.

A file is written beside its place under another name and then put there, so that a fault on the way leaves the old one.
"""
from __future__ import annotations

import os
import sys
from typing import IO, Callable, Iterable, Optional, Union

from .files import WrongUse
from .outputs import ending


class Writing:
    """A file that is being written; used with `with`. It takes its name when all is written, and never where something fails."""

    def __init__(self, name: str):
        self.name = name
        self.place = os.path.realpath(name)
        # what is no plain file, a device or a pipe, is written straight
        self.beside = "%s.%d.new" % (self.place, os.getpid()) if os.path.isfile(self.place) or not os.path.exists(self.place) else None

    def __enter__(self) -> IO[bytes]:
        try:
            self.file = open(self.beside or self.place, "xb" if self.beside else "wb")
        except OSError as error:
            raise WrongUse("%s: %s" % (self.name, error.strerror)) from error
        return self.file

    def __exit__(self, kind, error, trace) -> None:
        try:
            self.file.close()
            if kind is None and self.beside:
                if os.path.exists(self.place):
                    os.chmod(self.beside, os.stat(self.place).st_mode & 0o7777)
                os.replace(self.beside, self.place)
        except OSError as fault:
            self._remove()
            raise WrongUse("%s: %s" % (self.name, fault.strerror)) from fault
        if kind is not None:
            self._remove()
            if issubclass(kind, OSError) and not issubclass(kind, BrokenPipeError):
                raise WrongUse("%s: %s" % (self.name, error.strerror)) from error

    def _remove(self) -> None:
        try:
            if self.beside:
                os.unlink(self.beside)
        except OSError:
            pass


def write(name: str, data: Union[bytes, Iterable[bytes]]) -> None:
    """Bytes, or pieces of them, to a file; `-` is standard output."""
    pieces = [data] if isinstance(data, (bytes, bytearray)) else data
    if name == "-":
        sys.stdout.flush()
        for piece in pieces:
            sys.stdout.buffer.write(piece)
        sys.stdout.buffer.flush()
        return
    with Writing(name) as file:
        for piece in pieces:
            file.write(piece)


def put(name: Optional[str], data: bytes, in_hex: Callable[[bytes], str], own: str = ".sheet") -> None:
    """Commented hex to the terminal or to a file .hex, raw bytes to any other file and to `-`; `own` is the ending of what is written."""
    ending(name, own, ".hex")
    if name is None:
        sys.stdout.write(in_hex(data))
    else:
        write(name, in_hex(data).encode() if name.endswith(".hex") else data)
