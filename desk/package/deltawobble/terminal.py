"""What differs between a terminal and a file: colour, and a progress bar."""
from __future__ import annotations

import os
import sys
from typing import TextIO

CODES = {"red": "31", "green": "32", "yellow": "33", "bold": "1", "dim": "2"}


def coloured(stream: TextIO) -> bool:
    """Colour only on a terminal, and not where NO_COLOR is set."""
    return stream.isatty() and "NO_COLOR" not in os.environ and os.environ.get("TERM") != "dumb"


def paint(text: str, colour: str, stream: TextIO = sys.stdout) -> str:
    return "\033[%sm%s\033[0m" % (CODES[colour], text) if coloured(stream) else text


class Progress:
    """A bar on standard error where that is a terminal; nothing elsewhere."""

    def __init__(self, total: int, what: str):
        self.total, self.what, self.done, self.on = total, what, 0, sys.stderr.isatty() and total > 0

    def step(self, count: int = 1) -> None:
        self.done += count
        if self.on:
            filled = 30 * self.done // self.total
            print("\r[%s%s] %d of %d %s" % ("#" * filled, " " * (30 - filled), self.done, self.total, self.what), end="", file=sys.stderr, flush=True)

    def close(self) -> None:
        if self.on:
            print("\r\033[K", end="", file=sys.stderr, flush=True)
