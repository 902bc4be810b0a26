"""The three standard streams, some of which a caller may have closed."""
from __future__ import annotations

import io
import os
import sys

from .files import WrongUse


def ready() -> None:
    """Makes the streams fit for use. A closed standard output is wrong use, since nothing could be shown; a closed one of errors is silent."""
    for number in range(3):
        try:
            os.fstat(number)
        except OSError:
            # the lowest free number is taken: no file that is opened later becomes a standard stream
            os.open(os.devnull, os.O_RDWR)
    if sys.stderr is None:
        sys.stderr = open(os.devnull, "w")
    if sys.stdout is None:
        raise WrongUse("standard output is closed, so that nothing could be shown")
    # a name of a file, or a line of a notation, may have signs that the terminal has not
    if isinstance(sys.stdout, io.TextIOWrapper):
        sys.stdout.reconfigure(errors="backslashreplace")


def tell(words: str) -> None:
    """A line on standard error, as far as that takes one."""
    try:
        print(words, file=sys.stderr, flush=True)
    except (OSError, ValueError, AttributeError):
        pass


def drop_output() -> None:
    """Nobody takes standard output any more: what is left in the buffer goes nowhere."""
    try:
        os.dup2(os.open(os.devnull, os.O_WRONLY), sys.stdout.fileno())
    except (OSError, ValueError, AttributeError):
        pass


def given() -> io.BufferedIOBase:
    """Standard input, as bytes."""
    if sys.stdin is None:
        raise WrongUse("-: standard input is closed")
    return sys.stdin.buffer  # type: ignore[return-value]
