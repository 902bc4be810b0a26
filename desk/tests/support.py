"""What the tests share: the examples, and the command run in this process."""
from __future__ import annotations

import contextlib
import io
import platform
import signal
import sys
import unittest
from pathlib import Path
from typing import Iterator

from deltawobble import cli
from deltawobble.files import read

ROOT = Path(__file__).resolve().parents[2]
EXAMPLES = ROOT / "examples"

#: the archive is for x86-64; elsewhere the desk calls a process under an emulator, and there is no library to load, to install or to look into
ELSEWHERE = platform.machine() != "x86_64"
NO_LIBRARY = "NOT RUN ON THIS PROCESSOR: what is called is a process under an emulator, and no library"
with_library = unittest.skipIf(ELSEWHERE, NO_LIBRARY)


def example(name: str) -> bytes:
    """The sheet of an example."""
    return read(str(EXAMPLES / (name + ".hex"))).bytes


def examples() -> Iterator[tuple[str, bytes, str]]:
    """Each example: its name, its sheet, its stored listing."""
    for path in sorted(EXAMPLES.glob("*.hex")):
        yield path.stem, read(str(path)).bytes, path.with_suffix(".listing").read_text()


def command(*words: str, given: bytes = b"") -> tuple[int, str, str]:
    """Runs the command in this process: exit status, standard output, standard error."""
    out, err = (io.TextIOWrapper(io.BytesIO(), encoding="utf-8", write_through=True) for _ in range(2))
    stdin = sys.stdin
    sys.stdin = io.TextIOWrapper(io.BytesIO(given))
    try:
        with contextlib.redirect_stdout(out), contextlib.redirect_stderr(err):
            try:
                status = cli.main(list(words))
            except SystemExit as end:
                status = end.code
    finally:
        sys.stdin = stdin
    return status, out.buffer.getvalue().decode(), err.buffer.getvalue().decode()


def unshielded() -> None:
    """In a new process: Ctrl-C reaches it, also where these tests run behind a shell, which starts such processes with SIGINT ignored."""
    signal.signal(signal.SIGINT, signal.SIG_DFL)
