"""Which files a command writes: none that it reads, none twice, and none under a name that says another format."""
from __future__ import annotations

import argparse
import os
from pathlib import Path
from typing import Iterable, Optional

from .files import WrongUse

#: endings that say what is in a file
ENDINGS = {".dw": "a text in the notation", ".sheet": "a sheet", ".hex": "commented hex", ".net": "a netlist", ".v": "Verilog", ".sv": "Verilog",
           ".vcd": "a value change dump", ".svg": "a picture", ".png": "a picture", ".dot": "a picture", ".trace": "a trace", ".csv": "a trace",
           ".state": "a state", ".html": "a page", ".json": "JSON"}
#: the names that commands' parsers have for files that are read, and for files that are written
READ = ("sheet", "sheets", "text", "netlist", "trace", "expect", "state_in", "testbench")
WRITTEN = ("output", "vcd", "state_out", "picture")


def settled(given: argparse.Namespace) -> None:
    """Wrong use, where a file would be written that is read, or two into one; before anything is read or written."""
    read = [word for name in READ for word in _words(getattr(given, name, None))]
    written = [word for name in WRITTEN for word in _words(getattr(given, name, None))]
    if getattr(given, "json", False) and "-" in written:
        raise WrongUse("--json and the file - would both go to standard output")
    for i, name in enumerate(written):
        apart(name, read)
        if any(same(name, other) or name == other == "-" for other in written[:i]):
            raise WrongUse("%s: two things would be written to it" % name)


def _words(value: object) -> list[str]:
    return [value] if isinstance(value, str) else [v for v in value if isinstance(v, str)] if isinstance(value, list) else []


def apart(name: str, read: Iterable[str]) -> None:
    """Wrong use, where a file that is written is one of those read."""
    for other in read:
        if same(name, other):
            raise WrongUse("%s would be written over, and it is read here: give another name with -o" % name if name == other
                           else "%s is the same file as %s, which is read here" % (name, other))


def same(one: str, other: str) -> bool:
    """Whether two names are of one file on the disk. A device may well be both."""
    if "-" in (one, other):
        return False
    try:
        return os.path.samefile(one, other) and Path(one).is_file()
    except OSError:
        return os.path.realpath(one) == os.path.realpath(other)


def ending(name: Optional[str], *formats: str) -> None:
    """Wrong use, where a name's ending is that of another format than these endings' own."""
    if name is None or name == "-":
        return
    found = Path(name).suffix.lower()
    if found in ENDINGS and ENDINGS[found] not in [ENDINGS[one] for one in formats]:
        raise WrongUse("%s: %s would be written, and the name says %s: FILE%s is its name" % (name, ENDINGS[formats[0]], ENDINGS[found], formats[0]))
