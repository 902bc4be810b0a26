"""deltawobble batch: many sheets in a night."""
from __future__ import annotations

import argparse
import json
import sys
from dataclasses import dataclass
from pathlib import Path
from typing import Union

from .. import calls
from ..answer import Refused
from ..files import Source, WrongUse, read
from ..output import write
from ..outputs import apart
from ..terminal import Progress, paint
from .translate import wishes

WORDS = "translate many sheets, files or a folder's, and say what became of each"
EXAMPLE = "deltawobble batch examples --lean"
#: sheets in one call: so often the bar moves, and Ctrl-C is heard
AT_ONCE = 16
SUFFIXES = (".sheet", ".hex", ".dw")


@dataclass
class Done:
    """What became of a sheet: its netlist, its refusal, or why the file could not be used."""

    source: str
    result: Union[bytes, Refused, WrongUse]

    @property
    def word(self) -> str:
        return "accepted" if isinstance(self.result, bytes) else "refused" if isinstance(self.result, Refused) else "wrong"


def add(parser: argparse.ArgumentParser) -> None:
    parser.add_argument("sheets", nargs="+", help="files, or folders, of which all files .sheet, .hex and .dw are taken")
    parser.add_argument("-o", metavar="FOLDER", dest="output", help="write each netlist to FOLDER/NAME.net, a file for each sheet")
    wishes(parser)


def run(given: argparse.Namespace) -> int:
    names = files(given.sheets)
    if given.output:
        make_folder(given.output, names)
    done: list[Done] = []
    bar = Progress(len(names), "sheets")
    try:
        for at in range(0, len(names), AT_ONCE):
            done += translated(names[at:at + AT_ONCE], given)
            bar.step(len(names[at:at + AT_ONCE]))
    except KeyboardInterrupt:
        bar.close()
        tell(done, given)
        print("stopped: %d of %d sheets were done" % (len(done), len(names)), file=sys.stderr)
        return 130
    bar.close()
    tell(done, given)
    return 2 if any(d.word == "wrong" for d in done) else int(any(d.word == "refused" for d in done))


def files(words: list[str]) -> list[str]:
    names: list[str] = []
    for word in words:
        if Path(word).is_dir():
            found = in_folder(word)
            if not found:
                raise WrongUse("%s: no file .sheet, .hex or .dw is in this folder" % word)
            names += found
        else:
            names.append(word)
    if names.count("-") > 1:
        raise WrongUse("only one sheet can come from standard input")
    return names


def in_folder(folder: str) -> list[str]:
    try:
        return sorted(str(p) for p in Path(folder).iterdir() if p.suffix in SUFFIXES)
    except OSError as error:
        raise WrongUse("%s: %s" % (folder, error.strerror)) from error


def net_name(folder: str, source: str) -> str:
    """Where a sheet's netlist goes."""
    return str(Path(folder) / (Path(source).stem + ".net"))


def make_folder(folder: str, names: list[str]) -> None:
    """The folder for the netlists. Two sheets whose netlists would be one file are wrong use: one would be lost."""
    taken: dict[str, str] = {}
    for name in names:
        net = net_name(folder, name)
        if net in taken:
            raise WrongUse("%s and %s would both be written to %s: nothing is done" % (taken[net], name, net))
        apart(net, names)
        taken[net] = name
    try:
        Path(folder).mkdir(parents=True, exist_ok=True)
    except OSError as error:
        raise WrongUse("%s: %s" % (folder, error.strerror)) from error


def translated(names: list[str], given: argparse.Namespace) -> list[Done]:
    """One call for the sheets of these files."""
    sources: list[Source | Done] = []
    for name in names:
        try:
            sources.append(read(name))
        except WrongUse as error:
            sources.append(Done(name, error))
    good = [s for s in sources if isinstance(s, Source)]
    results = iter(calls.batch([s.bytes for s in good], lean=given.lean, plain=given.plain, card=given.card))
    done = [s if isinstance(s, Done) else Done(s.name, next(results)) for s in sources]
    for d in done:
        if given.output and isinstance(d.result, bytes):
            write(net_name(given.output, d.source), d.result)
    return done


def tell(done: list[Done], given: argparse.Namespace) -> None:
    """The table: a line for each sheet, and how many of each."""
    if given.json:
        print(json.dumps([dict(file=d.source, **said(d)) for d in done]))
        return
    wide = max([len(d.source) for d in done] + [5])
    for d in done:
        word = paint("%-8s" % d.word, {"accepted": "green", "refused": "red", "wrong": "yellow"}[d.word])
        what = "%d bytes" % len(d.result) if isinstance(d.result, bytes) else str(d.result).split("\n")[0]
        print("%-*s  %s  %s" % (wide, d.source, word, what))
    counts = ["%d %s" % (sum(d.word == word for d in done), word) for word in ("accepted", "refused", "wrong")]
    print("%d sheets: %s" % (len(done), ", ".join(counts)))


def said(d: Done) -> dict:
    if isinstance(d.result, bytes):
        return {"accepted": True, "bytes": len(d.result)}
    return d.result.as_json() if isinstance(d.result, Refused) else {"accepted": None, "wrong": str(d.result)}
