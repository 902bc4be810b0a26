"""The sheets that are written with blocks: accepted, short, within the card's profile, their property proved, their recording held against them."""
from __future__ import annotations

import csv
import re

import judge
import library
from deltawobble import Netlist, Refused, calls
from library import BLOCKS

SHEETS = BLOCKS / "sheets"
#: lines of a sheet's own text and of the text that it shares with others, comments too
MOST_LINES = 25
NAMES = ["eight-chains", "eight-by-vote", "alarm", "odd-ticks", "ten-x-plus-y", "digits"]
#: those with a property in a text beside them, NAME-never
WATCHED = ["eight-chains", "eight-by-vote"]
#: a property of a monitor with the wrong block, which is refused
WRONG = "wrong-block-never"


def lines(name: str) -> int:
    """The lines that a person wrote for a sheet, blocks aside."""
    own = (SHEETS / (name + ".dw")).read_text()
    shared = [SHEETS / used for used in re.findall(r'use "([^"/]+)"', own)]
    return len(own.splitlines()) + sum(len(path.read_text().splitlines()) for path in shared)


def made(name: str) -> library.Made:
    return library.file_sheet(SHEETS / (name + ".dw"))


def hold(name: str) -> str:
    """What is said of a sheet; Wrong or Refused where it is not so."""
    if lines(name) > MOST_LINES:
        raise judge.Wrong("%s has %d lines" % (name, lines(name)))
    sheet = made(name).sheet
    calls.translate(sheet, card=True)
    said = ["%s: accepted, %d lines, the card's profile holds" % (name, lines(name))]
    if name in WATCHED:
        _, _, found = judge.ask(made(name + "-never"))
        if found.states is None:
            raise judge.Wrong("%s-never can be 1, at tick %d" % (name, found.tick))
        said.append("its property holds, %d states" % found.states)
    if (SHEETS / (name + ".csv")).exists():
        said.append("its recording of %d ticks is alike" % alike(name, sheet))
    return ", ".join(said)


def alike(name: str, sheet: bytes) -> int:
    """The recording's inputs through the proved run: the outputs are those recorded. Registers start with 0."""
    with open(SHEETS / (name + ".csv"), newline="") as file:
        rows = [[int(bit) for bit in row] for row in list(csv.reader(file))[1:]]
    lean = Netlist.parse(calls.translate(sheet, lean=True))
    wide = len(lean.input_pins)
    shown = calls.run(sheet, bytes(bit for row in rows for bit in row[:wide]), bytes(len(lean.registers)), len(rows))
    if shown != bytes(bit for row in rows for bit in row[wide:]):
        raise judge.Wrong("%s.csv: the outputs are other ones than those recorded" % name)
    return len(rows)


def hold_all() -> tuple[int, list[str]]:
    faults = []
    for name in NAMES:
        try:
            print(hold(name), flush=True)
        except (judge.Wrong, Refused, library.NotationError) as wrong:
            faults.append("%s: %s" % (name, wrong))
            print("WRONG %s: %s" % (name, wrong))
    _, _, found = judge.ask(made(WRONG))
    if found.tick is None:
        faults.append("%s holds, and should not" % WRONG)
    else:
        print("%s: refused at tick %d" % (WRONG, found.tick))
    return len(NAMES), faults
