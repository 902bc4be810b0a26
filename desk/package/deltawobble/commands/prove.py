"""deltawobble prove: an output pin that is never 1, for all inputs and any number of ticks."""
from __future__ import annotations

import argparse
import json
import sys

from .. import pictured, searching
from ..answer import Refused
from ..calls import Searched
from ..circuit import Circuit
from ..files import Source, read
from ..output import write
from ..refusing import say
from ..searching import Shown, again, command_for, pin_of, search, starts_words
from ..starting import searched_starts
from ..words import RULES

WORDS = "prove that an output pin is never 1, for all inputs and any number of ticks, or show a shortest trace that brings it to 1"
EXAMPLE = """deltawobble prove examples/never/lfsr-zero.dw --starts all=0,q1=1
deltawobble prove examples/never/comparator-falls.dw --starts before=0
deltawobble prove examples/never/counter-wraps.dw --starts all=0 -o wraps.trace"""
#: what to do about a refusal
ADVICE = {19: "a circuit with such a ring has no run, and nothing can be searched: put a register into the ring",
          41: "--by yosys asks another program, which has no such limit; or fewer registers count: take a part of the circuit as a sheet of its own",
          42: "--by yosys asks another program, which has no such limit; or set some inputs to constants in the sheet",
          43: "--starts takes 0, 1, or 2 for either, one for each register ('deltawobble registers' lists them), or NAME=0, NAME=1, NAME=either"}


def add(parser: argparse.ArgumentParser) -> None:
    parser.add_argument("sheet", help="raw bytes, commented hex or notation; - for standard input")
    parser.add_argument("--pin", metavar="NAME", help="the output pin, where there is more than one")
    parser.add_argument("--picture", metavar="FILE", help="draw the circuit to FILE.svg or FILE.png, its wires coloured by their bits at the tick that was found")
    searching.add(parser)


def run(given: argparse.Namespace) -> int:
    return asked(given, reach=False)


def asked(given: argparse.Namespace, reach: bool) -> int:
    """The search for `prove` and for `reach`, which is the same one said the other way round."""
    searching.judge(given)
    pictured.judge(given.picture)
    source = read(given.sheet)
    try:
        circuit = Circuit(source)
        pin, starts = pin_of(given.pin, circuit), searched_starts(given.starts, circuit)
        found = search(circuit, starts, pin, given)
        shown = None if found.holds else again(circuit, found, pin, given.by)
    except Refused as refused:
        return refuse(source, refused, given.json)
    note(given, starts)
    if shown and given.output:
        write(given.output, shown.written())
    if shown and given.picture:
        write(given.picture, pictured.picture(shown, given.picture))
    answer = Answer(source, circuit.outputs[pin], starts, given, found, shown, reach)
    print(json.dumps(answer.as_json()) if given.json else "\n".join(answer.lines()), file=sys.stderr if given.output == "-" else sys.stdout)
    return int(found.holds) if reach else int(not found.holds)


def refuse(source: Source, refused: Refused, as_json: bool) -> int:
    """A refusal, and what to do about it."""
    status = say(source, refused, as_json)
    if not as_json and refused.number in (41, 42):
        print("there are %d" % refused.place, file=sys.stderr)
    if not as_json and refused.number in ADVICE:
        print(ADVICE[refused.number], file=sys.stderr)
    return status


def note(given: argparse.Namespace, starts: bytes) -> None:
    """What was taken without being said."""
    if starts and given.starts is None and not given.json:
        print("(registers start with either bit: --starts says otherwise)", file=sys.stderr)


class Answer:
    """What was found, in words and as JSON."""

    def __init__(self, source: Source, pin: str, starts: bytes, given: argparse.Namespace, found: Searched, shown: Shown | None, reach: bool):
        self.source, self.pin, self.starts, self.given, self.found, self.shown, self.reach = source, pin, starts, given, found, shown, reach

    @property
    def theirs(self) -> bool:
        return self.given.by == searching.YOSYS

    def lines(self) -> list[str]:
        if self.shown is None:
            return [self.held()] + ["%s is not written: there is no trace" % name for name in (self.given.output, self.given.picture) if name]
        tick = self.shown.tick
        head = "reached" if self.reach else "fails"
        first = "" if self.theirs else ", and at no tick before in any run" if tick else ""
        who = " (found by Yosys; run again by the proved call)" if self.theirs else ""
        lines = ["%s: %s is 1 at tick %d%s%s" % (head, self.pin, tick, first, who)]
        lines += self.shown.lines(command_for(self.shown, self.given.sheet, self.given.output if self.given.output != "-" else None))
        return lines

    def held(self) -> str:
        head = "never" if self.reach else "holds"
        if self.theirs:
            return "%s, says Yosys, and that is another program's word: %s is 0 at every tick, all inputs; %s" % (head, self.pin, starts_words(self.starts))
        count = "1 state" if self.found.states == 1 else "%s states" % format(self.found.states, ",")
        return "%s: %s, all inputs; %s is 0 at every tick; %s" % (head, count, self.pin, starts_words(self.starts))

    def as_json(self) -> dict:
        good = self.found.holds != self.reach
        said: dict = {"accepted": good, "file": self.source.name, "pin": self.pin, "by": self.given.by, "asked": list(self.starts),
                      "never": self.found.holds, "states": self.found.states}
        if self.shown is not None:
            said.update(self.shown.as_json())
            if not good:
                said.update(number=40, place=self.shown.tick, sentence=RULES[40])
        return said
