"""deltawobble same: whether two sheets have the same outputs in all runs."""
from __future__ import annotations

import argparse
import json
import sys

from .. import searching
from ..answer import Refused
from ..api import through
from ..calls import Searched
from ..circuit import Circuit
from ..files import WrongUse, read
from ..joining import Joining, Looked, NotJoined, fit, looked
from ..output import write
from ..searching import Shown, again, one_line, search, starts_words, waves
from ..starting import searched_starts
from ..words import RULES
from .prove import note, refuse

WORDS = "prove that two sheets with the same pins have the same outputs in all runs, or show a shortest trace on which they differ"
EXAMPLE = """deltawobble same examples/full-adder.dw examples/never/majority-adder.dw
deltawobble same examples/comparator-divergence.dw examples/comparator-divergence-second.dw --starts all=0"""


def add(parser: argparse.ArgumentParser) -> None:
    parser.add_argument("sheets", nargs=2, metavar="SHEET", help="raw bytes, commented hex or notation; - for standard input")
    parser.add_argument("--positions", action="store_true", help="take the pins one by one, whatever they are called")
    searching.add(parser, "; one word for both sheets, or ONE/OTHER")


def run(given: argparse.Namespace) -> int:
    searching.judge(given)
    if given.sheets == ["-", "-"]:
        raise WrongUse("only one of the two sheets can come from standard input")
    circuits = []
    for name in given.sheets:
        source = read(name)
        try:
            circuits.append(Circuit(source))
        except Refused as refused:
            return refuse(source, refused, given.json)
    return compare(circuits, given)


def compare(circuits: list[Circuit], given: argparse.Namespace) -> int:
    fit(circuits[0], circuits[1], given.positions)
    starts = starts_of(circuits, given.starts)
    source = circuits[0].source
    try:
        for circuit in circuits:
            source = circuit.source
            searching.judged(circuit, bytes(len(circuit.lean.registers)))
        source = made = Joining(circuits[0], circuits[1]).joined()
        joint = Circuit(made)
        parts = looked(joint.lean, [circuit.lean for circuit in circuits], made.origin)
        found = search(joint, starts[0] + starts[1], 0, given)
    except Refused as refused:
        if refused.number <= 16 and not given.json:
            print("each of the two sheets keeps the limits, and the two joined pass one:", file=sys.stderr)
        return refuse(source, refused, given.json)
    except NotJoined as fault:
        raise WrongUse("a fault of this program: the joined sheet does not hold both circuits: %s" % fault) from None
    note(given, starts[0] + starts[1])
    apart = None if found.holds else Apart(circuits, again(joint, found, 0, given.by), given.by)
    if apart and given.output:
        write(given.output, apart.written())
    answer = Answer(given, found, parts, starts, apart, circuits[0].sheet.edition == circuits[1].sheet.edition)
    print(json.dumps(answer.as_json()) if given.json else "\n".join(answer.lines()), file=sys.stderr if given.output == "-" else sys.stdout)
    return int(not found.holds)


def starts_of(circuits: list[Circuit], word: str | None) -> list[bytes]:
    """What --starts says of each sheet: one word for both, or ONE/OTHER."""
    words = [word, word] if word is None or "/" not in word else word.split("/")
    if len(words) != 2:
        raise WrongUse("--starts takes one word for both sheets, or ONE/OTHER, and not '%s'" % word)
    return [searched_starts(one, circuit) for one, circuit in zip(words, circuits)]


class Apart:
    """A trace on which two sheets differ: each is run by the proved call, with its own starts."""

    def __init__(self, circuits: list[Circuit], shown: Shown, by: str):
        self.circuits, self.shown, self.tick = circuits, shown, shown.tick
        size = len(circuits[0].lean.registers)
        self.starts = [shown.starts[:size], shown.starts[size:]]
        wide = len(circuits[0].inputs)
        self.inputs = shown.columns[:wide]
        bits = bytes(bit for row in zip(*self.inputs) for bit in row)
        self.outputs = []
        for circuit, starts in zip(circuits, self.starts):
            out = through(circuit.source.bytes, circuit.lean, bits, starts, shown.ticks)
            self.outputs.append([out[k::len(circuit.outputs)] for k in range(len(circuit.outputs))])
        if all(mine[self.tick] == theirs[self.tick] for mine, theirs in zip(*self.outputs)):
            raise WrongUse("a fault of %s: on its trace the proved runs of the two sheets are the same at tick %d"
                           % ("this program" if by == searching.OURS else by, self.tick))

    @property
    def different(self) -> list[str]:
        """The output pins that differ at the tick."""
        return [name for name, mine, theirs in zip(self.circuits[0].outputs, *self.outputs) if mine[self.tick] != theirs[self.tick]]

    def waves(self) -> list[str]:
        both = [("%s of the %s" % (name, which), column) for name, *columns in zip(self.circuits[0].outputs, *self.outputs)
                for which, column in zip(("first", "second"), columns)]
        return waves(self.circuits[0].inputs, [name for name, _ in both], self.inputs + [column for _, column in both], self.shown.ticks)

    def written(self) -> bytes:
        """The inputs, as a file that `run` takes with either sheet."""
        head = ["# %s differ at tick %d" % (" and ".join(one_line(c.source.name) for c in self.circuits), self.tick)]
        head += ["# run the first with --starts %s, the second with --starts %s" % tuple("".join(map(str, s)) or "''" for s in self.starts)]
        rows = [",".join(map(str, row)) for row in zip(*self.inputs)]
        return ("\n".join(head + [",".join(self.circuits[0].inputs)] + rows) + "\n").encode(errors="backslashreplace")


class Answer:
    """What was found, in words and as JSON."""

    def __init__(self, given: argparse.Namespace, found: Searched, parts: Looked, starts: list[bytes], apart: Apart | None, one_edition: bool):
        self.given, self.found, self.parts, self.starts, self.apart, self.one_edition = given, found, parts, starts, apart, one_edition

    def lines(self) -> list[str]:
        theirs = self.given.by == searching.YOSYS
        if self.apart is not None:
            who = " (found by Yosys; run again by the proved call)" if theirs else ""
            lines = ["different: %s at tick %d%s" % (", ".join(self.apart.different), self.apart.tick, who)]
            for which, circuit, starts in zip(("first", "second"), self.apart.circuits, self.apart.starts):
                if starts:
                    lines.append("the %s starts with %s" % (which, ", ".join("%s=%d" % (r.name, bit) for r, bit in zip(circuit.registers, starts))))
            return lines + self.apart.waves()
        asked = starts_words(self.starts[0] + self.starts[1])
        if theirs:
            head = "the same, says Yosys, and that is another program's word: all inputs; %s" % asked
        else:
            head = "the same: %s, all inputs; %s" % ("1 state" if self.found.states == 1 else "%s states" % format(self.found.states, ","), asked)
        return [head, self.rests()] + (["%s is not written: there is no trace" % self.given.output] if self.given.output else [])

    def rests(self) -> str:
        """What the answer rests on beside the proved call."""
        by = ("the joined sheet is as the theorem same-call asks" if self.one_edition else
              "the theorem same-call is of two sheets in one edition; that one of these was written in the other is not proved")
        return "(%s; the desk looked: %d parts of the first, %d of the second, %d that compare)" % (by, self.parts.one, self.parts.other, self.parts.comparing)

    def as_json(self) -> dict:
        said: dict = {"accepted": self.found.holds, "files": self.given.sheets, "by": self.given.by, "asked": [list(s) for s in self.starts],
                      "states": self.found.states, "parts": [self.parts.one, self.parts.other, self.parts.comparing]}
        if self.apart is not None:
            said.update(number=40, place=self.apart.tick, sentence=RULES[40], different=self.apart.different, starts=[list(s) for s in self.apart.starts],
                        inputs=[list(column) for column in self.apart.inputs], outputs=[[list(c) for c in some] for some in self.apart.outputs])
        return said
