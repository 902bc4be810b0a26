"""deltawobble run: a trace through the lean netlist."""
from __future__ import annotations

import argparse
import json
import shutil
import sys
from typing import Iterator, Optional

from .. import calls
from ..answer import Refused
from ..circuit import Circuit
from ..compare import Comparison
from ..files import Source, WrongUse, read
from ..inner import Inside, chosen
from ..output import write
from ..outputs import ending
from ..period import period
from ..recorded import Expected, Feed, NoBit, Random, Recorded, Sampling, Zeros, columns_of
from ..refusing import say
from ..rows import Rows
from ..running import Running, Stretch
from ..starting import Either, starts_of
from ..state import State, read_state
from ..terminal import Progress
from ..trace import Period, Run, period_of
from ..vcd import vcd

WORDS = "run a recorded trace, zeros or random bits through the lean netlist of a sheet"
EXAMPLE = """deltawobble run examples/full-adder.hex examples/full-adder.trace --waves
deltawobble run examples/comparator-divergence.dw examples/comparator-divergence.vcd --clock clk --starts all=0
deltawobble run examples/comparator-divergence.dw --random 7 --ticks 1000 --starts either"""
#: ticks that are made up, at most
MOST_MADE = 10 ** 9
#: ticks of a run whose outputs --period looks through
MOST_PERIOD = 1 << 20


def add(parser: argparse.ArgumentParser) -> None:
    parser.add_argument("sheet", help="raw bytes, commented hex or notation; - for standard input")
    parser.add_argument("trace", nargs="?", help="text or CSV, a line for each tick, columns by a first line of pin names, else the input pins in order; "
                        "or a value change dump; - for standard input")
    fed = parser.add_argument_group("what it is fed with")
    fed.add_argument("--clock", metavar="NAME", help="sample a dump just before this signal rises from 0 to 1")
    fed.add_argument("--every", metavar="TIME", help="sample a dump at 0, TIME, 2 TIME and so on, as in --every 10ns")
    fed.add_argument("--scope", metavar="NAME", help="take the dump's signals of this scope alone")
    fed.add_argument("--names", metavar="NAME,..", help="the columns of a file without names; or PIN=NAME,.. to call pins otherwise")
    fed.add_argument("--ticks", type=int, metavar="N", help="so many ticks: the first N of the trace, which has as many; without a trace all inputs are 0")
    fed.add_argument("--random", type=int, metavar="SEED", help="random inputs, the same for the same seed; with --ticks N")
    begun = parser.add_argument_group("what the registers start with")
    begun.add_argument("--starts", metavar="BITS", help="bits by rising terminal, or NAME=BIT,.., all=BIT ('deltawobble registers' lists the names; 0 where "
                       "not said); or either: many starts at once, and from which tick on the outputs do not depend on them")
    begun.add_argument("--state-in", metavar="FILE", help="go on with the state that --state-out wrote")
    begun.add_argument("--state-out", metavar="FILE", help="write the state behind the last tick")
    shown = parser.add_argument_group("what is shown")
    shown.add_argument("--expect", metavar="FILE", help="hold the outputs against the columns of this file (x is no expectation): status 1 where they differ")
    shown.add_argument("--show", metavar="NAME,..", help="nets inside too, by the variables of the text ('deltawobble registers --all' lists them)")
    shown.add_argument("--waves", action="store_true", help="draw the pins as waves")
    shown.add_argument("--period", action="store_true",
                       help="say when the registers show their starts again, all inputs 0; with a trace or --ticks, when the outputs come again")
    shown.add_argument("--vcd", metavar="FILE", help="write a value change dump too, for GTKWave")


def run(given: argparse.Namespace) -> int:
    alone = judge(given)
    columns, renamed = names_of(given.names)
    sampling = Sampling(given.clock, given.every, given.scope, columns)
    source = read(given.sheet)
    try:
        circuit = Circuit(source, renamed)
        if given.starts == "either":
            feed = feed_of(circuit, given, sampling)
            sampling.settled()
            return say_either(circuit, feed, given)
        state = state_of(circuit, given)
        if alone:
            return say_period(period(source.bytes, circuit.lean, state.bits), given, state.bits)
        running = Running(circuit, state.bits, state.tick)
        feed, expected = feed_of(circuit, given, sampling), expected_of(circuit, given, sampling)
        sampling.settled()
        return Shown(circuit, given, running).whole(feed, expected)
    except Refused as refused:
        return refuse(source, refused, given)
    except NoBit as fault:
        return refuse_bit(circuit, state.bits if given.starts != "either" else None, fault, given)


def judge(given: argparse.Namespace) -> bool:
    """Whether the registers' period alone is asked for; what does not go together is wrong use."""
    inputs = [name for name in (given.sheet, given.trace, given.expect, given.state_in) if name == "-"]
    if len(inputs) > 1:
        raise WrongUse("only one file can come from standard input: of sheet and trace, for one, the other is a file")
    if given.ticks is not None and given.ticks < 0:
        raise WrongUse("--ticks takes 0 or more, and not %d" % given.ticks)
    if given.trace is None and given.ticks is not None and given.ticks > MOST_MADE:
        raise WrongUse("--ticks: at most %d ticks are made up, and not %d" % (MOST_MADE, given.ticks))
    if given.random is not None and (given.trace is not None or given.ticks is None):
        raise WrongUse("--random makes a trace of its own: give --ticks N, and no trace")
    if given.trace is None and (given.names is not None and "=" not in given.names):
        raise WrongUse("--names says the columns of a trace, and there is none; PIN=NAME,.. calls pins otherwise")
    alone = given.period and given.trace is None and given.ticks is None
    if alone and (given.vcd or given.waves or given.show or given.expect or given.state_out):
        raise WrongUse("--vcd, --waves, --show, --expect and --state-out show a run: give a trace too, or --ticks N")
    if given.starts == "either" and (given.vcd or given.waves or given.show or given.expect or given.state_out or given.period):
        raise WrongUse("--starts either runs many starts, and shows from which tick on they do not count, and nothing else")
    if given.starts is not None and given.state_in is not None:
        raise WrongUse("--starts and --state-in both say what the registers show first: give one")
    ending(given.vcd, ".vcd")
    ending(given.state_out, ".state")
    return alone


def names_of(words: Optional[str]) -> tuple[Optional[list[str]], dict[str, str]]:
    """--names: the columns of a file, or other names for pins."""
    if words is None:
        return None, {}
    names = [word.strip() for word in words.split(",")]
    if not any("=" in name for name in names):
        return names, {}
    odd = next((name for name in names if "=" not in name), None)
    if odd is not None:
        raise WrongUse("--names: '%s' has no =, and others have: it takes the columns of a file, or PIN=NAME,.." % odd)
    return None, {old.strip(): new.strip() for old, _, new in (name.partition("=") for name in names)}


def feed_of(circuit: Circuit, given: argparse.Namespace, sampling: Sampling) -> Feed:
    """The trace, or as much of it as was asked for; or so many rows of zeros or of random bits."""
    if given.trace is not None:
        return Recorded(circuit, columns_of(given.trace, circuit, sampling, "input pins", circuit.inputs), given.ticks)
    if given.ticks is None:
        raise WrongUse("a trace is needed, or --ticks N: the circuit has %d input pins" % len(circuit.inputs))
    if given.random is not None:
        return Random(circuit, given.ticks, given.random)
    return Zeros(circuit, given.ticks)


def expected_of(circuit: Circuit, given: argparse.Namespace, sampling: Sampling) -> Optional[Expected]:
    """The file that the outputs are held against. --names is about the trace alone."""
    if given.expect is None:
        return None
    sampling.names = None
    return Expected(circuit, columns_of(given.expect, circuit, sampling, "output pins", circuit.outputs))


def state_of(circuit: Circuit, given: argparse.Namespace) -> State:
    if given.state_in is not None:
        return read_state(given.state_in, circuit.source.bytes, len(circuit.lean.registers))
    starts = starts_of(given.starts, circuit)
    calls.run(circuit.source.bytes, b"", starts, 0)  # a ring (19), or starts that are not a bit for each register (20), are refused
    return State(starts, 0)


class Shown:
    """A run on its way to whoever wants to see it: the table, the waves, a dump, the comparison."""

    def __init__(self, circuit: Circuit, given: argparse.Namespace, running: Running):
        self.circuit, self.given, self.running, self.starts = circuit, given, running, running.state
        self.inside = Inside(circuit, chosen(given.show, circuit)) if given.show is not None else None
        self.names = circuit.outputs + (self.inside.names if self.inside else [])
        self.comparison: Optional[Comparison] = None
        #: for --period: the rows of outputs so far, and the waves, which stand behind it
        self.rows: list[tuple[int, ...]] = []
        self.waves: list[str] = []
        self.begun = False

    def whole(self, feed: Feed, expected: Optional[Expected]) -> int:
        self.note(feed)
        if feed.expecting or expected:
            self.comparison = Comparison(self.circuit.inputs, self.circuit.outputs)
        runs = self.runs(feed, expected)
        if self.given.vcd:
            write(self.given.vcd, vcd(runs, self.circuit.inputs + self.names))
        for _ in runs:
            pass
        self.end()
        if self.given.state_out:
            write(self.given.state_out, State(self.running.state, self.running.tick).written(self.circuit.source.bytes))
        return int(bool(self.comparison and self.comparison.first))

    def runs(self, feed: Feed, expected: Optional[Expected]) -> Iterator[Run]:
        size = feed.columns.size() if feed.columns else 0
        quiet = self.tabled and sys.stdout.isatty()
        bar = Progress(0 if quiet else size or self.given.ticks or 0, "bytes" if size else "ticks")
        for stretch in self.running.stretches(feed, expected):
            if self.inside:
                self.inside.put(stretch)
            run = Run(self.circuit.inputs, self.names, stretch.inputs + stretch.outputs + stretch.inner, stretch.ticks, stretch.first)
            self.take(stretch, run)
            bar.step(feed.columns.position() - bar.done if size and feed.columns else stretch.ticks)
            yield run
        bar.close()

    @property
    def tabled(self) -> bool:
        given = self.given
        return not (given.json or given.waves or given.period or self.comparison or (given.vcd and (given.vcd == "-" or not sys.stdout.isatty())))

    def take(self, stretch: Stretch, run: Run) -> None:
        if self.comparison:
            self.comparison.take(stretch)
        if self.given.period:
            self.rows += list(zip(*stretch.outputs))
            if len(self.rows) > MOST_PERIOD:
                raise WrongUse("--period looks through at most %d ticks of a run" % MOST_PERIOD)
        if self.given.json:
            if not self.comparison:
                self.json_rows(run)
        elif self.given.waves:
            lines = ([""] if self.begun else []) + run.waves(shutil.get_terminal_size((100, 24)).columns)
            if self.given.period:
                self.waves += lines
            else:
                self.say_lines(lines)
        elif self.tabled:
            self.say_lines(([] if self.begun else [run.head()]) + run.table())
        self.begun = True

    @staticmethod
    def say_lines(lines: list[str]) -> None:
        sys.stdout.write("\n".join(lines) + "\n")

    def json_rows(self, run: Run) -> None:
        """The ticks of a stretch, as they come, so that a long run needs no memory."""
        wide = len(self.circuit.inputs)
        rows = list(zip(*run.columns)) if run.columns else [()] * run.ticks
        sys.stdout.write(", " if self.begun else self.json_head())
        sys.stdout.write(json.dumps([[row[:wide], row[wide:]] for row in rows])[1:-1])

    def json_head(self) -> str:
        said = {"accepted": True, "inputs": self.circuit.inputs, "outputs": self.names, "starts": list(self.starts)}
        if self.given.random is not None:
            said["random"] = self.given.random
        return json.dumps(said)[:-1] + ', "ticks": ['

    def note(self, feed: Feed) -> None:
        """What was taken without being said: names in a first line, starts, random bits."""
        if self.given.json:
            return
        if isinstance(feed.columns, Rows) and feed.columns.header is not None:
            print("(%s:%d names the columns: %s)" % (feed.columns.name, feed.columns.header, ", ".join(feed.columns.names)), file=sys.stderr)
        note_starts(self.given, self.starts)
        if self.given.random is not None:
            print("(random inputs with the seed %d)" % self.given.random, file=sys.stderr)

    def end(self) -> None:
        found = period_of(self.rows) if self.given.period else None
        if self.given.json:
            if self.comparison:
                print(json.dumps({**self.comparison.as_json(), **(found.as_json() if found else {})}))
            else:
                print(("" if self.begun else self.json_head()) + "]" + (", " + json.dumps(found.as_json())[1:-1] if found else "") + "}")
            return
        if self.comparison:
            self.say_lines(self.comparison.words())
        if found:
            self.say_lines([found.words] + self.waves)
        if not self.begun and self.tabled:
            print(Run(self.circuit.inputs, self.names, [], 0).head())


def refuse(source: Source, refused: Refused, given: argparse.Namespace) -> int:
    """A refusal of the run; of 20 the starts, where they are at fault."""
    status = say(source, refused, given.json)
    if refused.number == 20 and not given.json and given.starts is not None:
        lean = Circuit(source).lean
        print("--starts %s: one bit for each register, and there are %d" % (given.starts, len(lean.registers)), file=sys.stderr)
    return status


def refuse_bit(circuit: Circuit, starts: Optional[bytes], fault: NoBit, given: argparse.Namespace) -> int:
    """The proved call's refusal of a tick with a digit above 1, and the line at fault."""
    try:
        calls.run(circuit.source.bytes, fault.row, bytes(len(circuit.lean.registers)) if starts is None else starts, 1)
    except Refused as refused:
        status = say(circuit.source, refused, given.json)
        if not given.json:
            print(fault.place, file=sys.stderr)
        return status
    raise AssertionError("the proved call refuses a byte above 1")


def note_starts(given: argparse.Namespace, starts: bytes) -> None:
    """Registers do not wake up at zero (document 02, L2): what they start with is said where nobody has chosen it."""
    if starts and given.starts is None and given.state_in is None:
        print("(registers start with 0: --starts gives other bits)", file=sys.stderr)


def say_period(found: Period, given: argparse.Namespace, starts: bytes) -> int:
    if given.json:
        print(json.dumps({"accepted": True, "starts": list(starts), **found.as_json()}))
        return 0
    note_starts(given, starts)
    print(found.words)
    return 0


def say_either(circuit: Circuit, feed: Feed, given: argparse.Namespace) -> int:
    either = Either(circuit)
    if feed.expecting:
        print("(the recorded outputs are not looked at)", file=sys.stderr)
    either.run(feed)
    print(json.dumps(either.as_json()) if given.json else "\n".join(either.words()))
    return 0
