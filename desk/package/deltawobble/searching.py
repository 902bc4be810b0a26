"""A search through all states of a sheet's registers: which pin, which starts, what it costs, and the trace that is shown.

What a search finds is run again by the proved `run` before anybody sees it.
"""
from __future__ import annotations

import argparse
import shlex
import shutil
import sys
import threading
from dataclasses import dataclass
from typing import Callable, Optional, TypeVar

from . import calls, engine
from .api import through
from .calls import Searched
from .circuit import Circuit
from .files import WrongUse
from .outputs import ending
from .trace import Run

#: states times inputs from which on a terminal is told what a search costs
LARGE = 1 << 22
#: ticks of a trace that are drawn; of a longer one the last
MOST_DRAWN = 200
#: who may be asked
OURS, YOSYS = "deltawobble", "yosys"
#: ticks that Yosys tries
STEPS = 100

Found = TypeVar("Found")


def add(parser: argparse.ArgumentParser, more: str = "") -> None:
    """What all searches are asked with."""
    parser.add_argument("--starts", metavar="BITS",
                        help="what the registers start with: the forms of run, and NAME=either or a digit 2; either where not said" + more)
    parser.add_argument("-o", metavar="FILE", dest="output", help="write the trace too, as a file that run takes")
    parser.add_argument("--by", choices=[OURS, YOSYS], default=OURS,
                        help="who searches: the proved call (up to 20 registers and 12 input pins), or Yosys, beyond these limits, which is another program's word")
    parser.add_argument("--steps", type=int, metavar="N", help="with --by yosys: how many ticks it tries (%d where not said)" % STEPS)


def judge(given: argparse.Namespace) -> None:
    """What does not go together is wrong use."""
    ending(given.output, ".trace", ".csv")
    if given.steps is not None and given.by != YOSYS:
        raise WrongUse("--steps is about --by yosys: the proved call needs no number, since it goes through all states")
    if given.steps is not None and given.steps < 1:
        raise WrongUse("--steps takes 1 or more, and not %d" % given.steps)


def pin_of(name: Optional[str], circuit: Circuit) -> int:
    """The output pin of this name, counted among the output pins; without a name the only one."""
    names = circuit.outputs
    if name is None:
        if len(names) == 1:
            return 0
        raise WrongUse("--pin NAME is needed, since there are %d output pins: %s" % (len(names), ", ".join(names) or "none"))
    if name not in names:
        kind = "is an input pin" if name in circuit.inputs else "is none"
        raise WrongUse("--pin %s %s: the output pins are %s" % (name, kind, ", ".join(names) or "none"))
    return names.index(name)


def search(circuit: Circuit, starts: bytes, pin: int, given: argparse.Namespace) -> Searched:
    """What is found by who was asked. Refused as the proved call refuses it, by either: a ring, starts or a pin that are none."""
    if given.by == YOSYS:
        from .yosys import searched
        judged(circuit, starts)
        return searched(circuit, starts, pin, given.steps or STEPS)
    tell_cost(circuit)
    # a host process is stopped by Ctrl-C as it is, and so is Yosys
    asked = (lambda call: call()) if isinstance(engine.find(), engine.Host) else patient
    return asked(lambda: calls.never(circuit.source.bytes, starts, pin))


def judged(circuit: Circuit, starts: bytes) -> None:
    """What the proved call refuses, where another program searches: a ring (19) by `run`, and starts as they are (43)."""
    calls.run(circuit.source.bytes, b"", bytes(len(circuit.lean.registers)), 0)
    if len(starts) != len(circuit.lean.registers) or any(bit > 2 for bit in starts):
        raise calls.Refused(43, 0)


def tell_cost(circuit: Circuit) -> None:
    """On a terminal, what a large search costs at most."""
    registers, inputs = len(circuit.lean.registers), len(circuit.inputs)
    if registers <= calls.MOST_SEARCHED and inputs <= 12 and 1 << registers + inputs >= LARGE and sys.stderr.isatty():
        print("(at most 2^%d states times 2^%d inputs: %s steps; Ctrl-C stops it)" % (registers, inputs, format(1 << registers + inputs, ",")), file=sys.stderr)


def patient(call: Callable[[], Found]) -> Found:
    """What a long call of the library gives, from a thread of its own: this one can be stopped by Ctrl-C, which would wait for the call's end."""
    found: list[Found] = []
    faults: list[BaseException] = []

    def whole() -> None:
        try:
            found.append(call())
        except BaseException as fault:
            faults.append(fault)

    thread = threading.Thread(target=whole, daemon=True)
    thread.start()
    while thread.is_alive():
        thread.join(0.5)
    if faults:
        raise faults[0]
    return found[0]


@dataclass
class Shown:
    """A trace that was found, run by the proved call: at `tick` the pin is 1."""

    circuit: Circuit
    pin: int
    tick: int
    starts: bytes
    columns: list[bytes]

    @property
    def ticks(self) -> int:
        return self.tick + 1

    @property
    def start_word(self) -> str:
        return "".join(map(str, self.starts))

    def lines(self, command: str) -> list[str]:
        """The starts, the waves, and how it is run again."""
        registers = ", ".join("%s=%d" % (r.name, bit) for r, bit in zip(self.circuit.registers, self.starts))
        lines = ["the registers start with %s" % registers] if self.starts else []
        return lines + waves(self.circuit.inputs, self.circuit.outputs, self.columns, self.ticks) + ["run it: " + command]

    def written(self) -> bytes:
        """The file that `run` takes: the input pins' columns; of a circuit without input pins those of its output pins."""
        names = self.circuit.inputs or self.circuit.outputs
        head = ["# %s: %s is 1 at tick %d" % (one_line(self.circuit.source.name), self.circuit.outputs[self.pin], self.tick)]
        head += ["# run it with --starts %s" % self.start_word] if self.starts else []
        rows = zip(*self.columns[:len(names)])
        return ("\n".join(head + [",".join(names)] + [",".join(map(str, row)) for row in rows]) + "\n").encode(errors="backslashreplace")

    def as_json(self) -> dict:
        wide = len(self.circuit.inputs)
        rows = list(zip(*self.columns))
        return {"tick": self.tick, "starts": list(self.starts), "inputs": self.circuit.inputs, "outputs": self.circuit.outputs,
                "ticks": [[row[:wide], row[wide:]] for row in rows]}


def waves(inputs: list[str], outputs: list[str], columns: list[bytes], ticks: int) -> list[str]:
    """A trace as waves; of a long one the end."""
    first = max(0, ticks - MOST_DRAWN)
    run = Run(inputs, outputs, [column[first:] for column in columns], ticks - first, first)
    note = ["(the last %d of %s ticks)" % (MOST_DRAWN, format(ticks, ","))] if first else []
    return note + run.waves(shutil.get_terminal_size((100, 24)).columns)


def one_line(name: str) -> str:
    return " ".join(name.split())


def again(circuit: Circuit, found: Searched, pin: int, by: str = OURS) -> Shown:
    """The trace run by the proved call. A trace that does not show what it should is said to be its program's fault."""
    assert found.tick is not None
    ticks = found.tick + 1
    out = through(circuit.source.bytes, circuit.lean, found.inputs, found.starts, ticks)
    wide, count = len(circuit.inputs), len(circuit.outputs)
    column = out[pin::count]
    if 1 not in column or (by == OURS and column.index(1) != found.tick):
        whose = "this program" if by == OURS else by
        raise WrongUse("a fault of %s: it says that %s is 1 at tick %d, and the proved run of its trace does not show that"
                       % (whose, circuit.outputs[pin], found.tick))
    tick = column.index(1)
    columns = [found.inputs[k::wide] for k in range(wide)] + [out[k::count] for k in range(count)]
    return Shown(circuit, pin, tick, found.starts, [one[:tick + 1] for one in columns])


def command_for(shown: Shown, sheet: str, output: Optional[str]) -> str:
    """The words that run the trace again."""
    starts = ["--starts", shown.start_word] if shown.starts else []
    if shown.circuit.inputs or output:
        trace = [output or "TRACE"]
    else:
        trace = ["--ticks", str(shown.ticks)]
    hint = "" if output or not shown.circuit.inputs else "   (-o TRACE writes the trace)"
    return "deltawobble run " + shlex.join([sheet, *trace, *starts, "--waves"]) + hint


def starts_words(starts: bytes) -> str:
    """What was asked of the registers, in words."""
    if not starts:
        return "no registers"
    if set(starts) == {2}:
        return "registers start with either bit"
    return "registers start with %s" % "".join("01-"[bit] for bit in starts) + (" (- is either)" if 2 in starts else "")
