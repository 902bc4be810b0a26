"""A search by Yosys: `sat` with temporal induction on the exported module. What it says is another program's word."""
from __future__ import annotations

import re
import shutil
import subprocess
import tempfile
from pathlib import Path

from . import calls
from .calls import Searched
from .circuit import Circuit
from .files import WrongUse

PROVED = "Induction step proven: SUCCESS!"
FAILED = "model found for base case: FAIL!"
#: a line of the model that it prints: tick, from 1 on, signal, and its value, decimal first
VALUE = re.compile(r"^ +([0-9]+) \\(\w+) +([01]) ", re.M)
ENDED = "Reached maximum number of time steps"


def searched(circuit: Circuit, starts: bytes, pin: int, steps: int) -> Searched:
    """What Yosys says of a pin, within so many ticks. WrongUse where it is not there, or comes to no answer."""
    if shutil.which("yosys") is None:
        raise WrongUse("--by yosys: there is no yosys here; Debian's package yosys has it")
    with tempfile.TemporaryDirectory() as folder:
        (Path(folder) / "module.v").write_text(calls.verilog(circuit.source.bytes))
        log = said(folder, script(circuit, starts, pin, steps))
    if PROVED in log:
        return Searched()
    if FAILED in log:
        return model(circuit, log)
    if ENDED in log:
        raise WrongUse("--by yosys: neither a proof nor a trace within %d ticks; --steps N tries more" % steps)
    raise WrongUse("--by yosys: it gave no answer: %s" % (log.strip().splitlines() or ["nothing"])[-1])


def said(folder: str, words: str) -> str:
    """What it prints."""
    run = subprocess.run(["yosys", "-Q", "-T", "-p", words], cwd=folder, stdin=subprocess.DEVNULL, stdout=subprocess.PIPE, stderr=subprocess.STDOUT, text=True)
    return run.stdout


def script(circuit: Circuit, starts: bytes, pin: int, steps: int) -> str:
    lean = circuit.lean
    signal = "p%04d" % lean.pins.index(lean.output_pins[pin])
    registers = ["t%04d" % r.output for r in lean.registers]
    said = ["-set-init %s %d" % (name, bit) for name, bit in zip(registers, starts) if bit < 2]
    shown = ["-show %s" % name for name in registers]
    words = ["sat -tempinduct -maxsteps %d -prove %s 0" % (steps, signal), *said, "-show-ports", *shown, "circuit"]
    return "read_verilog module.v; proc; " + " ".join(words)


def model(circuit: Circuit, log: str) -> Searched:
    """The trace of the model that it printed; a signal of which it says nothing is 0."""
    bits: dict[tuple[int, str], int] = {(int(tick), name): int(bit) for tick, name, bit in VALUE.findall(log[log.index(FAILED):])}
    ticks = max((tick for tick, _ in bits), default=0)
    if not ticks:
        raise WrongUse("a fault of yosys: it says that there is a trace, and prints none")
    lean = circuit.lean
    starts = bytes(bits.get((1, "t%04d" % r.output), 0) for r in lean.registers)
    pins = [lean.pins.index(terminal) for terminal in lean.input_pins]
    inputs = bytes(bits.get((tick, "p%04d" % k), 0) for tick in range(1, ticks + 1) for k in pins)
    return Searched(tick=ticks - 1, starts=starts, inputs=inputs)
