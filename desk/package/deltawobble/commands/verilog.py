"""deltawobble verilog: the lean netlist as one module of structural Verilog."""
from __future__ import annotations

import argparse
import json
import sys
from pathlib import Path

from .. import calls
from ..answer import Refused
from ..circuit import Circuit
from ..files import Source, WrongUse, read
from ..output import write
from ..outputs import apart, ending
from ..recorded import NoBit, Recorded, Sampling, columns_of
from ..refusing import say
from ..running import Running
from ..starting import starts_of
from ..wrapper import MOST_TICKS, ports_of, testbench, wrapper

WORDS = "write the lean netlist as one module of structural Verilog"
EXAMPLE = """deltawobble verilog examples/full-adder.hex -o adder.v
deltawobble verilog examples/sticky.dw --name sticky --ports x,y,stays
deltawobble verilog examples/sticky.dw --testbench examples/sticky.trace -o sticky.v"""


def add(parser: argparse.ArgumentParser) -> None:
    parser.add_argument("sheet", help="raw bytes, commented hex or notation; - for standard input")
    parser.add_argument("-o", metavar="FILE", dest="output", help="to a file; without it the text is printed")
    parser.add_argument("--name", metavar="NAME", help="a second module of this name around the proved one, with the pins' names as ports")
    parser.add_argument("--ports", metavar="NAME,..", help="names for its ports, in pin order; x.0,x.1 and so on are one bus x")
    parser.add_argument("--testbench", metavar="TRACE", help="a test bench too that checks itself, to FILE_tb.v: this trace's inputs, and the outputs of "
                        "the proved run")
    parser.add_argument("--starts", metavar="BITS", help="what the registers start with in the test bench, as in run")
    parser.add_argument("--clock", metavar="NAME", help="the trace is a dump, sampled as in run")
    parser.add_argument("--every", metavar="TIME", help="the trace is a dump, sampled as in run")


def run(given: argparse.Namespace) -> int:
    ending(given.output, ".v")
    if given.testbench is None and (given.starts is not None or given.clock is not None or given.every is not None):
        raise WrongUse("--starts, --clock and --every are about a test bench: give --testbench TRACE too")
    bench_name = beside(given)
    source = read(given.sheet)
    try:
        text = calls.verilog(source.bytes)
        more, bench = around(source, given)
    except Refused as refused:
        return say(source, refused, given.json)
    if given.json:
        print(json.dumps({"accepted": True, "verilog": text, **({"around": more} if more else {}), **({"testbench": bench} if bench else {})}))
    if given.output and bench_name:
        write(given.output, (text + more).encode())
        write(bench_name, bench.encode())
    elif given.output:
        write(given.output, (text + more + bench).encode())
    elif not given.json:
        sys.stdout.write(text + more + bench)
    return 0


def beside(given: argparse.Namespace) -> str | None:
    """Where the test bench goes: beside the module."""
    if given.testbench is None or given.output in (None, "-"):
        return None
    path = Path(given.output)
    name = str(path.with_name(path.stem + "_tb" + (path.suffix or ".v")))
    apart(name, [given.sheet, given.testbench])
    return name


def around(source: Source, given: argparse.Namespace) -> tuple[str, str]:
    """The module with names, where one is asked for, and the test bench."""
    if given.name is None and given.ports is None and given.testbench is None:
        return "", ""
    circuit = Circuit(source)
    named = ""
    if given.name is not None or given.ports is not None:
        named = wrapper(circuit, given.name or source.stem.replace("-", "_"), ports_of(given.ports, circuit))
    return named, bench_of(circuit, given) if given.testbench is not None else ""


def bench_of(circuit: Circuit, given: argparse.Namespace) -> str:
    starts = starts_of(given.starts, circuit)
    calls.run(circuit.source.bytes, b"", starts, 0)
    sampling = Sampling(given.clock, given.every)
    columns = columns_of(given.testbench, circuit, sampling, "input pins", circuit.inputs)
    sampling.settled()
    running, rows, feed = Running(circuit, starts), [], Recorded(circuit, columns)
    if feed.expecting:
        print("(the recorded outputs are not looked at: the test bench has those of the proved run)", file=sys.stderr)
    try:
        for stretch in running.stretches(feed):
            inputs = zip(*stretch.inputs) if stretch.inputs else [()] * stretch.ticks
            rows += [(bytes(a), bytes(b)) for a, b in zip(inputs, zip(*stretch.outputs))]
            if len(rows) > MOST_TICKS:
                raise WrongUse("%s: a test bench has at most %d ticks" % (given.testbench, MOST_TICKS))
    except NoBit as fault:
        raise WrongUse(str(fault)) from None
    return testbench(circuit, rows, starts)
