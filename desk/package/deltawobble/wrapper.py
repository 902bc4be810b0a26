"""Verilog around the proved module, whose text stays as it is: a module with names, and a test bench that checks itself."""
from __future__ import annotations

import re
from typing import Optional, Sequence

from .circuit import Circuit, base, vectors
from .files import WrongUse

NAME = re.compile(r"[A-Za-z_][A-Za-z0-9_$]*")
KEYWORDS = set("""always and assign automatic begin buf bufif0 bufif1 case casex casez cell cmos config deassign default defparam design disable edge
else end endcase endconfig endfunction endgenerate endmodule endprimitive endspecify endtable endtask event for force forever fork function generate
genvar highz0 highz1 if ifnone incdir include initial inout input instance integer join large liblist library localparam macromodule medium module
nand negedge nmos nor noshowcancelled not notif0 notif1 or output parameter pmos posedge primitive pull0 pull1 pulldown pullup pulsestyle_ondetect
pulsestyle_onevent rcmos real realtime reg release repeat rnmos rpmos rtran rtranif0 rtranif1 scalared showcancelled signed small specify specparam
strong0 strong1 inside supply0 supply1 table task time tran tranif0 tranif1 tri tri0 tri1 triand trior trireg unsigned use vectored wait wand weak0 weak1
while wire wor xnor xor logic bit byte do final int interface package program return shortint string struct type typedef union var void""".split())
#: ticks of a test bench
MOST_TICKS = 65535


def need_name(name: str, what: str) -> str:
    if not NAME.fullmatch(name) or name in KEYWORDS:
        raise WrongUse("%s '%s' is no name in Verilog: --name and --ports give others" % (what, name))
    return name


def ports_of(words: Optional[str], circuit: Circuit) -> list[str]:
    """A name for each pin: those of the pins, or those that --ports says, in pin order; x.0, x.1 and so on are one bus x."""
    names = circuit.pins if words is None else [word.strip() for word in words.split(",")]
    if len(names) != len(circuit.pins):
        raise WrongUse("--ports: %d names, and there are %d pins: %s" % (len(names), len(circuit.pins), ", ".join(circuit.pins)))
    heads = [need_name(base(group[0]) if len(group) > 1 else group[0], "the port") for group in vectors(names)]
    twice = next((name for name in heads if heads.count(name) > 1 or name == "clock"), None)
    if twice is not None:
        raise WrongUse("two ports would be called %s: --ports gives others" % twice)
    return list(names)


def wrapper(circuit: Circuit, name: str, ports: Sequence[str]) -> str:
    """A module with names around the module `circuit`."""
    need_name(name, "the module")
    if name == "circuit":
        raise WrongUse("--name circuit is the proved module's own name")
    given = set(circuit.inputs)
    declared, joined, at = ["  input clock"], [".clock(clock)"], 0
    for group in vectors(ports):
        way = "input" if circuit.pins[at] in given else "output"
        declared.append("  %s %s" % (way, group[0] if len(group) == 1 else "[%d:0] %s" % (len(group) - 1, base(group[0]))))
        for i, port in enumerate(group):
            joined.append(".p%04d(%s)" % (at + i, port if len(group) == 1 else "%s[%d]" % (base(port), i)))
        at += len(group)
    return "// the names of the pins; the module circuit is as it was proved\nmodule %s (\n%s\n);\ncircuit proved (%s);\nendmodule\n" % (
        name, ",\n".join(declared), ", ".join(joined))


def testbench(circuit: Circuit, rows: Sequence[tuple[bytes, bytes]], starts: bytes) -> str:
    """A bench that gives the module each tick's inputs and holds its outputs to those of the proved run."""
    wide, shown = len(circuit.inputs), len(circuit.outputs)
    given = set(circuit.lean.input_pins)
    ports, at, out = [".clock(clock)"], 0, 0
    for position, pin in enumerate(circuit.lean.pins):
        if pin in given:
            ports.append(".p%04d(given[%d])" % (position, at))
            at += 1
        else:
            ports.append(".p%04d(shown[%d])" % (position, out))
            out += 1
    lines = ["// a test bench: the outputs of each tick are those of the proved run", "`timescale 1ns/1ns", "module circuit_tb;", "reg clock;",
             "reg [%d:0] given;" % max(wide - 1, 0), "wire [%d:0] shown;" % max(shown - 1, 0), "reg [%d:0] rows [0:%d];" % (wide + shown - 1, len(rows) - 1),
             "reg [%d:0] wanted;" % max(shown - 1, 0), "integer tick, wrong;", "circuit dut (%s);" % ", ".join(ports), "initial begin"]
    for tick, (inputs, outputs) in enumerate(rows):
        lines.append("  rows[%d] = %d'b%s;" % (tick, wide + shown, "".join(map(str, inputs[::-1])) + "".join(map(str, outputs[::-1]))))
    lines += ["  clock = 0; wrong = 0;"]
    lines += ["  dut.t%04d = 1'b%d;" % (register.output, bit) for register, bit in zip(circuit.lean.registers, starts)]
    lines += ["  for (tick = 0; tick < %d; tick = tick + 1) begin" % len(rows), "    given = rows[tick] >> %d;" % shown if wide else "    given = 0;",
              "    wanted = rows[tick];", "    #5;",
              "    if (shown !== wanted) begin", '      if (wrong == 0) $display("different: tick %0d shows %b, and the proved run %b", tick, shown, wanted);',
              "      wrong = wrong + 1;", "    end", "    clock = 1; #5; clock = 0;", "  end",
              '  if (wrong == 0) $display("alike: %d ticks");' % len(rows), '  else $display("different: %%0d of %d ticks", wrong);' % len(rows),
              "  $finish;", "end", "endmodule"]
    return "\n".join(lines) + "\n"
