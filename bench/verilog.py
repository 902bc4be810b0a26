#!/usr/bin/env python3
"""Modules that the proved call writes, through Icarus Verilog, Verilator and Yosys: see bench/verilog, which calls this.

    python3 bench/verilog.py ROOM SEED      ROOM/sheets has the generated sheets, ROOM/bits is the second program's answers
"""
import collections
import glob
import os
import re
import subprocess
import sys

from deltawobble import Refused, translate, verilog

TICKS = 24
ROOT = os.path.join(os.path.dirname(os.path.abspath(__file__)), "..")

# zero, reg, and, or, xor, inv, one (document 01): inputs, and the value of the output; of a register, at the clock's edge
PARTS = [(0, "1'b0"), (1, "{0}"), (2, "{0} & {1}"), (2, "{0} | {1}"), (2, "{0} ^ {1}"), (1, "~{0}"), (0, "1'b1")]


def run(*words):
    done = subprocess.run(words, stdout=subprocess.PIPE, stderr=subprocess.STDOUT, text=True)
    return done.returncode, done.stdout


def sheets(room):
    """The accepted examples and the generated sheets, each in a file of raw bytes."""
    for path in sorted(glob.glob(os.path.join(ROOT, "examples", "*.hex"))):
        with open(path) as file:
            data = bytes.fromhex(" ".join(line.split("#")[0] for line in file))
        raw = os.path.join(room, os.path.basename(path)[:-4] + ".sheet")
        with open(raw, "wb") as file:
            file.write(data)
        yield raw, data
    for path in sorted(glob.glob(os.path.join(room, "sheets", "*.sheet"))):
        with open(path, "rb") as file:
            yield path, file.read()


class Netlist:
    """The records of a netlist in plain kinds."""

    def __init__(self, data):
        self.points, self.parts, self.wires, self.pins = [], [], [], []
        at = 0
        while at < len(data):
            kind = data[at]
            two = lambda k: data[at + k] | data[at + k + 1] << 8
            if kind == 0x21:
                self.points.append(two(1))
            elif kind == 0x22:
                self.parts.append((data[at + 1], two(2)))
            elif kind == 0x23:
                self.wires.append((two(1), two(3)))
            else:
                self.pins.append(two(1))
            at += {0x21: 3, 0x22: 4, 0x23: 5, 0x24: 3}[kind]
        self.outputs = {i + 1 for i in self.points} | {i + PARTS[p][0] for p, i in self.parts}

    def registers(self):
        return [i + 1 for p, i in self.parts if p == 1]


def full_text(net):
    """The full netlist as a module, by expressions and not by primitives."""
    net_of = "t{:04d}".format
    ports = ["input wire clock"] + ["%s wire p%04d" % ("output" if t in net.outputs else "input", k) for k, t in enumerate(net.pins)]
    lines = ["module full (%s);" % ", ".join(ports)]
    for i in net.points:
        lines.append("wire %s, %s; assign %s = %s;" % (net_of(i), net_of(i + 1), net_of(i + 1), net_of(i)))
    for p, i in net.parts:
        inputs, value = PARTS[p]
        names = [net_of(i + k) for k in range(inputs)]
        lines += ["wire %s;" % name for name in names]
        if p == 1:
            lines.append("reg %s; always @(posedge clock) %s <= %s;" % (net_of(i + 1), net_of(i + 1), names[0]))
        else:
            lines.append("wire %s; assign %s = %s;" % (net_of(i + inputs), net_of(i + inputs), value.format(*names)))
    lines += ["assign %s = %s;" % (net_of(to), net_of(source)) for source, to in net.wires]
    for k, t in enumerate(net.pins):
        lines.append("assign p%04d = %s;" % (k, net_of(t)) if t in net.outputs else "assign %s = p%04d;" % (net_of(t), k))
    return "\n".join(lines + ["endmodule", ""])


def bench_text(net, starts, inputs):
    """A module that gives a circuit its starts and inputs, and prints the output pins' bits tick after tick."""
    given = [k for k, t in enumerate(net.pins) if t not in net.outputs]
    shown = [k for k, t in enumerate(net.pins) if t in net.outputs]
    ports = ["clock"] + ["p%04d" % k for k in range(len(net.pins))]
    lines = ["module bench;", "  reg clock;"]
    lines += ["  reg p%04d;" % k for k in given] + ["  wire p%04d;" % k for k in shown]
    lines += ["  circuit c (%s);" % ", ".join(".%s(%s)" % (p, p) for p in ports), "  initial begin", "    clock = 0;"]
    lines += ["    c.t%04d = %s;" % pair for pair in zip(net.registers(), starts)]
    for tick in range(TICKS):
        row = inputs[tick * len(given):(tick + 1) * len(given)]
        lines += ["    p%04d = %s;" % pair for pair in zip(given, row)] + ["    #1;"]
        lines += ['    $write("%%b", p%04d);' % k for k in shown] + ["    clock = 1; #1 clock = 0;"]
    return "\n".join(lines + ["    $finish;", "  end", "endmodule", ""])


def write(path, text):
    with open(path, "w") as file:
        file.write(text)
    return path


class Found:
    """What was found, and how often what was done."""

    def __init__(self):
        self.counts, self.wrong, self.warnings = collections.Counter(), 0, collections.Counter()

    def check(self, name, what, well, said=""):
        if well:
            self.counts[what] += 1
        else:
            self.wrong += 1
            print("%s: %s: NOT SO\n%s" % (name, what, said[:2000]))


def compiled(found, name, module):
    status, said = run("iverilog", "-g2001", "-Wall", "-t", "null", module)
    found.check(name, "compiled by Icarus without a word", status == 0 and not said, said)
    status, said = run("verilator", "--lint-only", "-Wno-fatal", module)
    found.check(name, "linted by Verilator without an error", status == 0 and "%Error" not in said, said)
    found.warnings.update(re.findall(r"%Warning-(\w+)", said))


def simulated(found, name, module, room, net, line):
    starts, inputs, shown = ("" if word == "-" else word for word in line.split())
    bench = write(os.path.join(room, "bench.v"), bench_text(net, starts, inputs))
    status, said = run("iverilog", "-g2001", "-o", os.path.join(room, "bench.vvp"), module, bench)
    if status == 0:
        status, said = run("vvp", "-n", os.path.join(room, "bench.vvp"))
    found.check(name, "simulated as the second program says", status == 0 and said == shown, "%s, not %s" % (said, shown))


def proved(found, room, pairs):
    """One run of Yosys: each pair of modules made into one, whose matched nets and registers are then proved equal."""
    script = []
    for module, full in pairs:
        script += ["design -reset", "read_verilog %s" % full, "read_verilog %s" % module, "proc", "equiv_make full circuit both", "hierarchy -top both",
                   "flatten", "opt_clean", "equiv_simple -undef", "equiv_induct -undef", "equiv_status -assert", "log DONE"]
    status, said = run("yosys", "-q", "-l", os.path.join(room, "yosys.log"), "-s", write(os.path.join(room, "equal.ys"), "\n".join(script) + "\n"))
    with open(os.path.join(room, "yosys.log")) as file:
        log = file.read()
    done = len(re.findall(r"^DONE$", log, re.M))
    found.counts["proved the full netlist's circuit by Yosys"] += done
    if status or done != len(pairs):
        found.wrong += 1
        print("%s: Yosys does not prove it\n%s" % (pairs[done][1] if done < len(pairs) else "", (said + log)[-3000:]))


def refused_by_both(found, name, refused, line):
    """18 has to stand where the second program finds a kept ring point, at its input; a ring of gates is no reason for it."""
    if refused.number == 18:
        found.check(name, "refused 18: a kept ring point, the same one by both", line == "points %d" % refused.place, "18 at %d, and the second program says: %s" % (refused.place, line))
    else:
        found.check(name, "refused 2 to 16 by both", line == "refused", "%s, and the second program says: %s" % (refused, line))


def main():
    room, seed = sys.argv[1:]
    found, pairs = Found(), []
    all_sheets = list(sheets(room))
    status, lines = run(os.path.join(room, "bits"), "run", seed, str(TICKS), *[path for path, _ in all_sheets])
    if status:
        sys.exit(lines)
    for (path, data), line in zip(all_sheets, lines.splitlines(), strict=True):
        name = os.path.basename(path)[:-6]
        try:
            text = verilog(data)
        except Refused as refused:
            refused_by_both(found, name, refused, line)
            continue
        found.check(name, "modules of sheets that the second program exports too", line != "refused" and not line.startswith("points"), line)
        module = write(path[:-6] + ".v", text)
        compiled(found, name, module)
        if line == "gates":
            found.counts["rings of gates"] += 1
            continue
        net = Netlist(translate(data, lean=False, plain=True))
        simulated(found, name, module, room, net, line)
        pairs.append((module, write(path[:-6] + ".full.v", full_text(net))))
    proved(found, room, pairs)
    for what, count in sorted(found.counts.items()):
        print("%6d  %s" % (count, what))
    print("Verilator's warnings: %s" % (", ".join("%s %d" % pair for pair in sorted(found.warnings.items())) or "none"))
    print("wrong: %d" % found.wrong)
    sys.exit(1 if found.wrong else 0)


main()
