"""Dumps that other programs make, for the tests: Icarus Verilog, Verilator and GTKWave's own tools."""
from __future__ import annotations

import hashlib
import os
import shutil
import subprocess
from pathlib import Path

from .support import ROOT

BENCH = """`timescale 1ns/1ps
module bench;
  reg clk = 0, x = 0, y = 0;
  reg [3:0] w = 0;
  reg [0:3] v = 0;
  wire both;
  inner dut (.clk(clk), .x(x), .y(y), .both(both));
  always #5 clk = ~clk;
  integer k;
  initial begin
    $dumpfile("%s");
    $dumpvars(0, bench);
    for (k = 0; k < 20; k = k + 1) begin
      @(negedge clk);
      x = k %% 2; y = (k / 3) %% 2; w = k; v = k;
    end
    @(negedge clk) $finish;
  end
endmodule
module inner (input clk, input x, input y, output both);
  assign both = x & y;
endmodule
"""
DRIVER = """#include "Vtop.h"
#include "verilated.h"
#include "verilated_vcd_c.h"
int main() {
    Verilated::traceEverOn(true);
    Vtop top;
    VerilatedVcdC dump;
    top.trace(&dump, 9);
    dump.open("%s");
    for (int half = 0; half < 42; half++) {
        int k = half / 2 - 1;
        top.clk = half & 1;
        if (!(half & 1) && k >= 0) top.x = k %% 2, top.y = k / 3 %% 2, top.w = k & 15;
        top.eval();
        dump.dump(half * 5);
    }
    dump.close();
    return 0;
}
"""
TOP = """module top (input clk, input x, input y, input [3:0] w, output both);
  assign both = x & y;
endmodule
"""


#: what Verilator has compiled; the gate empties target/, and not this folder
KEPT = ROOT / "bench" / "target" / "desk"


def keep(made: Path, model: Path) -> None:
    """Puts a compiled model among those kept, all at once."""
    KEPT.mkdir(parents=True, exist_ok=True)
    shutil.copy(made, str(model) + ".new")
    os.replace(str(model) + ".new", model)


def has(*names: str) -> bool:
    return all(shutil.which(name) for name in names)


def done(words: list, folder: Path) -> None:
    subprocess.run(words, cwd=folder, check=True, capture_output=True)


def icarus(folder: Path) -> Path:
    """20 ticks: before edge k + 1, x is k % 2, y is k / 3 % 2, w and v are k; before edge 0 all are 0."""
    (folder / "bench.v").write_text(BENCH % "icarus.vcd")
    done(["iverilog", "-g2012", "-o", "bench.vvp", "bench.v"], folder)
    done(["vvp", "-n", "bench.vvp"], folder)
    return folder / "icarus.vcd"


def verilator(folder: Path) -> Path:
    """The same trace, at 5 ps a half. The model is compiled once for a version of Verilator and kept, since that takes long."""
    version = subprocess.run(["verilator", "--version"], check=True, capture_output=True, text=True).stdout
    text = DRIVER % "verilator.vcd"
    model = KEPT / ("model-" + hashlib.sha256((version + TOP + text).encode()).hexdigest()[:16])
    if not model.exists():
        (folder / "top.v").write_text(TOP)
        (folder / "driver.cpp").write_text(text)
        done(["verilator", "--cc", "--exe", "--build", "--trace", "-O0", "-MAKEFLAGS", "OPT_FAST=-O0 OPT_SLOW=-O0 OPT_GLOBAL=-O0", "-Wno-fatal", "--Mdir", "made", "-o", "model", "top.v", "driver.cpp"], folder)
        keep(folder / "made" / "model", model)
    done([str(model)], folder)
    return folder / "verilator.vcd"


#: GTKWave's own formats: the programs that go there and back
FORMATS = {"fst": (["vcd2fst", "{0}", "{1}"], ["fst2vcd", "-f", "{1}", "-o", "{2}"]),
           "lxt2": (["vcd2lxt2", "{0}", "{1}"], ["lxt2vcd", "{1}", "-o", "{2}"]),
           "vzt": (["vcd2vzt", "{0}", "{1}"], ["vzt2vcd", "{1}", "-o", "{2}"])}


def gtkwave(folder: Path, source: Path, kind: str) -> Path:
    """A dump through one of GTKWave's own formats and back."""
    target = folder / ("%s-%s" % (kind, source.name))
    for words in FORMATS[kind]:
        done([word.format(source, folder / ("kept." + kind), target) for word in words], folder)
    return target
