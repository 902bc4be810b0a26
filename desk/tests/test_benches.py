"""Verilog around the proved module: names, and test benches that Icarus Verilog and Verilator run."""
from __future__ import annotations

import hashlib
import json
import random
import subprocess
import tempfile
import unittest
from pathlib import Path

from deltawobble import calls
from deltawobble.files import read

from . import tools
from .support import EXAMPLES, command

STICKY, COMPARATOR = str(EXAMPLES / "sticky.dw"), str(EXAMPLES / "comparator-divergence.dw")


class Benches(unittest.TestCase):
    def setUp(self):
        held = tempfile.TemporaryDirectory()
        self.addCleanup(held.cleanup)
        self.folder = Path(held.name)

    def written(self, sheet: str, pins: int, starts: str, *more: str) -> tuple[Path, Path]:
        """A module and its bench, with a trace of 50 random ticks."""
        rng = random.Random(8)
        trace = self.folder / "some.trace"
        trace.write_text("".join("".join(rng.choice("01") for _ in range(pins)) + "\n" for _ in range(50)))
        module = self.folder / "made.v"
        status, _, err = command("verilog", sheet, "--testbench", str(trace), "--starts", starts, "-o", str(module), *more)
        self.assertEqual(status, 0, err)
        return module, self.folder / "made_tb.v"

    def vvp(self, *files: Path, top: str = "circuit_tb") -> str:
        tools.done(["iverilog", "-o", "made.vvp", "-s", top, *map(str, files)], self.folder)
        return subprocess.run(["vvp", "-n", "made.vvp"], cwd=self.folder, check=True, capture_output=True, text=True).stdout

    @unittest.skipUnless(tools.has("iverilog", "vvp"), "NOT RUN: there is no Icarus Verilog")
    def test_icarus(self):
        for name, pins, starts in (("sticky", 2, "1"), ("comparator-divergence", 2, "01"), ("accumulator", 2, "010110100"), ("ripple-adder-8", 16, ""), ("full-adder", 3, "")):
            module, bench = self.written(str(EXAMPLES / (name + ".dw")), pins, starts)
            self.assertEqual(self.vvp(module, bench), "alike: 50 ticks\n", name)

    @unittest.skipUnless(tools.has("iverilog", "vvp"), "NOT RUN: there is no Icarus Verilog")
    def test_a_wrong_module_is_told(self):
        module, bench = self.written(STICKY, 2, "0")
        module.write_text(module.read_text().replace("xor (", "xnor ("))
        self.assertIn("different: tick ", self.vvp(module, bench))

    @unittest.skipUnless(tools.has("verilator", "g++", "make"), "NOT RUN: there is no Verilator")
    def test_verilator(self):
        module, bench = self.written(COMPARATOR, 2, "01", "--name", "comparator")
        version = subprocess.run(["verilator", "--version"], check=True, capture_output=True).stdout
        model = tools.KEPT / ("bench-" + hashlib.sha256(version + module.read_bytes() + bench.read_bytes()).hexdigest()[:16])
        if not model.exists():  # it takes long, and is kept
            tools.done(["verilator", "--binary", "--timing", "-O0", "-MAKEFLAGS", "OPT_FAST=-O0 OPT_SLOW=-O0 OPT_GLOBAL=-O0", "-Wno-fatal", "--top-module", "circuit_tb", "--Mdir", "made", "-o", "model",
                        str(module), str(bench)], self.folder)
            tools.keep(self.folder / "made" / "model", model)
        said = subprocess.run([str(model)], cwd=self.folder, capture_output=True, text=True, check=True).stdout
        self.assertTrue(said.startswith("alike: 50 ticks\n"), said)

    def test_the_proved_text_stays(self):
        proved = calls.verilog(read(STICKY).bytes)
        for words in (["--name", "sticky"], ["--ports", "a,b,c"], ["--testbench", str(EXAMPLES / "sticky.trace")]):
            status, out, _ = command("verilog", STICKY, *words)
            self.assertEqual((status, out[:len(proved)]), (0, proved))
        said = json.loads(command("verilog", STICKY, "--name", "sticky", "--json")[1])
        self.assertEqual(said["verilog"], proved)
        self.assertIn("module sticky (\n  input clock,\n  input x,\n  input y,\n  output out\n);\n", said["around"])

    def test_buses(self):
        out = command("verilog", str(EXAMPLES / "ripple-adder-8.dw"), "--name", "adder")[1]
        self.assertRegex(out, r"module adder \(\n  input clock,\n  input \[7:0\] \w+,")

    def test_names_that_are_none(self):
        for words in (["--name", "1x"], ["--name", "circuit"], ["--name", "module"], ["--ports", "x,y"], ["--ports", "x,x,y"], ["--ports", "x,clock,y"], ["--ports", "x,wire,y"],
                      ["--starts", "1"], ["--clock", "c"]):
            status, out, _ = command("verilog", STICKY, *words)
            self.assertEqual((status, out), (2, ""), words)

    @unittest.skipUnless(tools.has("iverilog", "vvp", "vcd2fst", "fst2vcd"), "NOT RUN: there is no Icarus Verilog or no GTKWave")
    def test_the_dump_of_a_bench_is_read_back(self):
        # the module simulated by Icarus, its dump held against the proved run: as Icarus wrote it, and through GTKWave
        module, bench = self.written(COMPARATOR, 2, "01", "--name", "comparator", "--ports", "x,y,greater,diverged")
        bench.write_text(bench.read_text().replace("initial begin\n", 'initial begin $dumpfile("made.vcd"); $dumpvars(0, dut);\n', 1))
        self.vvp(module, bench)
        names = "x=p0000,y=p0001,out.0=p0002,out.1=p0003"
        for dump in (self.folder / "made.vcd", tools.gtkwave(self.folder, self.folder / "made.vcd", "fst")):
            for starts, status in (("01", 0), ("11", 1)):
                self.assertEqual(command("run", COMPARATOR, str(dump), "--clock", "clock", "--starts", starts, "--names", names)[0], status)
