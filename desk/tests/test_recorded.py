"""Recorded traces: columns by name, dumps of three programs, what a record expects, any length, states."""
from __future__ import annotations

import json
import tempfile
import unittest
from pathlib import Path

from deltawobble import calls
from deltawobble.files import read

from . import tools
from .support import EXAMPLES, command

STICKY, COMPARATOR = str(EXAMPLES / "sticky.dw"), str(EXAMPLES / "comparator-divergence.dw")
BOTH = "-- outputs: both\nmain = fun x y : 1. and x y\n"
FOUR = "-- outputs: high\ntype n = 1 * 1 * 1 * 1\nmain = fun w : n. let (a, b, c, d) = w in d\n"


class Folder(unittest.TestCase):
    def setUp(self):
        held = tempfile.TemporaryDirectory()
        self.addCleanup(held.cleanup)
        self.folder = Path(held.name)

    def file(self, name: str, text: str) -> str:
        (self.folder / name).write_text(text)
        return str(self.folder / name)

    def ran(self, *words: str, given: str = "") -> dict:
        status, out, err = command("run", *words, "--json", given=given.encode())
        self.assertEqual(status, 0, err)
        return json.loads(out)

    def wrong(self, said: str, *words: str, given: str = "") -> None:
        status, out, err = command("run", *words, given=given.encode())
        self.assertEqual((status, out), (2, ""), (words, err))
        self.assertIn(said, err)


class ByName(Folder):
    def test_columns_go_by_their_names(self):
        # sticky is set where x and y differ: at tick 1
        for text in ("x,y\n0,0\n1,0\n", "y,x\n0,0\n0,1\n", "y x\n00\n01\n", "# made by hand\n\ny;x\n0;0\n0;1\n", "\ufeffy,x\r\n0,0\r\n0,1\r\n"):
            said = self.ran(STICKY, "-", "--starts", "0", given=text)
            self.assertEqual(said["ticks"], [[[0, 0], [0]], [[1, 0], [1]]], text)
        self.assertIn("(-:1 names the columns: y, x)", command("run", STICKY, "-", given=b"y,x\n0,1\n")[2])

    def test_names_that_do_not_fit(self):
        for text, said in (("x,q\n0,0\n", "'q' is no bits and no pin"), ("x\n0\n", "no column is called y, which is an input pin"), ("x,x\n0,0\n", "two columns are called x"),
                           ("x,y,x\n0,0,0\n", "two columns are called x")):
            self.wrong(said, STICKY, "-", given=text)

    def test_a_bad_first_row_is_no_header(self):
        for text in ("x0\n01\n", "O1\n01\n", "-1,0\n0,1\n", "0b10\n01\n", "True,False\n0,1\n", "0,y\n0,1\n", "0.5,1\n0,1\n", "a\n01\n"):
            self.wrong("-:1:", STICKY, "-", given=text)

    def test_names_said_for_a_file(self):
        said = self.ran(STICKY, "-", "--starts", "0", "--names", "y,x", given="00\n01\n")
        self.assertEqual(said["ticks"], [[[0, 0], [0]], [[1, 0], [1]]])
        self.wrong("it has names of its own", STICKY, "-", "--names", "y,x", given="x,y\n0,1\n")
        self.wrong("3 bits, and there are 2 columns named by --names", STICKY, "-", "--names", "y,x", given="010\n")
        self.assertEqual(self.ran(STICKY, "-", "--starts", "0", "--names", "out=stays,x=left", given="left,y\n0,1\n")["outputs"], ["stays"])
        self.wrong("--names says the columns of a trace, and there is none", STICKY, "--ticks", "1", "--names", "x,y")
        self.wrong("are about a value change dump, and none was given", STICKY, "--ticks", "1", "--clock", "c")
        self.wrong("nothing inside is called", STICKY, "--ticks", "1", "--show", "")
        self.wrong("-: there are no input pins, and no first line names other columns", str(EXAMPLES / "lfsr-16.dw"), "-", given="01\n")
        self.wrong("-:1: 2 bits, and there are 1 output pins", STICKY, "--ticks", "1", "--expect", "-", given="01\n")
        self.wrong("no pin is called q", STICKY, "-", "--names", "q=r", given="00\n")

    def test_cells(self):
        self.wrong("-:2: column 2 is empty", STICKY, "-", given="0,0\n0,,1\n")
        self.wrong("-:1: column 3 is empty", STICKY, "-", given="0,0,\n0,1,\n")
        self.wrong("the input y is 'x' at tick 1, and nobody knows its bit", STICKY, "-", given="0,0\n0,x\n")
        self.wrong("-:3: the input x is 'z' at tick 2", STICKY, "-", given="00\n00\nz0\n")

    def test_blocks_of_any_shape_say_the_same(self):
        # the quick way, for lines of one shape, and the slow one, for others
        rows = ["%d%d" % (k % 2, k // 3 % 2) for k in range(300)]
        wanted = self.ran(STICKY, "-", "--starts", "0", given="\n".join(rows) + "\n")["ticks"]
        for text in ("\n".join(rows), "\n".join(",".join(row) for row in rows), "\n".join(row + " # n" * (k % 2) for k, row in enumerate(rows)), "\r\n".join(rows) + "\r\n\r\n"):
            self.assertEqual(self.ran(STICKY, "-", "--starts", "0", given=text)["ticks"], wanted)

    def test_two_variables_of_one_name(self):
        said = self.ran("-", "--ticks", "1", given="main = fun x : 1. fun x : 1. fun out : 1. (x, out)")
        self.assertEqual((said["inputs"], said["outputs"]), (["x", "x_2", "out"], ["out_2.0", "out_2.1"]))


class Expecting(Folder):
    def test_columns_of_outputs(self):
        # by hand: out is 0 1 1 where x and y are 00, 10, 00
        status, out, _ = command("run", STICKY, "-", "--starts", "0", given=b"x,y,out\n0,0,0\n1,0,1\n0,0,1\n")
        self.assertEqual((status, out), (0, "alike: 1 output pin at 3 ticks, 3 recorded bits, no difference\n"))
        status, out, _ = command("run", STICKY, "-", "--starts", "0", given=b"x,y,out\n0,0,0\n1,0,1\n0,0,0\n0,0,0\n")
        self.assertEqual(status, 1)
        self.assertTrue(out.startswith("different: out at tick 2 is the first; 2 differ (out 2) of 1 output pin at 4 ticks, 4 recorded bits\n"), out)
        lines = out.splitlines()
        shown, recorded = (next(line for line in lines if line.strip().startswith(name)) for name in ("out  ", "out recorded"))
        self.assertEqual((shown[-4:], recorded[-4:]), ("▁▔▔▔", "▁▔▁▁"))
        self.assertEqual(lines[-1].index("^"), len(shown) - 2)

    def test_an_expected_x_is_no_expectation(self):
        self.assertEqual(command("run", STICKY, "-", "--starts", "0", given=b"x,y,out\n0,0,x\n1,0,1\n0,0,z\n")[0], 0)
        said = json.loads(command("run", STICKY, "-", "--starts", "0", "--json", given=b"x,y,out\n0,0,x\n1,0,0\n0,0,z\n")[1])
        self.assertEqual(said, {"accepted": True, "alike": False, "ticks": 3, "compared": 1, "differences": 1, "pins": {"out": 1}, "first": {"tick": 1, "pin": "out"}})

    def test_a_file_of_its_own(self):
        trace = self.file("t.csv", "x,y\n0,0\n1,0\n0,0\n")
        for text, status in (("out\n0\n1\n1\n", 0), ("0\n1\n1\n", 0), ("0\n1\n0\n", 1), ("0\n1\n", 2), ("0\n1\n1\n1\n", 2), ("x\n0\n1\n1\n", 2), ("0\n1\n2\n", 2)):
            self.assertEqual(command("run", STICKY, trace, "--starts", "0", "--expect", self.file("e.csv", text))[0], status, text)

    def test_the_first_difference_in_a_later_window(self):
        # 100,000 ticks in several windows, with one wrong bit
        rows = [[k % 2, k % 2, 0] for k in range(100000)]
        rows[70000][2] = 1
        text = "x,y,out\n" + "".join("%d,%d,%d\n" % tuple(row) for row in rows)
        said = json.loads(command("run", STICKY, self.file("t.csv", text), "--starts", "0", "--json")[1])
        self.assertEqual((said["first"], said["differences"], said["ticks"]), ({"tick": 70000, "pin": "out"}, 1, 100000))


class Windows(Folder):
    def test_a_run_that_goes_on(self):
        rows = ["%d%d" % (k % 7 == 3, k % 5 == 2) for k in range(90)]
        whole = self.ran(COMPARATOR, "-", "--starts", "00", given="\n".join(rows))["ticks"]
        state = str(self.folder / "half.state")
        first = self.ran(COMPARATOR, "-", "--starts", "00", "--state-out", state, given="\n".join(rows[:41]))["ticks"]
        second = self.ran(COMPARATOR, "-", "--state-in", state, "--state-out", state + "2", given="\n".join(rows[41:]))["ticks"]
        self.assertEqual(first + second, whole)
        self.assertIn("\ntick 90\n", Path(state + "2").read_text())
        self.assertIn("\n  41  ", command("run", COMPARATOR, "-", "--state-in", state, given=b"00\n")[1])

    def test_states_that_do_not_fit(self):
        state = str(self.folder / "a.state")
        self.assertEqual(command("run", COMPARATOR, "--ticks", "3", "--state-out", state)[0], 0)
        self.wrong("the state of another sheet", STICKY, "--ticks", "3", "--state-in", state)
        self.wrong("this is no state", STICKY, "--ticks", "3", "--state-in", STICKY)
        self.wrong("give one", COMPARATOR, "--ticks", "3", "--state-in", state, "--starts", "00")
        self.wrong("would be written over", COMPARATOR, "--ticks", "3", "--state-in", state, "--state-out", state)

    def test_windows_show_what_one_call_shows(self):
        sheet = read(STICKY).bytes
        bits = bytes((k * k >> 3) & 1 for k in range(2 * 70000))
        text = "".join("%d%d\n" % (bits[2 * k], bits[2 * k + 1]) for k in range(70000))
        said = self.ran(STICKY, self.file("long.trace", text), "--starts", "0")
        wanted = calls.run(sheet, bits[:2 * 65535], b"\0", 65535)
        self.assertEqual(bytes(row[1][0] for row in said["ticks"][:65535]), wanted)
        self.assertEqual(len(said["ticks"]), 70000)

    def test_the_period_of_registers_that_are_no_pins(self):
        # a 4-bit ring, of which nothing but the last bit is shown
        ring = "type w = 1 * 1 * 1 * 1\nmain = let (a, b, c, d) = (fix s : w. let (a, b, c, d) = s in (reg d, reg a, reg b, reg c)) in d"
        for starts, period in (("1000", 4), ("1010", 2), ("1111", 1)):
            self.assertIn("period %d:" % period, command("run", "-", "--period", "--starts", starts, given=ring.encode())[1])


class Dumps(Folder):
    def held(self, dump: Path, *more: str) -> None:
        """21 ticks: x, y and w as tools.BENCH sets them, and both as it was recorded."""
        rows = [(0, 0, 0)] + [(k % 2, k // 3 % 2, k % 16) for k in range(20)]
        for text, width in ((BOTH, 2), (FOUR, 4)):
            if width == 4:
                words = [self.file("sheet.dw", text.replace("high", "top")), str(dump), *more]
                said = self.ran(*words)
                self.assertEqual([sum(b << i for i, b in enumerate(tick[0])) for tick in said["ticks"]], [row[2] for row in rows], dump.name)
                self.assertEqual([tick[1][0] for tick in said["ticks"]], [row[2] >> 3 for row in rows])
            else:
                said = self.ran(self.file("sheet.dw", text), str(dump), *more)
                self.assertEqual((said["alike"], said["ticks"], said["compared"]), (True, 21, 21), dump.name)
                plain = self.ran(self.file("sheet.dw", text.replace("both", "other")), str(dump), *more)
                self.assertEqual([tick[0] for tick in plain["ticks"]], [list(row[:2]) for row in rows], dump.name)

    @unittest.skipUnless(tools.has("iverilog", "vvp"), "NOT RUN: there is no Icarus Verilog")
    def test_icarus(self):
        dump = tools.icarus(self.folder)
        self.held(dump, "--clock", "clk")
        self.held(dump, "--clock", "bench.clk", "--scope", "bench")
        self.wrong("no signal is called clock", STICKY, str(dump), "--clock", "clock")
        self.wrong("say --clock", STICKY, str(dump))

    @unittest.skipUnless(tools.has("iverilog", "vvp", "vcd2fst", "fst2vcd", "vcd2lxt2", "lxt2vcd", "vcd2vzt", "vzt2vcd"), "NOT RUN: there is no Icarus Verilog or no GTKWave")
    def test_gtkwave(self):
        dump = tools.icarus(self.folder)
        for kind in tools.FORMATS:
            self.held(tools.gtkwave(self.folder, dump, kind), "--clock", "clk", "--scope", "bench")

    @unittest.skipUnless(tools.has("verilator", "g++", "make"), "NOT RUN: there is no Verilator")
    def test_verilator(self):
        dump = tools.verilator(self.folder)
        self.held(dump, "--clock", "clk", "--scope", "TOP")
        self.wrong("x is the name of several signals, TOP.x, TOP.top.x: --scope says which is meant", STICKY, str(dump), "--clock", "clk")

    @unittest.skipUnless(tools.has("verilator", "g++", "make", "vcd2fst", "fst2vcd", "vcd2lxt2", "lxt2vcd", "vcd2vzt", "vzt2vcd"), "NOT RUN: there is no Verilator or no GTKWave")
    def test_verilator_and_gtkwave(self):
        dump = tools.verilator(self.folder)
        for kind in tools.FORMATS:
            self.held(tools.gtkwave(self.folder, dump, kind), "--clock", "clk", "--scope", "TOP")

    def test_our_own_dump(self):
        for sheet, starts in ((COMPARATOR, "00"), (str(EXAMPLES / "ripple-adder-8.dw"), "")):
            words = ["--random", "5", "--ticks", "200", *(["--starts", starts] if starts else [])]
            path = str(self.folder / "run.vcd")
            self.assertEqual(command("run", sheet, *words, "--vcd", path)[0], 0)
            said = self.ran(sheet, path, "--every", "1ns", *(["--starts", starts] if starts else []))
            self.assertEqual((said["alike"], said["ticks"]), (True, 200))

    def dump(self, changes: str, head: str = "$timescale 1 ns $end\n$var wire 1 ! x $end\n$var wire 1 \" y $end\n$var wire 1 c clk $end\n") -> str:
        return self.file("hand.vcd", head + "$enddefinitions $end\n" + changes)

    def test_by_hand(self):
        # just before the edge at 5, x is 1 and y 0; before the one at 15 y is 1: it changes with the edge at 15 again, which counts later
        path = self.dump("#0\n0c 1! 0\"\n#5\n1c\n#7\n1\"\n#10\n0c\n#15\n1c\n0\"\n#20\n0c\n#25\n1c\n")
        self.assertEqual([tick[0] for tick in self.ran(STICKY, path, "--clock", "clk")["ticks"]], [[1, 0], [1, 1], [1, 0]])
        # at 0, 10 and 20: y is 0, 1, 0; the last time, 25, is no multiple
        self.assertEqual([tick[0] for tick in self.ran(STICKY, path, "--every", "10ns")["ticks"]], [[1, 0], [1, 1], [1, 0]])
        self.assertEqual(len(self.ran(STICKY, path, "--every", "5ns")["ticks"]), 6)

    def test_unknown_and_wrong(self):
        path = self.dump("#0\n0c 1! x\"\n#5\n1c\n")
        self.wrong("the input y is 'x' at tick 0", STICKY, path, "--clock", "clk")
        self.wrong("no multiple", STICKY, path, "--every", "1ps")
        for every in ("10", "ns", "0ns", "-3ns", "1e3ns"):
            self.wrong("--every takes a time", STICKY, path, "--every=" + every)
        self.wrong("the clock is not known at time 7", STICKY, self.dump("#0\n0c 1! 1\"\n#5\n1c\n#7\nxc\n"), "--clock", "clk")
        self.wrong("time 3 stands behind time 5", STICKY, self.dump("#0\n0c 1! 1\"\n#5\n1c\n#3\n0c\n"), "--clock", "clk")
        self.wrong("'q' is the code of no signal", STICKY, self.dump("#0\n0c 1! 1\"\n#5\n1c\n1q\n"), "--clock", "clk")
        self.wrong("'!' has 1 bits, and gets a value of 2", STICKY, self.dump("#0\n0c 1! 1\"\n#5\n1c\nb11 !\n"), "--clock", "clk")
        self.wrong("is no change of a value", STICKY, self.dump("#0\n0c 1! 1\"\n#5\n1c\nhello\n"), "--clock", "clk")
        self.wrong("the trace has no tick", STICKY, self.dump("#0\n0c 1! 1\"\n"), "--clock", "clk")
        self.wrong("$enddefinitions is missing", STICKY, self.file("cut.vcd", "$timescale 1 ns $end\n"), "--clock", "clk")
        self.wrong("are about a value change dump, and none was given", STICKY, self.file("a.csv", "0,1\n"), "--clock", "clk")
        # a trace of rows, and a dump of the output: out is 1 from tick 1 on
        expect = self.dump("#0\n0c 0o\n#5\n1c\n#10\n0c 1o\n#15\n1c\n", "$var wire 1 o out $end\n$var wire 1 c clk $end\n")
        self.assertEqual(command("run", STICKY, self.file("a.csv", "0,0\n0,1\n"), "--clock", "clk", "--expect", expect, "--starts", "0")[:2],
                         (0, "alike: 1 output pin at 2 ticks, 2 recorded bits, no difference\n"))

    def test_vectors(self):
        four = self.file("four.dw", FOUR)
        def values(head: str, value: str) -> list:
            return self.ran(four, self.dump("#0\n0c %s\n#5\n1c\n" % value, head + "$var wire 1 c clk $end\n"), "--clock", "clk")["ticks"][0][0]
        self.assertEqual(values("$var wire 4 ! w [3:0] $end\n", "b0011 !"), [1, 1, 0, 0])
        self.assertEqual(values("$var wire 4 ! w[3:0] $end\n", "b1 !"), [1, 0, 0, 0])
        self.assertEqual(values("$var wire 4 ! w [0:3] $end\n", "b0011 !"), [0, 0, 1, 1])
        self.assertEqual(values("".join("$var wire 1 %d w [%d] $end\n" % (i, i) for i in range(4)), "10 01 12 03"), [1, 0, 1, 0])
        self.assertEqual(values("".join("$var wire 1 %d w.%d $end\n" % (i, i) for i in range(4)), "10 01 12 03"), [1, 0, 1, 0])
        self.wrong("has the bits 1 to 4", four, self.dump("#0\n", "$var wire 4 ! w [4:1] $end\n$var wire 1 c clk $end\n"), "--clock", "clk")
        self.wrong("the input w.1 is 'x'", four, self.dump("#0\n0c bx1 !\n#5\n1c\n", "$var wire 4 ! w [3:0] $end\n$var wire 1 c clk $end\n"), "--clock", "clk")
