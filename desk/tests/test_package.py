"""The package as Python programs use it: what calls take and give, wrong arguments, doctests."""
from __future__ import annotations

import doctest
import importlib
import json
import pkgutil
import subprocess
import sys
import unittest
from pathlib import Path

import deltawobble
from deltawobble import Netlist, Refused, WrongUse, calls

from . import fault_reports
from .support import EXAMPLES, ROOT, command, example
from .test_commands import Folder

STICKY = EXAMPLES / "sticky.dw"
DEBIAN = "/usr/bin/python3"


def imported(case: unittest.TestCase, name: str):
    """A module that users may have. Where this Python has it not and Debian's has, the same test is run there, and nothing is given back."""
    try:
        return importlib.import_module(name)
    except ImportError:
        pass
    if sys.executable == DEBIAN or subprocess.run([DEBIAN, "-c", "import " + name], capture_output=True).returncode:
        case.skipTest("NOT RUN: there is no %s, Debian package python3-%s" % (name, name))
    run = subprocess.run([DEBIAN, "-m", "unittest", case.id()], cwd=ROOT / "desk", capture_output=True, text=True)
    case.assertEqual(run.returncode, 0, run.stderr)
    case.assertNotIn("skipped", run.stderr)
    return None


class Sheets(Folder):
    def test_bytes_what_make_gives_and_paths(self):
        made = deltawobble.make(STICKY.read_text())
        for given in (made, made.sheet, bytearray(made.sheet), memoryview(made.sheet), STICKY, str(STICKY), EXAMPLES / "sticky.hex"):
            self.assertEqual(deltawobble.translate(given, lean=True), calls.translate(made.sheet, lean=True))
            self.assertEqual(deltawobble.verilog(given), calls.verilog(made.sheet))
            self.assertEqual(deltawobble.stretch(given, 3), calls.stretch(made.sheet, 3))
            self.assertEqual(deltawobble.batch([given, example("P3")], plain=True), calls.batch([made.sheet, example("P3")], plain=True))
            self.assertTrue(deltawobble.explain(given).startswith("accepted\n"))
        self.assertEqual(deltawobble.make(STICKY).sheet, made.sheet)
        net = self.path("p3.net", calls.translate(example("P3"), plain=True, lean=True))
        deltawobble.check(net, lean=True)
        self.assertEqual(deltawobble.back(Path(net), lean=True), deltawobble.back(Path(net).read_bytes(), lean=True))

    def test_names_are_kept(self):
        self.assertIn("fun set : 1. fix s : 1.", deltawobble.show(STICKY))
        self.assertEqual(deltawobble.make(deltawobble.show(STICKY)).sheet, deltawobble.make(STICKY).sheet)
        for path in EXAMPLES.glob("*.dw"):
            self.assertEqual(deltawobble.make(deltawobble.show(path)).sheet, deltawobble.make(path).sheet, path.name)
        # of two binders with one name the outer one is meant: named anew
        text = "main = fun rest : 1. fun p : 1 * 1 * 1. let (a, b, c) = p in and rest (and a c)"
        made = deltawobble.make(text)
        self.assertEqual(deltawobble.make(deltawobble.show(made)).sheet, made.sheet)

    def test_wrong_arguments_are_said_in_a_sentence(self):
        p3 = example("P3")
        for error, words, call in (
                (TypeError, "a sheet is bytes", lambda: deltawobble.translate(7)), (TypeError, "a sheet is bytes", lambda: deltawobble.explain(None)),
                (TypeError, "a node is a number", lambda: deltawobble.stretch(p3, "1")), (ValueError, "0 or more", lambda: deltawobble.stretch(p3, -1)),
                (ValueError, "0 or more", lambda: deltawobble.stretch(p3, 1 << 64)), (TypeError, "a list of sheets", lambda: deltawobble.batch(p3)),
                (TypeError, "a sheet is bytes", lambda: deltawobble.batch([p3, 5])), (TypeError, "a netlist is bytes", lambda: deltawobble.check([1])),
                (TypeError, "a netlist is bytes", lambda: Netlist.parse("24 00 00")), (TypeError, "a text is a str", lambda: deltawobble.make(b"main = zero")),
                (WrongUse, "No such file", lambda: deltawobble.translate("none.dw")), (ValueError, "a trace is needed", lambda: deltawobble.run(p3)),
                (ValueError, "0 or more", lambda: deltawobble.run(p3, ticks=-1)), (TypeError, "rows, a dict", lambda: deltawobble.run(STICKY, 5)),
                (ValueError, "row 1 has 1 bits, and there are 2 input pins: x, y", lambda: deltawobble.run(STICKY, [[0, 1], [1]])),
                (ValueError, "row 0: a bit is 0 or 1, and here is 2", lambda: deltawobble.run(STICKY, [[0, 2]])),
                (ValueError, "row 0: a bit is 0 or 1, and here is 'x'", lambda: deltawobble.run(STICKY, ["0x"])),
                (ValueError, "the columns x, and the input pins are x, y", lambda: deltawobble.run(STICKY, {"x": [1]})),
                (ValueError, "different lengths: x 1, y 2", lambda: deltawobble.run(STICKY, {"x": [1], "y": [0, 1]})),
                (ValueError, "3 bits are no whole ticks", lambda: deltawobble.run(STICKY, b"\0\1\1")),
                (ValueError, "1 registers, and 2 starts", lambda: deltawobble.run(STICKY, [[0, 0]], [0, 0])),
                (TypeError, "starts are bits", lambda: deltawobble.run(STICKY, [[0, 0]], 1)),
                (ValueError, "the trace has 1 ticks, and 2 are asked for", lambda: deltawobble.run(STICKY, [[0, 0]], ticks=2))):
            with self.assertRaises(error, msg=words) as caught:
                call()
            self.assertIn(words, str(caught.exception))

    def test_8_says_which_limit_and_how_far(self):
        edges = fault_reports.edges()
        for name, words in (("nodes-2049", "the 2,049th node, and 2,048 are the limit."), ("depth-65", "depth 65, and 64 is the limit."),
                            ("size-129", "129 single bits, and 128 are the limit.")):
            with self.assertRaises(Refused) as caught:
                deltawobble.translate(edges[name])
            self.assertIn(words, str(caught.exception))
        # a text is refused before there is a sheet: 34, at the outermost node
        status, _, err = command("make", "-", given=("main = " + "inv (" * 64 + "one" + ")" * 64).encode())
        self.assertEqual(status, 2)
        self.assertIn("-:1:8: a limit is passed here: 80 terms or types in one another, a term 64 deep, 2048 nodes", err)


class Runs(unittest.TestCase):
    ROWS = [[0, 0], [1, 1], [1, 0], [0, 0]]

    def test_forms_of_a_trace(self):
        wanted = deltawobble.run(STICKY, self.ROWS)
        self.assertEqual(wanted["out"], [0, 0, 1, 1])
        for trace in (["00", "11", "10", "00"], ((bool(a), bool(b)) for a, b in self.ROWS), {"y": [0, 1, 0, 0], "x": "0110"}, bytes(sum(self.ROWS, []))):
            self.assertEqual(deltawobble.run(STICKY, trace), wanted)
        self.assertEqual(deltawobble.run(STICKY, self.ROWS, ticks=2).rows, [(0, 0, 0), (1, 1, 0)])
        self.assertEqual(deltawobble.run(STICKY, None, "1", 2)["out"], [1, 1])
        self.assertEqual(deltawobble.run(deltawobble.make("main = zero"), ticks=3).rows, [(0,)] * 3)
        self.assertEqual(deltawobble.run(deltawobble.make("main = fun x : 1. inv x"), [0, 1])["out"], [1, 0])

    def test_what_it_gives(self):
        ran = deltawobble.run(STICKY, self.ROWS)
        self.assertEqual((ran.names, len(ran), ran.columns["x"]), (["x", "y", "out"], 4, [0, 1, 1, 0]))
        self.assertEqual(list(ran), [(0, 0, 0), (1, 1, 0), (1, 0, 1), (0, 0, 1)])
        status, out, _ = command("run", str(STICKY), "-", "--waves", "--starts", "0", given=b"00\n11\n10\n00\n")
        self.assertEqual(ran.waves(), out)
        self.assertEqual(ran.table(), command("run", str(STICKY), "-", "--starts", "0", given=b"00\n11\n10\n00\n")[1])
        self.assertIn("$var wire 1 # out $end", ran.vcd())

    def test_longer_than_a_call(self):
        ran = deltawobble.run(deltawobble.make("main = fun x : 1. fix s : 1. xor x (reg s)"), bytes([1]) + bytes(70000))
        self.assertEqual((len(ran), sum(ran["out"])), (70001, 70001))

    def test_numpy(self):
        numpy = imported(self, "numpy")
        if numpy is None:
            return
        for kind in (int, bool, numpy.uint8):
            self.assertEqual(deltawobble.run(STICKY, numpy.array(self.ROWS, kind))["out"], [0, 0, 1, 1])
        self.assertEqual(deltawobble.run(STICKY, {"x": numpy.array([0, 1]), "y": numpy.zeros(2)})["out"], [0, 1])
        self.assertEqual(deltawobble.run(STICKY, self.ROWS).array().tolist(), [[0, 0, 0], [1, 1, 0], [1, 0, 1], [0, 0, 1]])


class Graphs(unittest.TestCase):
    def test_nodes_and_edges(self):
        net = Netlist.parse(deltawobble.translate(STICKY, lean=True))
        nodes, edges = dict(net.nodes()), net.edges()
        self.assertEqual(sorted(node["kind"] for node in nodes.values()), ["input pin", "input pin", "or", "output pin", "point", "point", "reg", "xor"])
        self.assertEqual(len(edges), len(net.wires) + len(net.pins))
        self.assertTrue(all(a in nodes and b in nodes for a, b, _ in edges))

    def test_networkx(self):
        networkx = imported(self, "networkx")
        if networkx is None:
            return
        net, graph = Netlist.parse(deltawobble.translate(STICKY, lean=True)), networkx.MultiDiGraph()
        graph.add_nodes_from(net.nodes())
        graph.add_edges_from(net.edges())
        self.assertEqual(len(list(networkx.simple_cycles(graph))), 1, "the or's output comes back to it through the register")


class Commands(Folder):
    def test_explain_gives_numbers(self):
        said = json.loads(command("explain", "--json", str(EXAMPLES / "P3.hex"))[1])
        self.assertEqual({key: said["counts"][key] for key in ("nodes", "parts", "wires", "lean_netlist_bytes")}, {"nodes": 6, "parts": 2, "wires": 3, "lean_netlist_bytes": 16})
        self.assertEqual((said["root_type"], said["root_words"]), (0, "1"))

    def test_faults_of_a_notation_are_json_too(self):
        status, out, err = command("explain", "--json", self.path("x.dw", b"main =\n  fun x : 2. x\n"))
        said = json.loads(out)
        self.assertEqual((status, err, said["accepted"], said["line"], said["column"]), (2, "", None, 2, 11))
        self.assertEqual(said["file"], self.path("x.dw"))
        self.assertIn("a type is due", said["wrong"])

    def test_show_writes_a_file(self):
        self.assertEqual(command("show", str(EXAMPLES / "P3.hex"), "-o", self.path("p3.dw")), (0, "", ""))
        self.assertEqual(Path(self.path("p3.dw")).read_text(), command("show", str(EXAMPLES / "P3.hex"))[1])
        self.assertEqual(command("show", str(EXAMPLES / "P3.hex"), "-o", self.path("p3.sheet"))[0], 2)


class Doctests(unittest.TestCase):
    def test_all_modules(self):
        tried = 0
        for module in pkgutil.walk_packages(deltawobble.__path__, "deltawobble."):
            if not module.name.endswith("__main__"):
                result = doctest.testmod(importlib.import_module(module.name), verbose=False)
                self.assertEqual(result.failed, 0, module.name)
                tried += result.attempted
        result = doctest.testmod(deltawobble, verbose=False)
        self.assertEqual((result.failed, result.attempted > 4, tried > 4), (0, True, True))
