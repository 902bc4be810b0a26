"""Every subcommand: what it prints, writes and answers, and bad input."""
from __future__ import annotations

import json
import os
import subprocess
import tempfile
import unittest
from pathlib import Path
from unittest import mock

import deltawobble
from deltawobble import Netlist, calls, cli, files, make
from deltawobble.words import RULES

from .support import EXAMPLES, ROOT, command, example, examples

DESK = str(ROOT / "desk" / "deltawobble")
P3, P4, P6, P8 = (str(EXAMPLES / (name + ".hex")) for name in ("P3", "P4", "P6", "P8"))


class Folder(unittest.TestCase):
    """A test with a folder of its own."""

    def setUp(self):
        self.made = tempfile.TemporaryDirectory()
        self.addCleanup(self.made.cleanup)

    def path(self, name: str, data: bytes | None = None) -> str:
        path = Path(self.made.name) / name
        if data is not None:
            path.write_bytes(data)
        return str(path)


class Listing(unittest.TestCase):
    def test_all_examples_as_they_are_stored(self):
        for name, _, listing in examples():
            status, out, _ = command("listing", str(EXAMPLES / (name + ".hex")))
            self.assertEqual((status, out), (int(listing.startswith("refused")), listing), name)

    def test_json(self):
        self.assertEqual(json.loads(command("listing", "--json", P3)[1])["lean"], ["part zero 4", "part reg 5 6", "wire 4 5", "pin 6"])
        self.assertEqual(json.loads(command("listing", "--json", P8)[1])["number"], 13)


class Translate(Folder):
    def test_lean_and_full_raw_and_hex(self):
        for words, wanted in ((["--plain"], "21000021020022000400220105002304000000230100050023060002002403 00"),
                              (["--plain", "--lean"], "2200040022010500230400050024 0600")):
            raw, text = self.path("net"), self.path("net.hex")
            self.assertEqual(command("translate", *words, P3, "-o", raw)[:2], (0, ""))
            self.assertEqual(Path(raw).read_bytes(), bytes.fromhex(wanted))
            command("translate", *words, P3, "-o", text)
            self.assertEqual(Path(text).read_text(), command("translate", *words, P3)[1])
            from deltawobble.files import read
            self.assertEqual(read(text).bytes, bytes.fromhex(wanted))

    def test_nodes_are_named(self):
        self.assertEqual(command("translate", "--lean", P3)[1].splitlines()[1], "26 01 05 00 05 00  # part reg 5 6, node 5")

    def test_refused(self):
        status, out, err = command("translate", P8)
        self.assertEqual((status, out), (1, ""))
        self.assertIn("refused 13 at node 4", err)

    def test_the_card(self):
        cases = {"main = fun f : 1 -> 1. f zero": 27, "main = fix x : 1. x": 28, "main = let x = inv one in zero": 29}
        for text, number in cases.items():
            status, _, err = command("translate", "--card", "-", given=text.encode())
            self.assertEqual(status, 1, text)
            self.assertIn("refused %d" % number, err)
        self.assertEqual(command("translate", "--card", str(EXAMPLES / "full-adder.hex"))[0], 0)

    def test_29_says_the_part_and_the_node(self):
        status, out, _ = command("explain", "--card", "-", given=b"main = let x = inv one in zero")
        self.assertEqual(status, 1)
        self.assertIn("terminal 4: the part inv, input 3, output 4\nmade by node 4: constant (1A)", out)
        self.assertIn("-:1:16: refused 29", out)

    def test_files_that_are_no_sheet(self):
        self.assertEqual(command("translate", "-", given=bytes(20000))[0], 1)
        self.assertEqual(command("translate", self.path("none"))[0], 2)
        self.assertEqual(command("translate", self.made.name)[0], 2)
        for text in (b"hello be nice\n", b"01 0G 00\n", b"01 1A 0\n"):
            status, _, err = command("translate", "-", given=text)
            self.assertEqual(status, 2, text)
            self.assertIn("is no hex byte", err)

    def test_empty_is_refused_3(self):
        self.assertIn("refused 3", command("translate", "-", given=b"")[2])
        for data in (b"", b"\n", b"# nothing\n"):
            self.assertIn("refused 3", command("translate", self.path("none.hex", data))[2])

    def test_output_that_cannot_be_written(self):
        self.assertEqual(command("translate", P3, "-o", self.path("no") + "/net")[0], 2)


class Forms(Folder):
    """Which files are raw bytes, commented hex and notation (docs/DESK.md)."""

    def test_raw_bytes_that_are_signs_of_a_text_have_their_own_answer(self):
        for data, out in (("20 20 20", "refused 4 0\n"), ("31", "refused 3 1\n"), ("3D", "refused 4 0\n"), ("31 3D", "refused 4 1\n"),
                          ("0A", "refused 4 0\n")):
            for name in ("given", "given.sheet", "given.bin"):
                self.assertEqual(command("listing", self.path(name, bytes.fromhex(data)))[:2], (1, out), (name, data))
            self.assertEqual(command("listing", "-", given=bytes.fromhex(data))[:2], (1, out), data)
        for data in ("23 20 20 20 20", "24 20 20", "24 31 31 24 31 31", "24 20 20 24 31 31"):
            for name in ("given", "given.net", "given.bin"):
                for word in ("check", "back"):
                    self.assertIn("refused 22 at offset 0", command(word, self.path(name, bytes.fromhex(data)))[2], (word, name, data))

    def test_the_name_says_which(self):
        text = b"01 1A 00 00 # zero\n"
        for name in ("x", "x.txt", "x.hex"):
            self.assertEqual(command("listing", self.path(name, text))[1].splitlines()[0], "full", name)
        for name in ("x.sheet", "x.bin", "x.net"):
            self.assertEqual(command("listing", self.path(name, text))[1].splitlines()[0], "refused 4 0", name)
        self.assertIn("no word of the notation", command("listing", self.path("x.dw", text))[2])
        for name in ("y", "y.txt", "y.dw"):
            self.assertEqual(command("listing", self.path(name, b"main\n  = zero\n"))[0], 0, name)
        self.assertIn("is no hex byte", command("listing", self.path("y.hex", b"main = zero\n"))[2])
        self.assertIn("no notation", command("check", self.path("y.dw"))[2])

    def test_a_text_by_its_name_that_is_none(self):
        for name in ("x.hex", "x.dw"):
            status, _, err = command("listing", self.path(name, example("P3")))
            self.assertEqual(status, 2)
            self.assertIn("this is no text", err)
        self.assertIn("no definition of main", command("listing", self.path("x.dw", b""))[2])

    def test_a_text_that_is_neither_says_so(self):
        for text in (b"hello world\n", b"fun x : 1. x\n"):
            status, _, err = command("translate", "-", given=text)
            self.assertEqual(status, 1)
            self.assertIn("look at: all its bytes are signs of a text", err)


class Where(unittest.TestCase):
    def test_element_node_stretch_and_the_nodes_above(self):
        status, out, _ = command("where", P3, "6")
        self.assertEqual((status, out), (0, "terminal 6: the output of the part reg, input 5, output 6\nmade by node 5: constant (1A)\n"
                                            "offset 16: 1A 01 01\nabove it, from the root down:\nnode 0: linear application (16)\n"))
        status, out, _ = command("where", P3, "0")
        self.assertIn("a point, input 0, output 1; not in the lean netlist\nmade by node 1: linear function (15)", out)
        self.assertEqual(json.loads(command("where", "--json", P3, "6")[1])["node"], 5)

    def test_in_a_notation(self):
        out = command("where", str(EXAMPLES / "sticky.dw"), "11")[1]
        self.assertIn("sticky.dw:3:43: node 10\n   3 | sticky = fun set : 1. fix s : 1. or (set, reg s)\n     |                                           ^^^", out)

    def test_wrong(self):
        self.assertEqual(command("where", P3, "99")[0], 2)
        self.assertEqual(command("where", P3, "x")[0], 2)
        self.assertEqual(command("where", P8, "0")[0], 1)


class Batch(Folder):
    def test_a_folder(self):
        status, out, _ = command("batch", str(EXAMPLES))
        count = len([p for p in EXAMPLES.iterdir() if p.suffix in (".hex", ".dw")])
        self.assertEqual(status, 1)
        self.assertIn("%d sheets: " % count, out.splitlines()[-1])
        self.assertRegex(out, r"P8.hex +refused +refused 13 at node 4: ")

    def test_equals_single_calls_and_writes(self):
        good, out = self.path("a.sheet", example("P3")), self.path("out")
        self.assertEqual(command("batch", "--lean", good, P6, "-o", out)[0], 0)
        self.assertEqual(Path(out, "a.net").read_bytes(), calls.translate(example("P3"), lean=True))
        self.assertEqual(Path(out, "P6.net").read_bytes(), calls.translate(example("P6"), lean=True))

    def test_status_and_json(self):
        wrong = self.path("wrong.dw", b"main = \n")
        self.assertEqual(command("batch", P3)[0], 0)
        self.assertEqual(command("batch", P3, P8)[0], 1)
        status, out, _ = command("batch", "--json", P3, wrong, P8)
        self.assertEqual((status, [d["accepted"] for d in json.loads(out)]), (2, [True, None, False]))
        self.assertEqual(command("batch", self.made.name.replace("tmp", "tmp", 1))[0], 2)

    def test_two_sheets_with_one_netlist_are_wrong_use(self):
        os.mkdir(self.path("a"))
        os.mkdir(self.path("b"))
        names, out = [self.path(name, b"01 1A 00 00\n") for name in ("a/x.hex", "b/x.hex", "b/y.hex")], self.path("out")
        status, said, err = command("batch", *names, "-o", out)
        self.assertEqual((status, said, Path(out).exists()), (2, "", False))
        self.assertIn("%s and %s would both be written to" % tuple(names[:2]), err)
        self.assertEqual(command("batch", *names)[0], 0)
        self.assertEqual(command("batch", *names[1:], "-o", out)[0], 0)
        self.assertEqual(sorted(path.name for path in Path(out).iterdir()), ["x.net", "y.net"])

    def test_a_folder_that_is_none(self):
        self.assertEqual(command("batch", P3, "-o", self.path("x", b"kept"))[0], 2)
        self.assertEqual(Path(self.path("x")).read_bytes(), b"kept")
        self.assertIn("only one sheet", command("batch", "-", "-")[2])

    def test_an_empty_folder(self):
        os.mkdir(self.path("empty"))
        status, _, err = command("batch", self.path("empty"))
        self.assertEqual(status, 2)
        self.assertIn("no file .sheet", err)

    def test_ctrl_c_says_what_was_done(self):
        names = [self.path("%02d.sheet" % n, example("P3")) for n in range(40)]
        one, asked = calls.batch, []

        def second_time(*words, **wishes):
            asked.append(1)
            if len(asked) == 2:
                raise KeyboardInterrupt
            return one(*words, **wishes)
        with mock.patch.object(calls, "batch", second_time):
            status, out, err = command("batch", *names)
        self.assertEqual(status, 130)
        self.assertIn("16 sheets: 16 accepted", out)
        self.assertIn("stopped: 16 of 40 sheets were done", err)


#: the lines of an element, by the name of its part; {0}, {1} and {2} are its terminals
FORMS = {"zero": "wire {0};\nassign {0} = 1'b0;\n", "one": "wire {0};\nassign {0} = 1'b1;\n", "point": "wire {0}, {1};\nassign {1} = {0};\n",
         "reg": "wire {0};\nreg {1};\nalways @(posedge clock) {1} <= {0};\n", "inv": "wire {0}, {1};\nnot ({1}, {0});\n",
         **{gate: "wire {0}, {1}, {2};\n%s ({2}, {0}, {1});\n" % gate for gate in ("and", "or", "xor")}}


def module(net: Netlist) -> str:
    """The module of a lean netlist, worked out here (document 02, L1 and L2)."""
    outputs = {element.output for element in net.elements}
    ports = "".join(",\n  %s p%04d" % ("output" if pin in outputs else "input", k) for k, pin in enumerate(net.pins))
    lines = [FORMS[element.name].format(*("t%04d" % t for t in element.terminals)) for element in net.elements]
    lines += ["assign t%04d = t%04d;\n" % (to, source) for source, to in net.wires]
    lines += ["assign p%04d = t%04d;\n" % (k, pin) if pin in outputs else "assign t%04d = p%04d;\n" % (pin, k) for k, pin in enumerate(net.pins)]
    return "module circuit (\n  input clock%s\n);\n%sendmodule\n" % (ports, "".join(lines))


class Verilog(Folder):
    def test_the_examples_to_the_byte(self):
        seen = set()
        for name, sheet, listing in [*examples(), ("one", bytes.fromhex("01 1A 06 00"), "full")]:
            if listing.startswith("full"):
                net = Netlist.parse(calls.translate(sheet, lean=True, plain=True))
                if any(element.part is None and (element.output, element.first) in net.wires for element in net.elements):
                    continue
                self.assertEqual(calls.verilog(sheet), module(net), name)
                seen |= {element.name for element in net.elements}
        self.assertEqual(seen, set(FORMS))

    def test_p3(self):
        status, out, _ = command("verilog", P3)
        self.assertEqual(status, 0)
        self.assertTrue(out.startswith("module ") and out.endswith("endmodule\n"), out)
        command("verilog", P3, "-o", self.path("p3.v"))
        self.assertEqual(Path(self.path("p3.v")).read_text(), out)
        self.assertEqual(json.loads(command("verilog", "--json", P3)[1])["verilog"], out)

    def test_18(self):
        status, _, err = command("verilog", P4)
        self.assertEqual(status, 1)
        self.assertIn("refused 18 at terminal 0", err)


class Check(Folder):
    def test_our_own_are_accepted(self):
        for name, sheet, listing in examples():
            if listing.startswith("full"):
                for lean in (False, True):
                    calls.check(calls.translate(sheet, lean=lean, plain=True), lean=lean)
        status, out, _ = command("check", self.path("net", calls.translate(example("P3"), plain=True)))
        self.assertEqual((status, out), (0, "accepted: 2 points, 2 parts, 3 wires, 1 pins\n"))
        self.assertEqual(command("check", "-", given=b"")[0], 0)

    def test_refused_with_a_word(self):
        for net, words in (("21 00 00 27", "refused 21 at offset 3"), ("21 00", "and 2 are there"), ("22 07 00 00", "parts are 00 to 06"),
                           ("26 00 00 00 00 00", "translate --plain"), ("24 00 00 21 00 00", "refused 22 at offset 0"), ("21 01 00", "refused 22 at offset 0"),
                           ("21 00 00 24 01 00", "refused 23 at terminal 0"), ("21 00 00 24 00 00 24 00 00", "and it is 2 pins"),
                           ("21 00 00 24 00 00 23 01 00 00 00", "elements stand before wires")):
            status, _, err = command("check", "-", given=bytes.fromhex(net))
            self.assertEqual(status, 1, net)
            self.assertIn(words, err, net)
        self.assertEqual(json.loads(command("check", "--json", "-", given=bytes.fromhex("2100"))[1])["number"], 21)


    def test_a_long_netlist(self):
        net = bytes.fromhex("210000 240000") + bytes.fromhex("240100") * 1398200
        self.assertGreater(len(net), 1 << 22)
        status, out, _ = command("check", self.path("long.net", net))
        self.assertEqual((status, out), (0, "accepted: 1 points, 0 parts, 0 wires, 1398201 pins\n"))

    def test_no_more_is_read_than_the_words_say(self):
        with mock.patch.object(files, "MOST", 5):
            status, _, err = command("check", self.path("x.net", bytes(6)))
        self.assertEqual(status, 2)
        self.assertIn("x.net: the desk reads no more than 5 bytes of a file", err)
        self.assertNotIn("no netlist", err)


class Back(Folder):
    def test_there_and_back(self):
        net = self.path("p6.net", calls.translate(example("P6"), lean=True, plain=True))
        status, out, _ = command("back", "--lean", "--show", net)
        self.assertEqual((status, out.splitlines()[-1]), (0, "main = fix p : 1 * 1 * 1. let (x, y, z) = p in (and y z, zero, reg x)"))
        command("back", "--lean", net, "-o", self.path("p6.sheet"))
        again = Netlist.parse(calls.translate(Path(self.path("p6.sheet")).read_bytes(), lean=True))
        self.assertEqual([e.name for e in again.parts], ["and", "zero", "reg"])

    def test_refused(self):
        for net, words in (("21 00 00 24 00 00", "refused 25 at offset 0"), ("", "refused 26"), ("21", "refused 21")):
            status, _, err = command("back", "-", given=bytes.fromhex(net))
            self.assertEqual(status, 1, net)
            self.assertIn(words, err)


class Inline(Folder):
    def test_p3_by_hand(self):
        sheet = self.path("p3.sheet")
        self.assertEqual(command("inline", P3, "-o", sheet)[0], 0)
        self.assertEqual(Path(sheet).read_bytes(), bytes.fromhex("01 030000 040100 14 1A0101 1A0000"))
        self.assertEqual(command("inline", "--show", P3)[1].splitlines()[-1], "main = reg zero")

    def test_binder_numbers_are_adjusted(self):
        text = b"main = fun x : 1. (fun f : 1 -> 1. fun y : 1. let (a, b) = (y, x) in and a (f b)) (fun z : 1. or z x)"
        self.assertEqual(command("inline", "--show", "-", given=text)[1].splitlines()[-1], "main = fun x y : 1. let (z, u) = (y, x) in and z (let v = u in or v x)")

    def test_all_and_one(self):
        chain = str(EXAMPLES / "chain-two.hex")
        self.assertEqual(command("inline", "--all", "--show", chain)[1].splitlines()[-1], "main = fun x : 1. inv (reg x)")
        self.assertEqual(json.loads(command("inline", "--json", "--node", "1", chain)[1])["put_in"], [1])

    def test_the_runs_are_the_same(self):
        sheet = example("chain-two")
        from deltawobble.inline import put_in
        for start in (b"\0", b"\1"):
            self.assertEqual(calls.run(sheet, b"\0\1\1\0", start, 4), calls.run(put_in(sheet, 1), b"\0\1\1\0", start, 4))

    def test_a_sheet_on_the_way_beyond_the_limits(self):
        # f's argument put in first stands 66 deep, and 64 in the end, when g's has been put in too; in the other order no sheet is too deep
        inverters = "inv (" * 30 + "%s" + ")" * 30
        text = "main = (fun f : 1 -> 1. %s) (fun y : 1. (fun g : 1 -> 1. %s) reg)" % (inverters % "f zero", inverters % "g y")
        status, out, err = command("inline", "--all", "-", given=text.encode())
        self.assertEqual((status, out), (1, ""))
        self.assertIn("-, step 1, node 0 put in: refused 8 at offset ", err)
        said = json.loads(command("inline", "--all", "--json", "-", given=text.encode())[1])
        self.assertEqual((said["accepted"], said["number"], said["put_in"]), (False, 8, [0]))
        said = json.loads(command("inline", "--all", "--node", "66", "--json", "-", given=text.encode())[1])
        self.assertEqual((said["accepted"], said["put_in"]), (True, [66, 0]))

    def test_the_help_says_what_is_proved_and_what_is_tested(self):
        said = " ".join(command("inline", "--help")[1].split())
        self.assertIn("that this is harmless is proved, for first-edition sheets; the rewriting done here is tested", said)

    def test_each_sheet_on_the_way_is_asked_for(self):
        asked, one = [], calls.translate

        def noted(sheet, **wishes):
            asked.append(sheet)
            return one(sheet, **wishes)
        with mock.patch.object(calls, "translate", noted):
            said = json.loads(command("inline", "--all", "--json", str(EXAMPLES / "chain-two.hex"))[1])
        self.assertEqual(len(said["put_in"]), 2)
        self.assertEqual((len(set(asked)), asked[-1].hex()), (3, said["sheet"]))

    def test_json_and_a_file(self):
        said = json.loads(command("inline", "--json", P3, "-o", self.path("p3.sheet"))[1])
        self.assertEqual(said["sheet"], Path(self.path("p3.sheet")).read_bytes().hex())

    def test_wrong(self):
        self.assertEqual(command("inline", P6)[0], 2)
        self.assertEqual(command("inline", "--node", "4", P3)[0], 2)
        self.assertEqual(command("inline", P8)[0], 1)
        self.assertIn("second-edition", command("inline", "-", given=make("edition 2 main = let f = reg in f zero").sheet)[2])


class Everywhere(unittest.TestCase):
    def test_help_shows_an_example(self):
        self.assertEqual(command("--help")[0], 0)
        for name in cli.COMMANDS:
            status, out, _ = command(name, "--help")
            self.assertEqual(status, 0)
            self.assertIn("example:\n  deltawobble ", out, name)

    def test_wrong_use_is_2(self):
        for words in ([], ["nothing"], ["listing"], ["translate", "--no", P3], ["where", P3]):
            self.assertEqual(command(*words)[0], 2, words)

    def test_no_colour_in_a_file(self):
        for words in (["explain", P8], ["explain", P3], ["translate", P8]):
            self.assertNotIn("\033", "".join(command(*words)[1:]))

    def test_a_closed_pipe(self):
        with subprocess.Popen([DESK, "listing", str(EXAMPLES / "bitonic-sorter-8.hex")], stdout=subprocess.PIPE, stderr=subprocess.PIPE) as run:
            run.stdout.close()
            said = run.stderr.read()
            self.assertEqual((run.wait(), said), (141, b""))

    def test_json_is_alone_on_standard_output(self):
        for words in (["translate", P3, "-o", "-"], ["verilog", P3, "-o", "-"], ["run", P3, "--ticks", "1", "--vcd", "-"]):
            self.assertEqual(command(*words, "--json")[:2], (2, ""), words)

    def test_output_that_nobody_takes(self):
        with open("/dev/full", "wb") as full:
            run = subprocess.run([DESK, "listing", P3], stdout=full, stderr=subprocess.PIPE)
        self.assertEqual(run.returncode, 2)
        self.assertNotIn(b"Traceback", run.stderr)

    def test_signs_that_a_terminal_has_not(self):
        for words, given, status in ((["explain", "-"], "main = fun f : 1 → 1. one", 1), (["batch", b"none-\xff.hex"], "", 2)):
            run = subprocess.run([DESK, *words], input=given.encode(), env=dict(os.environ, PYTHONIOENCODING="ascii"), capture_output=True)
            self.assertEqual((run.returncode, b"Traceback" in run.stderr, run.stdout[-1:]), (status, False, b"\n"), run.stderr)

    def test_every_number_has_a_sentence(self):
        self.assertEqual(sorted(RULES), [*range(1, 38), *range(40, 46)])
        for number in RULES:
            self.assertIn(RULES[number], str(deltawobble.Refused(number, 5)))

    def test_the_package_says_what_it_is(self):
        for name in deltawobble.__all__:
            self.assertTrue(getattr(deltawobble, name).__doc__, name)

    def test_as_a_module(self):
        run = subprocess.run(["python3", "-m", "deltawobble", "listing", P3], env=dict(os.environ, PYTHONPATH=str(ROOT / "desk" / "package")), capture_output=True, text=True)
        self.assertEqual((run.returncode, run.stdout), (0, (EXAMPLES / "P3.listing").read_text()))
