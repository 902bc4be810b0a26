"""What a person hands in and where it goes: outputs that are no inputs, names that say the format, faults that leave the old file, closed streams."""
from __future__ import annotations

import json
import os
import resource
import signal
import subprocess
import sys
import tempfile
import unittest
from pathlib import Path

from deltawobble.files import read

from .support import EXAMPLES, ROOT, command, unshielded

DESK = [sys.executable, str(ROOT / "desk" / "deltawobble")]
STICKY = (EXAMPLES / "sticky.dw").read_text()


class Outputs(unittest.TestCase):
    def setUp(self):
        held = tempfile.TemporaryDirectory()
        self.addCleanup(held.cleanup)
        self.folder = Path(held.name)
        self.sheet = self.folder / "a.dw"
        self.sheet.write_text(STICKY)
        self.trace = self.folder / "t.csv"
        self.trace.write_text("x,y\n0,0\n1,0\n")

    def wrong(self, said: str, *words: str) -> None:
        before = {path.name: path.read_bytes() for path in self.folder.iterdir() if path.is_file()}
        status, out, err = command(*words)
        self.assertEqual((status, out), (2, ""), words)
        self.assertIn(said, err)
        self.assertEqual({path.name: path.read_bytes() for path in self.folder.iterdir() if path.is_file()}, before)

    def test_no_output_is_an_input(self):
        a, t = str(self.sheet), str(self.trace)
        link = self.folder / "link.dw"
        link.symlink_to(self.sheet)
        os.link(self.sheet, self.folder / "hard")
        for words in (["make", a, "-o", a], ["verilog", a, "-o", a], ["run", a, "--ticks", "1", "--vcd", a], ["translate", a, "-o", a], ["inline", a, "-o", a],
                      ["run", a, t, "--vcd", t], ["run", a, t, "--state-out", t], ["draw", a, "-o", a], ["verilog", a, "--testbench", t, "-o", t]):
            self.wrong("read here", *words)
        self.wrong("is the same file as", "make", a, "-o", str(link))
        self.wrong("is the same file as", "make", a, "-o", str(self.folder / "hard"))
        self.wrong("read here", "make", a, "-o", "%s/../%s/a.dw" % (self.folder, self.folder.name))

    def test_two_outputs_into_one(self):
        self.wrong("two things would be written to it", "run", str(self.sheet), "--ticks", "1", "--vcd", str(self.folder / "o"), "--state-out", str(self.folder / "o"))

    def test_a_batch_keeps_its_sheets(self):
        net = self.folder / "b.net"
        net.write_bytes(read(str(self.sheet)).bytes)
        self.wrong("read here", "batch", str(net), "-o", str(self.folder))

    def test_an_ending_says_the_format(self):
        a = str(self.sheet)
        for words, said in ((["inline", a, "-o", "x.dw"], "the name says a text in the notation"), (["make", a, "-o", "x.net"], "a netlist"),
                            (["translate", a, "-o", "x.sheet"], "the name says a sheet"), (["verilog", a, "-o", "x.vcd"], "a value change dump"),
                            (["run", a, "--ticks", "1", "--vcd", "x.csv"], "a trace"), (["run", a, "--ticks", "1", "--state-out", "x.vcd"], "a value change dump"),
                            (["back", a, "-o", "x.DW"], "a text in the notation")):
            self.wrong(said, *words[:-1], str(self.folder / words[-1]))
        for name in ("x.sheet", "x.hex", "x.bin", "x", "x.out"):
            self.assertEqual(command("make", a, "-o", str(self.folder / name))[0], 0, name)

    def test_a_fault_leaves_the_old_file(self):
        sheet = str(EXAMPLES / "bitonic-sorter-8.hex")
        old = self.folder / "old.v"
        old.write_text("old")
        for limit in (0, 1000):
            done = subprocess.run([*DESK, "verilog", sheet, "-o", str(old)], capture_output=True, text=True,
                                  preexec_fn=lambda: resource.setrlimit(resource.RLIMIT_FSIZE, (limit, limit)))
            self.assertEqual((done.returncode, "Traceback" in done.stderr), (2, False))
            self.assertIn("old.v: File too large", done.stderr)
            self.assertEqual((old.read_text(), sorted(path.name for path in self.folder.iterdir())), ("old", ["a.dw", "old.v", "t.csv"]))

    def test_a_new_file_keeps_what_the_old_was(self):
        old, link = self.folder / "old.sheet", self.folder / "link.sheet"
        old.write_bytes(b"")
        old.chmod(0o640)
        link.symlink_to(old)
        self.assertEqual(command("make", str(self.sheet), "-o", str(link))[0], 0)
        self.assertTrue(link.is_symlink())
        self.assertEqual((old.read_bytes(), old.stat().st_mode & 0o777), (read(str(self.sheet)).bytes, 0o640))
        self.assertEqual(command("make", str(self.sheet), "-o", os.devnull)[0], 0)
        self.assertFalse(Path(os.devnull).is_file())

    def test_a_folder_that_is_none(self):
        self.wrong("No such file or directory", "make", str(self.sheet), "-o", str(self.folder / "none" / "x.sheet"))


class Streams(unittest.TestCase):
    def closed(self, redirection: str, *words: str) -> subprocess.CompletedProcess:
        line = '"$@" ' + redirection
        return subprocess.run(["bash", "-c", line, "bash", *DESK, *words], capture_output=True, text=True, stdin=subprocess.DEVNULL)

    def test_closed(self):
        sheet, cut = str(EXAMPLES / "P3.hex"), str(EXAMPLES / "fault-cut.hex")
        for redirection, words, status in (
                (">&-", ["listing", sheet], 2), (">&-", ["--help"], 2), ("2>&-", ["listing", sheet], 0), ("2>&-", ["listing", "no file"], 2), ("2>&-", ["explain", cut], 1),
                ("<&-", ["listing", "-"], 2), ("<&- >&- 2>&-", ["run", sheet, "--ticks", "2"], 2), (">/dev/full", ["listing", sheet], 2),
                ("2>/dev/full", ["listing", "no file"], 2), (">/dev/full 2>/dev/full", ["run", sheet, "--ticks", "2"], 2), (">&- 2>&-", [], 2)):
            done = self.closed(redirection, *words)
            self.assertEqual((done.returncode, "Traceback" in done.stderr), (status, False), (redirection, words, done.stderr))

    def test_a_file_is_no_stream(self):
        with tempfile.TemporaryDirectory() as folder:
            path = Path(folder) / "x.sheet"
            done = self.closed("2>&-", "make", str(EXAMPLES / "P3.dw"), "-o", str(path))
            self.assertEqual((done.returncode, path.read_bytes()), (0, read(str(EXAMPLES / "P3.dw")).bytes))

    def test_an_interrupt_while_modules_are_loaded(self):
        for wait in (0.01, 0.06, 0.2):
            with subprocess.Popen([sys.executable, "-I", "-S", "-c", WAITING % (wait, str(ROOT / "desk" / "deltawobble"))], stdout=subprocess.PIPE, stderr=subprocess.PIPE, text=True, preexec_fn=unshielded) as process:
                out, err = process.communicate(timeout=60)
            self.assertEqual((process.returncode, "Traceback" in err), (130, False), err)

    def test_a_shielded_command_goes_on(self):
        # a shell starts what runs behind it with SIGINT ignored
        program = WAITING % (0.06, str(ROOT / "desk" / "deltawobble"))
        done = subprocess.run([sys.executable, "-I", "-S", "-c", program], capture_output=True, text=True, preexec_fn=lambda: signal.signal(signal.SIGINT, signal.SIG_IGN))
        self.assertEqual((done.returncode, done.stdout.startswith("usage: deltawobble")), (0, True), done.stderr)


#: the desk's own script in a process that interrupts itself after a while, with an import that takes longer
WAITING = """
import os, signal, threading, time, sys, runpy
timer = threading.Timer(%r, lambda: os.kill(os.getpid(), signal.SIGINT))
class Slow:
    def find_spec(self, name, path=None, target=None):
        if name == "deltawobble":
            timer.start()
        if name.startswith("deltawobble."):
            time.sleep(0.05)
sys.meta_path.insert(0, Slow())
sys.argv = ["deltawobble", "--help"]
runpy.run_path(%r, run_name="__main__")
"""


class Texts(unittest.TestCase):
    def test_a_long_text_is_refused_by_its_length(self):
        status, _, err = command("listing", "-", given=b"main = " + b"(" * 3000000)
        self.assertEqual((status, err), (2, "deltawobble: -: a text in the notation has at most 65535 bytes, and this one has 3000007\n"))

    def test_definitions_that_main_does_not_use(self):
        for text, said in (("f = foo\nmain = reg one", "-:1:5: foo is not defined"), ("f = reg reg\nmain = reg one", "refused 12 at node 0"),
                           ("f = g\ng = one\nmain = reg one", "g is not defined above"), ("f = fun x : 1 -> 1. one\nmain = reg one", "refused 14")):
            status, out, err = command("listing", "-", given=text.encode())
            self.assertEqual((status, out), (2, ""), text)
            self.assertIn(said, err)
        self.assertEqual(command("listing", "-", given=b"f = fun x : 1. x\nmain = reg one")[0], 0)

    def test_two_wires_of_one_name(self):
        text = b"main = fun x_0 : 1. fun x : 1 * 1. let (a, b) = x in (x_0, a)"
        status, out, _ = command("run", "-", "--ticks", "1", "--vcd", "-", given=text)
        names = [line.split()[4] for line in out.splitlines() if line.startswith("$var")]
        self.assertEqual((status, len(set(names))), (0, len(names)))


class Starts(unittest.TestCase):
    COMPARATOR = str(EXAMPLES / "comparator-divergence.dw")

    def starts(self, word: str, sheet: str = COMPARATOR) -> list[int]:
        status, out, err = command("run", sheet, "--ticks", "1", "--starts", word, "--json")
        self.assertEqual(status, 0, err)
        return json.loads(out)["starts"]

    def test_by_name(self):
        for word, wanted in (("10", [1, 0]), ("greater=1", [1, 0]), ("old=1", [0, 1]), ("diverged=1", [0, 1]), ("32=1", [0, 1]), ("reg@16=1", [1, 0]), ("all=1", [1, 1]),
                             ("all=1,old=0", [1, 0]), ("old=0,all=1", [1, 0]), ("s.1=1", [0, 1]), ("s=1", [1, 1]), ("greater=1, old=1", [1, 1])):
            self.assertEqual(self.starts(word), wanted, word)

    def test_names_that_are_none(self):
        for word, said in (("q=1", "no register is called q: they are greater, old"), ("old=2", "is no NAME=0 or NAME=1"), ("old=", "is no NAME"), ("=1", "no register is called"),
                           ("old=1,old=0", "start with 0 and with 1"), ("old", "--starts takes bits")):
            status, _, err = command("run", self.COMPARATOR, "--ticks", "1", "--starts", word)
            self.assertEqual(status, 2, word)
            self.assertIn(said, err)

    def test_registers_are_listed(self):
        status, out, _ = command("registers", self.COMPARATOR)
        self.assertEqual((status, out), (0, "register  terminal  node  place  name     also\n       0        16    14  7:8    greater  reg@16, s.0\n"
                                            "       1        32    38  5:13   old      reg@32, diverged, s.1\n"))
        self.assertEqual(command("registers", str(EXAMPLES / "full-adder.hex"))[:2], (0, "no registers\n"))
        self.assertIn("   30  differ\n", command("registers", "--all", self.COMPARATOR)[1])

    def test_either(self):
        # out.1 is 'or old differ': it depends on the start as long as x and y have not differed, which they do at tick 2 first
        status, out, _ = command("run", self.COMPARATOR, "-", "--starts", "either", given=b"00\n11\n10\n00\n")
        self.assertEqual((status, out), (0, "4 ticks with all 4 starts of the 2 registers:\nout.0: depends on the starts to the last tick, at 4 of 4 ticks\n"
                                            "out.1: the same for all of them from tick 2 on; before that it depends on them at 2 ticks\n"))
        out = command("run", str(EXAMPLES / "full-adder.hex"), "--ticks", "3", "--starts", "either")[1]
        self.assertIn("out.0: the same for all of them at every tick", out)
        self.assertIn("16 of 2^16 starts, which tell nothing sure of the others", command("run", str(EXAMPLES / "lfsr-16.dw"), "--ticks", "3", "--starts", "either")[1])
        # eight registers in a row: each start is gone after so many ticks
        row = b"main = fun x : 1. " + b"reg (" * 7 + b"reg x" + b")" * 7
        self.assertIn("out: the same for all of them from tick 8 on; before that it depends on them at 8 ticks",
                      command("run", "-", "--ticks", "20", "--starts", "either", given=row)[1])

    def test_random_is_repeatable_and_said(self):
        once, again, other = (command("run", self.COMPARATOR, "--random", seed, "--ticks", "50", "--starts", "00") for seed in ("1", "1", "2"))
        self.assertEqual(once, again)
        self.assertNotEqual(once[1], other[1])
        self.assertIn("(random inputs with the seed 1)", once[2])
        for words in (["--random", "1"], ["--random", "1", "--ticks", "2", "-"]):
            self.assertEqual(command("run", self.COMPARATOR, *words)[0], 2)


class Inside(unittest.TestCase):
    COMPARATOR = str(EXAMPLES / "comparator-divergence.dw")

    def test_by_hand(self):
        # x 0 1 1, y 0 0 1: differ is 0 1 0, old one tick behind 'or old differ', 0 0 1
        status, out, _ = command("run", self.COMPARATOR, "-", "--starts", "00", "--waves", "--show", "differ,old", given=b"00\n10\n11\n")
        self.assertEqual((status, out), (0, "  tick  0\n     x  ▁▔▔\n     y  ▁▁▔\n out.0  ▁▔▔\n out.1  ▁▔▔\ndiffer  ▁▔▁\n   old  ▁▁▔\n"))
        self.assertIn(" s [1:0] $end", command("run", self.COMPARATOR, "--ticks", "2", "--show", "old,s", "--vcd", "-")[1])

    def test_what_is_not_there(self):
        status, _, err = command("run", self.COMPARATOR, "--ticks", "1", "--show", "nothing")
        self.assertEqual(status, 2)
        self.assertIn("nothing inside is called nothing: there are x, y", err)

    def test_every_net(self):
        # what is worked out here is held against the proved call's pins at each tick, by the command itself
        for name in ("accumulator", "ripple-adder-8", "lfsr-16", "bitonic-sorter-8", "shift-register-8"):
            nets = json.loads(command("registers", "--all", "--json", str(EXAMPLES / (name + ".dw")))[1])["nets"]
            self.assertEqual(command("run", str(EXAMPLES / (name + ".dw")), "--random", "3", "--ticks", "40", "--starts", "all=1", "--show", ",".join(nets))[0], 0, name)

    def test_outputs_named_in_the_text(self):
        text = b"-- outputs: sum, carry\nmain = fun x y : 1. (xor x y, and x y)"
        self.assertEqual(command("run", "-", "--ticks", "1", given=text)[1].splitlines()[0], "tick  x y | sum carry")
        for bad, said in ((b"-- outputs: sum\n", "1 outputs are named, and there are 2"), (b"-- outputs: x, y\n", "two pins would be called x"), (b"-- outputs: a, 2b\n", "'2b' is no name")):
            status, _, err = command("run", "-", "--ticks", "1", given=bad + text.split(b"\n")[1])
            self.assertEqual(status, 2)
            self.assertIn(said, err)
