"""run: traces, tables, waves, value change dumps; and the circuits of the examples do what they are for."""
from __future__ import annotations

import json
import random
import shlex
import shutil
import subprocess
import tempfile
import unittest
from pathlib import Path

from deltawobble import calls, make
from deltawobble.files import read
from deltawobble.trace import Run, period_of
from deltawobble.vcd import vcd

from .support import EXAMPLES, ROOT, command

ADDER = str(EXAMPLES / "full-adder.dw")


def read_vcd(text: str) -> tuple[dict[str, str], int]:
    """A small reader: for each wire its bits as a string, and how many ticks there are."""
    words = iter(text.split())
    names: dict[str, str] = {}
    now: dict[str, str] = {}
    bits: dict[str, str] = {}
    time = None
    for word in words:
        if word == "$var":
            _, _, code, name = (next(words) for _ in range(4))
            names[code], bits[code] = name, ""
        elif word in ("$comment", "$timescale", "$scope"):
            while next(words) != "$end":
                pass
        elif word.startswith("#"):
            if time is not None and now:
                for code in names:
                    bits[code] += now[code] * (int(word[1:]) - time)
            time = int(word[1:])
        elif word[0] in "01" and word[1:] in names:
            now[word[1:]] = word[0]
        elif word[0] == "b":
            now[next(words)] = word[1:] + " "
    return {names[code]: bits[code] for code in names}, time


class Traces(unittest.TestCase):
    def test_a_dump_is_read_back(self):
        rng = random.Random(2)
        for pins in (1, 3, 120):
            names = ["i%d" % i for i in range(pins)] + ["o", "q"]
            run = Run(names[:-2], names[-2:], [bytes(rng.randrange(2) for _ in range(30)) for _ in names], 30)
            found, ticks = read_vcd(b"".join(vcd(iter([run]), names)).decode())
            self.assertEqual(ticks, 30)
            self.assertEqual(found, {name: "".join(map(str, bits)) for name, bits in run.signals})
        self.assertEqual(read_vcd(b"".join(vcd(iter([]), ["a"])).decode())[1], 0)

    def test_waves_go_on_below(self):
        run = Run(["x"], ["out"], [b"\1" * 25, bytes(25)], 25)
        self.assertEqual(len(run.waves(16)), 3 * 3 + 2)


class Running(unittest.TestCase):
    def given(self, text: str, *words: str) -> tuple[int, str, str]:
        return command("run", ADDER, "-", *words, given=text.encode())

    def test_stored_runs(self):
        for path in sorted(EXAMPLES.glob("*.run")):
            for block in path.read_text().split("$ desk/deltawobble ")[1:]:
                line, _, wanted = block.partition("\n")
                words = [str(ROOT / word) if word.startswith("examples/") else word for word in shlex.split(line)]
                self.assertEqual(command(*words)[:2], (0, wanted), line)

    def test_table_and_json(self):
        self.assertEqual(self.given("a,b,c\r\n1,1,0\r\n\r\n1,1,1\r\n")[:2], (0, "tick  a b c | out.0 out.1\n   0  1 1 0 |     0     1\n   1  1 1 1 |     1     1\n"))
        self.assertEqual(json.loads(self.given("110\n", "--json")[1])["ticks"], [[[1, 1, 0], [0, 1]]])

    def test_no_tick_at_all(self):
        for text in ("", "\n", "# nothing\n", "a b c\n"):
            status, out, err = self.given(text)
            self.assertEqual((status, out), (2, ""), text)
            self.assertIn("-: the trace has no tick", err)
        self.assertEqual(command("run", ADDER, "--ticks", "0")[:2], (0, "tick  a b c | out.0 out.1\n"))

    def test_bad_traces(self):
        status, _, err = self.given("110\n112\n")
        self.assertEqual(status, 1)
        self.assertIn("refused 20", err)
        self.assertIn("-:2: a bit is 0 or 1, and here is a 2", err)
        for text, words in (("11\n", "-:1: 2 bits, and there are 3 input pins"), ("110\n1\n", "-:2: 1 bit, and"), ("110\n1a0\n", "-:2:2: 'a' is no bit")):
            status, _, err = self.given(text)
            self.assertEqual(status, 2, text)
            self.assertIn(words, err)
        self.assertEqual(command("run", ADDER, "-", given=b"\x00\xff")[0], 2)
        self.assertEqual(command("run", ADDER)[0], 2)
        self.assertEqual(command("run", "-", "-")[0], 2)
        status, _, err = command("run", ADDER, "--ticks", "-5")
        self.assertEqual((status, err), (2, "deltawobble: --ticks takes 0 or more, and not -5\n"))

    def test_bad_starts(self):
        sticky = str(EXAMPLES / "sticky.dw")
        for starts, status in (("1", 0), ("", 1), ("01", 1), ("2", 1), ("x", 2)):
            self.assertEqual(command("run", sticky, "--ticks", "2", "--starts", starts)[0], status, starts)
        self.assertIn("registers start with 0", command("run", sticky, "--ticks", "2")[2])

    def test_a_ring_without_a_register(self):
        status, _, err = command("run", str(EXAMPLES / "P4.hex"), "--ticks", "3")
        self.assertEqual(status, 1)
        self.assertIn("refused 19 at terminal 0", err)
        ring = "main = fix x : 1. inv (inv x)"
        pointed = "-:1:19: refused 19 at terminal 2: a ring without a register\n   1 | %s\n     | %s\n" % (ring, " " * 18 + "^^^")
        self.assertEqual(command("run", "-", "--ticks", "3", given=ring.encode()), (1, "", pointed))
        status, _, err = command("run", "-", "--ticks", "3", given=make(ring).sheet)
        self.assertEqual(status, 1)
        self.assertIn("look at: the ring inv 2 -> inv 4 -> inv 2\n", err)

    def test_the_dump_of_a_run(self):
        with tempfile.TemporaryDirectory() as folder:
            path = Path(folder) / "run.vcd"
            self.assertEqual(self.given("000\n011\n111\n", "--vcd", str(path))[0], 0)
            self.assertEqual(read_vcd(path.read_text())[0], {"a": "001", "b": "011", "c": "011", "out": "00 10 11 "})
            if shutil.which("vcd2fst"):
                subprocess.run(["vcd2fst", str(path), str(path) + ".fst"], check=True, capture_output=True)

    def test_period(self):
        lfsr = str(EXAMPLES / "lfsr-16.dw")
        self.assertIn("period 65535:", command("run", lfsr, "--starts", "0000000000000001", "--period")[1])
        self.assertIn("period 1:", command("run", lfsr, "--period")[1])
        self.assertIn("period 255:", command("run", str(EXAMPLES / "shift-register-8.hex"), "--ticks", "600", "--starts", "10000000", "--period")[1])

    def test_period_says_the_starts_and_the_ticks_looked_through(self):
        lfsr = str(EXAMPLES / "lfsr-16.dw")
        note = "registers start with 0"
        self.assertIn(note, command("run", lfsr, "--period")[2])
        self.assertNotIn(note, command("run", lfsr, "--period", "--starts", "0" * 16)[2])
        self.assertNotIn(note, command("run", ADDER, "--period")[2])
        said = json.loads(command("run", lfsr, "--period", "--json", "--starts", "0000000000000001")[1])
        self.assertEqual((said["accepted"], said["period"], said["looked"], said["starts"]), (True, 65535, 65535, [0] * 15 + [1]))
        status, out, _ = command("run", "-", "--period", given=b"main = reg one")
        self.assertEqual((status, out), (0, "no period found: in the 1048576 ticks looked through the registers do not show their starts again\n"))
        said = json.loads(command("run", "-", "--ticks", "7", "--period", "--json", "--starts", "1", given=b"main = fix x : 1. reg (inv x)")[1])
        self.assertEqual((said["period"], said["looked"], len(said["ticks"])), (2, 7, 7))
        self.assertIn("in the 7 ticks looked through", said["words"])

    def test_period_alone_draws_nothing(self):
        for more in (["--waves"], ["--vcd", "none.vcd"]):
            self.assertEqual(command("run", str(EXAMPLES / "lfsr-16.dw"), "--period", *more)[0], 2)
        self.assertIn("\ntick", command("run", str(EXAMPLES / "sticky.dw"), "--ticks", "3", "--period", "--waves")[1])

    def test_the_period_is_the_smallest(self):
        rng = random.Random(4)
        for _ in range(300):
            bits = bytes(rng.randrange(2) for _ in range(rng.randrange(1, 9))) * rng.randrange(1, 4)
            bits = bits[:rng.randrange(1, len(bits) + 1)]
            wanted = next((p for p in range(1, len(bits)) if all(bits[t] == bits[t % p] for t in range(len(bits)))), None)
            self.assertEqual(period_of(bits).ticks, wanted, bits)

    def test_ticks_and_a_trace(self):
        self.assertEqual(len(json.loads(self.given("110\n111\n000\n", "--ticks", "2", "--json")[1])["ticks"]), 2)
        status, _, err = self.given("110\n111\n", "--ticks", "3")
        self.assertEqual(status, 2)
        self.assertIn("-: the trace has 2 ticks, and --ticks asks for 3", err)
        self.assertEqual(self.given("110\n", "--ticks", "-1")[0], 2)
        self.assertEqual(self.given("000\n" * 65536, "--ticks", "1")[0], 0)
        self.assertIn("the first N of the trace", " ".join(command("run", "--help")[1].split()))

    def test_a_long_trace(self):
        wide = "fun x : t. x".join(["type t = " + " * ".join("1" * 64) + "\nmain = ", ""])
        with tempfile.TemporaryDirectory() as folder:
            path = Path(folder) / "long.trace"
            path.write_text(("0" * 64 + "\n") * 65535)
            self.assertGreater(path.stat().st_size, 1 << 22)
            self.assertEqual(command("run", "-", str(path), "--period", given=wide.encode())[0], 0)

    def test_no_period_of_what_may_not_run(self):
        for sheet, more, number in (("P4.hex", [], 19), ("sticky.dw", ["--starts", "2"], 20)):
            status, _, err = command("run", str(EXAMPLES / sheet), *more, "--period")
            self.assertEqual(status, 1, sheet)
            self.assertIn("refused %d" % number, err)


class Examples(unittest.TestCase):
    def bits(self, name: str, rows: list[list[int]], registers: int = 0) -> bytes:
        return calls.run(read(str(EXAMPLES / (name + ".dw"))).bytes, bytes(b for row in rows for b in row), bytes(registers), len(rows))

    def test_the_sorter_sorts_all_256(self):
        rows = [[n >> k & 1 for k in range(8)] for n in range(256)]
        self.assertEqual(self.bits("bitonic-sorter-8", rows), bytes(b for row in rows for b in sorted(row)))

    def test_the_adder_adds(self):
        rng = random.Random(1)
        for _ in range(50):
            x, y = rng.randrange(1 << 30), rng.randrange(1 << 30)
            out = self.bits("serial-adder", [[x >> k & 1, y >> k & 1] for k in range(32)], 1)
            self.assertEqual(sum(b << k for k, b in enumerate(out)), x + y)

    def test_the_accumulator_sums(self):
        rng = random.Random(1)
        words = [rng.randrange(256) for _ in range(40)]
        out = self.bits("accumulator", [[w >> k & 1, int(k == 0)] for w in words for k in range(8)], 9)
        self.assertEqual([sum(out[8 * i + k] << k for k in range(8)) for i in range(40)], [sum(words[:i + 1]) % 256 for i in range(40)])

    def test_sticky_stays(self):
        self.assertEqual(list(self.bits("sticky", [[0, 0], [1, 0], [1, 1], [0, 0]], 1)), [0, 1, 1, 1])


class Notations(unittest.TestCase):
    def test_the_notation_of_an_example_makes_its_bytes(self):
        stored = sorted(EXAMPLES.glob("*.dw"))
        self.assertGreaterEqual(len(stored), 29)
        for path in stored:
            self.assertEqual(read(str(path)).bytes, read(str(path.with_suffix(".hex"))).bytes, path.name)

    def test_every_accepted_example_has_one(self):
        for path in EXAMPLES.glob("*.listing"):
            self.assertEqual(path.read_text().startswith("full"), path.with_suffix(".dw").exists(), path.name)
