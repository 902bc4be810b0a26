"""Damaged sheets, texts, netlists and traces through every subcommand, also with --json: an answer always, and no exception ever."""
from __future__ import annotations

import json
import random
import tempfile
import unittest
from pathlib import Path
from unittest import mock

from deltawobble import calls, cli, period, show
from deltawobble.answer import Refused

from . import generate
from .support import EXAMPLES, command

SIGNS = [b"=", b"#", b"--", b" ", b"\n", b"\r", b"1", b"01", b"0G", b"(", b"main = ", b"\x00", b"\xff", b"\xc3\xa9", b"\xe2\x86\x92", b"2", b",",
         b"fun x : 1. "]


#: texts with parameters, and one that uses a file which is not there
SIZES = [b"delay{0} = fun x : 1. x\ndelay{n + 1} = fun x : 1. reg (delay{n} x)\nmain = fun d : 1. delay{2} d\n",
         b"edition 2\ntype row{0} = 1\ntype row{n + 1} = row{n} * row{n}\ntwo[a, b] = fun f g : a -> b. fun p : a * a. let (x, y) = p in (f x, g y)\n"
         b"both{0} = inv\nboth{n + 1} = two[row{n}, row{n}] both{n} both{n}\nmain = both{2}\n",
         b'use "nowhere.dw"\nmain = zero\n']


def hurt(rng: random.Random, data: bytes) -> bytes:
    """Some bytes of a file left out, put in, or put elsewhere; or the file cut."""
    for _ in range(rng.randrange(4)):
        at, to = sorted(rng.randrange(len(data) + 1) for _ in range(2))
        way = rng.randrange(4)
        if way == 0:
            data = data[:at] + data[at + rng.randrange(1, 4):]
        elif way == 1:
            data = data[:at] + rng.choice(SIGNS) + data[at + rng.randrange(2):]
        elif way == 2:
            data = data[:at] + data[to:] + data[at:to]
        else:
            data = data[:to]
    return data


def net_of(seed: int) -> bytes:
    """A netlist in plain kinds."""
    try:
        return calls.translate(generate.sheet(seed), lean=seed % 4 > 1, plain=True)
    except Refused:
        return b"\x21\x00\x00\x24\x00\x00"


def text_of_sheet(seed: int) -> bytes:
    """A notation."""
    try:
        return show(generate.sheet(seed)).encode()
    except Refused:
        return b"main = fun x : 1. x"


def given(seed: int) -> tuple[str, bytes]:
    """A file's name and its bytes: which kind of file, and what has become of it, the seed says."""
    rng = random.Random(seed)
    kind = rng.choice(["sheet", "sheet", "text", "text", "net", "signs"])
    if kind == "sheet":
        data = generate.damaged(seed)
    elif kind == "text":
        data = hurt(rng, text_of_sheet(seed) if rng.random() < 0.8 else rng.choice(sorted(EXAMPLES.glob("*.dw"))).read_bytes())
    elif kind == "net":
        data = hurt(rng, net_of(seed))
    else:
        data = bytes(rng.choice([9, 10, 13, *range(32, 127)]) for _ in range(rng.randrange(12)))
    if kind != "text" and rng.random() < 0.3:
        data = hurt(rng, data.hex(" ").encode())
    return "given" + rng.choice(["", "", ".txt", ".hex", ".dw", ".sheet", ".net", ".bin"]), data


def trace(seed: int) -> bytes:
    rng = random.Random(seed)
    wide = rng.randrange(5)
    rows = [rng.choice(["", " ", ","]).join(rng.choice("01") for _ in range(wide)) for _ in range(rng.randrange(6))]
    return hurt(rng, "\n".join(rows).encode())


def words_of(seed: int, name: str, out: str) -> list[list[str]]:
    """Every subcommand on a file, with wishes that the seed chooses. The trace comes from standard input."""
    rng = random.Random(seed)
    some = lambda *words: [word for word in words if rng.random() < 0.4]
    number = str(rng.choice([0, 1, 2, 3, 7, 99, -1, 10 ** 12]))
    starts = rng.choice([[], [], ["--starts", rng.choice(["0", "1", "01", "2", "x", ""])]])
    ticks = rng.choice([[], ["--ticks", rng.choice(["0", "3", "-1", "70000", str(10 ** 12)])]])
    return [["listing", name], ["translate", name, *some("--lean", "--plain", "--card")], ["explain", name, *some("--card")],
            ["where", name, number], ["batch", name, str(EXAMPLES / "P3.hex"), *some("--lean"), *rng.choice([[], ["-o", out]])], ["verilog", name],
            ["run", name, "-", *starts, *ticks, *some("--waves", "--period")], ["run", name, "--period", *starts],
            ["run", name, *ticks, *some("--waves")], ["check", name, *some("--lean")], ["back", name, *some("--lean", "--show")],
            ["inline", name, *some("--all", "--show"), *rng.choice([[], ["--node", number]])], ["draw", name, *some("--lean", "--full")],
            ["draw", name, *some("--lean", "--nodes"), *rng.choice([[], ["--depth", number]]), "-o", out + ".svg"],
            ["report", name, *rng.choice([[], ["-"]]), *starts, "-o", out + ".html"], ["show", name], ["make", name], ["registers", name, *some("--all")],
            *searches(rng, name)]


def searches(rng: random.Random, name: str) -> list[list[str]]:
    """The searches, of the first output pin or of the only one."""
    pin = rng.choice([[], ["--pin", "out"], ["--pin", "out.0"], ["--pin", "x"]])
    starts = rng.choice([[], ["--starts", rng.choice(["0", "2", "021", "either", "all=0", "all=either", "x", "3", ""])]])
    other = rng.choice([name, str(EXAMPLES / "P3.hex"), str(EXAMPLES / "sticky.dw")])
    return [["prove", name, *pin, *starts], ["reach", name, *pin, *starts], ["same", name, other, *starts, *rng.choice([[], ["--positions"]])]]


ROWS = b"x,y,out\n0,0,0\n0,1,1\n1,1,x\n# c\n0,1,1\n"
DUMP = (b"$timescale 1 ns $end\n$scope module t $end\n$var wire 1 ! x $end\n$var wire 1 \" y $end\n$var wire 1 c clk $end\n$upscope $end\n"
        b"$enddefinitions $end\n#0\n$dumpvars\n0!\n1\"\n0c\n$end\n#5\n1c\n#10\n0c\n1!\n#15\n1c\n#20\n0c\n")


class Fuzz(unittest.TestCase):
    #: how many files are tried
    COUNT = 100

    def held(self, words: list[str], given_trace: bytes) -> tuple[int, object]:
        """One command, with --json and without: the same status, and something said; the status and the JSON."""
        status, out, err = command(*words, given=given_trace)
        self.assertIn(status, (0, 1, 2))
        self.assertTrue(out or err or words[-2:-1] == ["-o"], "nothing is said, and nothing written")
        again, answer, err = command(*words, "--json", given=given_trace)
        self.assertEqual(again, status)
        if status == 2 and not answer:
            self.assertTrue(err)
            return status, None
        said = json.loads(answer)
        if isinstance(said, dict):
            self.assertIs(said["accepted"], {0: True, 1: False, 2: None}[status])
            # what can never be reached is no refusal
            nowhere = words[0] == "reach" and said.get("never") is True
            self.assertEqual("number" in said and "place" in said, status == 1 and not nowhere)
        return status, said

    def test_every_subcommand(self):
        # of the other two one takes no file, and the other a plan (test_campaign)
        on_sheets = set(cli.COMMANDS) - {"verify", "campaign"}
        self.assertEqual({words[0] for words in words_of(1, "", "")}, on_sheets)
        seen: set[tuple[str, int]] = set()
        with tempfile.TemporaryDirectory() as folder, mock.patch.object(period, "MOST", 1), mock.patch.object(period, "MOST_HIDDEN", 16):
            for seed in range(self.COUNT):
                name, data = given(seed)
                path = Path(folder) / name
                path.write_bytes(data)
                for words in words_of(seed, str(path), folder + "/out"):
                    with self.subTest(words=words, data=data.hex()):
                        seen.add((words[0], self.held(words, trace(seed))[0]))
        self.assertGreaterEqual(len(seen), 3 * len(on_sheets) - 3, seen)

    def test_texts_with_parameters(self):
        seen: set[int] = set()
        with tempfile.TemporaryDirectory() as folder, mock.patch.object(period, "MOST", 1), mock.patch.object(period, "MOST_HIDDEN", 16):
            path = Path(folder) / "given.dw"
            for seed in range(self.COUNT // 2):
                rng = random.Random(seed)
                path.write_bytes(hurt(rng, SIZES[seed % len(SIZES)]))
                for words in words_of(seed, str(path), folder + "/out"):
                    with self.subTest(words=words, data=path.read_bytes()):
                        seen.add(self.held(words, trace(seed))[0])
        self.assertEqual(seen, {0, 1, 2})

    def test_traces(self):
        # damaged rows and dumps: something is said, and no exception
        seen: set[tuple[str, int]] = set()
        with tempfile.TemporaryDirectory() as folder:
            for seed in range(4 * self.COUNT):
                rng = random.Random(seed)
                kind, data = rng.choice([("csv", ROWS), ("vcd", DUMP)])
                path = Path(folder) / ("given." + kind)
                path.write_bytes(hurt(rng, data))
                sampled = rng.choice([["--clock", "clk"], ["--every", "5ns"]]) if kind == "vcd" else []
                words = ["run", str(EXAMPLES / "sticky.dw"), str(path), *sampled, *rng.choice([[], ["--starts", "either"], ["--json"], ["--waves"], ["--show", "s,set"]])]
                with self.subTest(words=words, data=path.read_bytes()):
                    status, out, err = command(*words)
                    self.assertIn(status, (0, 1, 2))
                    self.assertTrue(out or err, "nothing is said")
                    seen.add((kind, status))
        self.assertGreaterEqual(len(seen), 4, seen)

    def test_raw_bytes_have_the_proved_answer(self):
        with tempfile.TemporaryDirectory() as folder:
            path = Path(folder) / "given.bin"
            for seed in range(3 * self.COUNT):
                data = given(seed)[1]
                path.write_bytes(data)
                for name, call in (("translate", calls.translate), ("check", calls.check)):
                    try:
                        call(data)
                        wanted = (True, None, None)
                    except Refused as refused:
                        wanted = (False, refused.number, refused.place)
                    said = json.loads(command(name, "--json", str(path))[1])
                    self.assertEqual((said["accepted"], said.get("number"), said.get("place")), wanted, (name, data))
