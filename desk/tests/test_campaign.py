"""Campaigns: plans and their faults, results held against single calls, what is expected, campaigns that are broken off."""
from __future__ import annotations

import errno
import hashlib
import json
import os
import random
import shutil
import signal
import subprocess
import time
import unittest
from concurrent.futures import CancelledError
from pathlib import Path
from unittest import mock

import deltawobble
from deltawobble import WrongUse, calls, campaign, cli, jobs, make
from deltawobble.plan import line_of, read_plan
from deltawobble.workers import Dask, Lost

from .support import EXAMPLES, ROOT, command, with_library
from .test_commands import DESK, Folder

STICKY = (EXAMPLES / "sticky.dw").read_bytes()
#: as sticky, but its bit comes a tick late
LATE = b"edition 2 main = fun x : 1. fun y : 1. (fun set : 1. fix s : 1. or (reg set, reg s)) (xor (x, y))\n"


class Planned(Folder):
    """A folder with sheets, traces and a plan."""

    def plan(self, text: str, name: str = "plan.toml") -> str:
        return self.path(name, text.encode())

    def results(self, folder: str = "plan.results") -> list[dict]:
        return [json.loads(line) for line in Path(self.path(folder), "results.jsonl").read_text().splitlines()]


class Plans(Planned):
    def setUp(self):
        super().setUp()
        for name in ("a.dw", "b.dw"):
            self.path(name, STICKY)
        os.mkdir(self.path("traces"))
        self.path("traces/one.csv", b"x,y\n0,1\n")

    def test_what_it_names(self):
        found = read_plan(self.plan('sheets = ["*.dw", "a.dw", "none.hex"]\n[traces]\nfiles = "traces"\nrandom = { seeds = [3, 5], ticks = 7 }\nstarts = [0, 1]\n'
                                    '[expect]\nzero = "out"\ncolumns = true\n'))
        self.assertEqual((found.sheets, found.files), (["a.dw", "b.dw", "none.hex"], ["traces/one.csv"]))
        self.assertEqual((list(found.seeds), found.ticks, found.traces, found.zero, found.columns), ([3, 4, 5], 7, 8, ["out"], True))

    def test_faults_say_line_and_key(self):
        good = 'sheets = ["a.dw"]\n\n[traces]\nrandom = { seeds = [1, 2], ticks = 3 }\n'
        for text, words in (
                ('sheets = ["a.dw"\n[traces]\n', ":2:"), ("sheets = 5\n", ":1: sheets: a list of texts is due, and here is a number"),
                ("", ":1: sheets: a plan names its sheets"), ('sheets = ["x*.dw"]\n', ":1: sheets: x*.dw gives no file"),
                ('sheets = ["traces"]\n', ":1: sheets: traces gives no file .sheet, .hex, .dw"),
                ('sheets = ["a.dw"]\n\n[trace]\n', ":3: trace: no plan has this key here; there are name, sheets, traces, expect"),
                ('sheets = ["a.dw"]\ntraces = 4\n', ":2: traces: this is a table, and here is a number"),
                ('sheets = ["a.dw"]\n[traces]\nfile = ["x"]\n', ":3: traces.file: no plan has this key here"),
                ('sheets = ["a.dw"]\n[traces]\n', ":2: traces: a plan names its traces"),
                ('sheets = ["a.dw"]\n[traces]\nrandom = { seeds = [1, 2] }\n', ":3: traces.random: ticks is missing"),
                ('sheets = ["a.dw"]\n[traces.random]\nticks = 3\nseeds = [2, 1]\n', ":4: traces.random.seeds: [first, last] is due"),
                ('sheets = ["a.dw"]\n[traces]\nrandom = { seeds = [1, 2], ticks = -3 }\n', ":3: traces.random.ticks: 0 to "),
                ('sheets = ["a.dw"]\n[traces]\nrandom = { seeds = [1, 2], ticks = "x" }\n', ":3: traces.random.ticks: a number is due, and here is a text"),
                (good + "starts = [0, true]\n", ":5: traces.starts: [first, last]"), (good + "[expect]\nzero = [1]\n", ":6: expect.zero: a list of texts"),
                (good + "\n[expect]\ncolumns = true\n", ":7: expect.columns: recorded columns are asked for"),
                (good + "[expect]\ncolumns = 1\n", ":6: expect.columns: true or false is due"), (good + "[expect]\nsame = 3\n", ":6: expect.same: a text is due")):
            status, out, err = command("campaign", self.plan(text))
            self.assertEqual((status, out), (2, ""), text)
            self.assertIn("plan.toml" + words, err, text)
            self.assertFalse(os.path.exists(self.path("plan.results")), text)

    def test_any_text_has_an_answer(self):
        rng, good = random.Random(4), 'name = "x"\nsheets = ["a.dw"]\n[traces]\nrandom = { seeds = [1, 2], ticks = 3 }\n[expect]\nzero = ["out"]\n'
        for _ in range(300):
            at, size = rng.randrange(len(good)), rng.randrange(6)
            text = good[:at] + "".join(rng.choice('=[]{}".,\n#ax1 ') for _ in range(rng.randrange(5))) + good[at + size:]
            try:
                read_plan(self.plan(text))
            except WrongUse as error:
                self.assertRegex(str(error), r"plan\.toml:\d+:")

    def test_a_line(self):
        text = "a = 1\n[t]\nb = { c = 1,\n  d = 2 }\n[t.u]\nc = 1\n"
        self.assertEqual([line_of(text, key) for key in (("a",), ("t",), ("t", "b"), ("t", "b", "c"), ("t", "b", "d"), ("t", "u", "c"), ("t", "u", "z"))], [1, 2, 3, 3, 4, 6, 5])


class Jobs(Planned):
    def test_results_are_those_of_single_calls(self):
        sheet = make(STICKY.decode()).sheet
        self.path("a.dw", STICKY)
        self.path("r.trace", b"01\n11\n")
        text = 'sheets = "a.dw"\n[traces]\nfiles = ["r.trace"]\nrandom = { seeds = [7, 30], ticks = 40 }\nstarts = [0, 1]\n'
        self.assertEqual(command("campaign", self.plan(text), "--jobs", "2")[0], 0)
        found = self.results()
        self.assertEqual([(r["trace"], r["start"], r["ticks"]) for r in found[:4]], [("r.trace", 0, 2), ("r.trace", 1, 2), ("random 7", 0, 40), ("random 7", 1, 40)])
        self.assertEqual((len(found), len({r["job"] for r in found})), (50, 50))
        for result in found:
            bits = bytes([0, 1, 1, 1]) if result["trace"] == "r.trace" else spelt(int(result["trace"].split()[1]), 80)
            shown = calls.run(sheet, bits, bytes([result["start"]]), result["ticks"])
            self.assertEqual((result["outputs"], result["result"]), (hashlib.sha256(shown).hexdigest()[:32], "passed"))

    def test_a_pin_that_must_stay_0(self):
        self.path("a.dw", STICKY)
        self.path("quiet.csv", b"y,x\n0,0\n1,1\n0,0\n")
        self.path("loud.csv", b"x,y\n0,0\n1,1\n0,1\n1,1\n")
        status, out, _ = command("campaign", self.plan('sheets = "a.dw"\n[traces]\nfiles = "*.csv"\n[expect]\nzero = ["out"]\n'))
        self.assertEqual(status, 1)
        loud, quiet = self.results()
        self.assertEqual((loud["result"], loud["tick"], loud["pin"], quiet["result"]), ("failed", 2, "out", "passed"))
        self.assertIn("a.dw loud.csv: out is 1 at tick 2, and must stay 0", out)
        self.assertIn("2 jobs: 1 passed, 1 failed, 0 refused, 0 wrong", out)

    def test_recorded_columns(self):
        self.path("a.dw", STICKY)
        for name, text in (("good.csv", "x,y,out\n0,0,x\n1,0,1\n0,0,1\n"), ("bad.csv", "out,x,y\n0,0,0\n0,1,0\n0,0,0\n"),
                           ("unknown.csv", "x,y,out\n0,x,0\n"), ("strange.csv", "x,y,q\n0,0,0\n"), ("short.csv", "x,y\n0\n"), ("missing.csv", "x\n0\n"), ("digit.trace", "02\n")):
            self.path(name, text.encode())
        status, _, _ = command("campaign", self.plan('sheets = "a.dw"\n[traces]\nfiles = ["*.csv", "digit.trace"]\n[expect]\ncolumns = true\n'))
        self.assertEqual(status, 1)
        found = {r["trace"]: r for r in self.results()}
        self.assertEqual({name: r["result"] for name, r in found.items()}, {"good.csv": "passed", "bad.csv": "failed", "unknown.csv": "wrong", "strange.csv": "wrong",
                                                                           "short.csv": "wrong", "missing.csv": "wrong", "digit.trace": "wrong"})
        for name, words in (("bad.csv", "out is 1 at tick 1, and 0 is recorded"), ("unknown.csv", "unknown.csv:2: the input y is 'x' at tick 0"),
                            ("strange.csv", "strange.csv:1:5: 'q' is no bits and no pin"), ("missing.csv", "no column is called y"),
                            ("short.csv", "short.csv:2: 1 bit, and there are 2 columns"), ("digit.trace", "digit.trace:1: a bit is 0 or 1, and here is a 2")):
            self.assertIn(words, found[name]["why"])

    def test_value_change_dumps(self):
        self.path("a.dw", STICKY)
        ran = deltawobble.run(make(STICKY.decode()), [[0, 0], [1, 0], [0, 0]])
        self.path("good.vcd", ran.vcd().encode())
        self.path("bad.vcd", ran.vcd().replace("#1\n", "#2\n", 1).encode())
        text = 'sheets = "a.dw"\n[traces]\nfiles = "*.vcd"\n%s[expect]\ncolumns = true\n'
        command("campaign", self.plan(text % 'every = "1ns"\n'))
        bad, good = self.results()
        self.assertEqual((good["result"], good["ticks"], good["outputs"]), ("passed", 3, hashlib.sha256(bytes(ran["out"])).hexdigest()[:32]))
        self.assertNotEqual(bad["outputs"], good["outputs"])
        command("campaign", self.plan(text % "", "unsampled.toml"))
        self.assertIn("traces.clock or traces.every says how", self.results("unsampled.results")[0]["why"])
        for words, fault in (('every = "1ns"\nclock = "c"\n', ":4: traces.every: clock and every"), ('every = "soon"\n', ":4: traces.every: a time above 0")):
            self.assertIn(fault, command("campaign", self.plan(text % words, "wrong.toml"))[2])

    def test_random_traces_are_those_of_run(self):
        self.path("a.dw", STICKY)
        command("campaign", self.plan('sheets = "a.dw"\n[traces]\nrandom = { seeds = [5, 5], ticks = 30 }\n'))
        said = json.loads(command("run", self.path("a.dw"), "--random", "5", "--ticks", "30", "--json")[1])
        self.assertEqual(self.results()[0]["outputs"], hashlib.sha256(bytes(b for _, outputs in said["ticks"] for b in outputs)).hexdigest()[:32])

    def test_report_pages_are_asked_for(self):
        self.path("a.dw", STICKY)
        asked = []

        def report(words):
            asked.append(words)
            Path(words[words.index("-o") + 1]).write_text("page")
            return 0
        text = self.plan('sheets = ["a.dw", "none.dw"]\n[traces]\nrandom = { seeds = [1, 3], ticks = 20 }\nstarts = [1, 1]\n[expect]\nzero = "out"\n')
        with mock.patch.object(cli, "COMMANDS", (*cli.COMMANDS, "report")), mock.patch.object(cli, "main", report):
            given = cli.parser().parse_args(["campaign", text, "--pages", "3"])
            with mock.patch("builtins.print"):
                self.assertEqual(given.run(given), 1)
        self.assertEqual([words[:2] for words in asked], [["report", self.path("none.dw")]] + [["report", self.path("a.dw")]] * 2)
        trace, starts = asked[1][2], asked[1][3:5]
        self.assertEqual((Path(trace).read_text().split(), starts), (["%d%d" % pair for pair in zip(spelt(1, 40)[::2], spelt(1, 40)[1::2])], ["--starts", "1"]))
        self.assertEqual(len(list(Path(self.path("plan.results"), "pages").glob("*.html"))), 3)

    def test_the_same_as_another_sheet(self):
        for name, text in (("a.dw", STICKY), ("again.dw", STICKY), ("late.dw", LATE), ("narrow.dw", b"main = fun x : 1. x\n")):
            self.path(name, text)
        self.path("t.csv", b"x,y\n0,0\n1,1\n0,1\n1,1\n0,0\n")
        command("campaign", self.plan('sheets = ["again.dw", "late.dw", "narrow.dw"]\n[traces]\nfiles = "t.csv"\n[expect]\nsame = "a.dw"\n'))
        narrow, again, late = self.results()
        self.assertEqual((again["result"], late["result"], late["tick"], narrow["result"]), ("passed", "failed", 2, "wrong"))
        self.assertEqual(late["why"], "out is 0 at tick 2, and a.dw shows 1")
        self.assertIn("1 input and 1 output pins, and a.dw, which it is held against, 2 and 1", narrow["why"])
        status, _, err = command("campaign", self.plan('sheets = "a.dw"\n[traces]\nfiles = "t.csv"\n[expect]\nsame = "none.dw"\n', "other.toml"))
        self.assertEqual(status, 2)
        self.assertIn("none.dw", err)

    def test_files_that_cannot_be_used_are_one_result_each(self):
        self.path("a.dw", STICKY)
        self.path("refused.dw", b"main = zero zero\n")
        self.path("ring.dw", b"main = fix x : 1. inv x\n")
        status, out, _ = command("campaign", self.plan('sheets = ["a.dw", "none.dw", "refused.dw", "ring.dw"]\n[traces]\nfiles = "none.csv"\nrandom = { seeds = [1, 20], ticks = 9 }\n'
                                                       'starts = [1, 2]\n[expect]\nzero = ["out"]\n'))
        found = self.results()
        self.assertEqual(status, 1)
        self.assertEqual([(r["sheet"], r["trace"], r["result"], r.get("number")) for r in found[:4]],
                         [(None, "none.csv", "wrong", None), ("none.dw", None, "wrong", None), ("refused.dw", None, "refused", 12), ("ring.dw", None, "refused", 19)])
        self.assertEqual(len(found), 44)
        self.assertTrue(all(r["why"] == "start 2 has more bits than a.dw has registers, 1" for r in found[4:] if r["start"] == 2))

    def test_random_bits_by_their_definition(self):
        for seed, count in ((0, 0), (1, 1), (7, 80), (12345, 77)):
            self.assertEqual(jobs.random_bits(seed, count), spelt(seed, count))

    def test_another_library_is_refused(self):
        circuit = jobs.Circuit("x", b"", (), (), 0)
        with self.assertRaises(jobs.OtherLibrary):
            jobs.done(jobs.Parcel("0" * 64, circuit, jobs.Expected()))

    def test_the_example(self):
        status, out, _ = command("campaign", str(EXAMPLES / "campaign.toml"), "-o", self.path("out"))
        self.assertEqual(status, 0)
        self.assertIn("200 jobs: 200 passed, 0 failed", out)


def spelt(seed: int, count: int) -> bytes:
    """A random trace by the words of docs/CAMPAIGNS.md: bit after bit."""
    some = random.Random(seed)
    return bytes(some.getrandbits(1) for _ in range(count))


class BrokenOff(Planned):
    PLAN = 'sheets = ["a.dw", "b.dw"]\n[traces]\nrandom = { seeds = [1, 1500], ticks = 50 }\n[expect]\nsame = "a.dw"\n'

    def setUp(self):
        super().setUp()
        self.path("a.dw", STICKY)
        self.path("b.dw", LATE)
        self.text = self.plan(self.PLAN)
        command("campaign", self.text, "-o", self.path("whole"), "--jobs", "1")
        self.whole = Path(self.path("whole"), "results.jsonl").read_bytes()

    def same(self, folder: str) -> None:
        status, out, _ = command("campaign", self.text, "-o", folder, "--resume")
        self.assertEqual(status, 1)
        self.assertEqual(Path(folder, "results.jsonl").read_bytes(), self.whole)
        self.assertEqual([p.suffix for p in Path(folder, "parts").iterdir() if p.suffix != ".jsonl"], [])

    def test_ctrl_c_and_on(self):
        folder, keep, kept = self.path("stopped"), campaign.Store.keep, []

        def third(store, parcel, results):
            if len(kept) == 3:
                raise KeyboardInterrupt
            kept.append(parcel)
            keep(store, parcel, results)
        with mock.patch.object(campaign.Store, "keep", third):
            status, _, err = command("campaign", self.text, "-o", folder)
        self.assertEqual(status, 130)
        self.assertIn("of 3,000 jobs", err)
        self.assertIn("--resume goes on", err)
        self.assertFalse(Path(folder, "results.jsonl").exists())
        done = []
        with mock.patch.object(campaign.Store, "keep", lambda store, parcel, results: (done.append(parcel), keep(store, parcel, results))):
            self.same(folder)
        self.assertEqual(len(done), 12 - 3)
        status, _, err = command("campaign", self.text, "-o", folder)
        self.assertEqual(status, 2)
        self.assertIn("--resume goes on with it", err)

    def test_a_full_disk(self):
        folder, replace, count = self.path("full"), os.replace, []

        def full(a, b):
            count.append(b)
            if len(count) == 3:
                raise OSError(errno.ENOSPC, "No space left on device")
            replace(a, b)
        with mock.patch.object(campaign.os, "replace", full):
            status, _, err = command("campaign", self.text, "-o", folder)
        self.assertEqual(status, 2)
        self.assertIn("No space left on device; what was written before is whole", err)
        self.same(folder)

    def test_a_part_that_is_not_whole_is_done_again(self):
        folder = self.path("damaged")
        shutil.copytree(self.path("whole"), folder)
        parts = sorted(Path(folder, "parts").iterdir())
        parts[0].write_bytes(parts[0].read_bytes()[:1000])
        parts[1].write_bytes(b"")
        parts[2].write_bytes(parts[3].read_bytes())
        self.same(folder)

    @with_library  # elsewhere the child that would be killed may be the process that is called
    def test_a_worker_that_is_killed(self):
        folder = self.path("killed")
        text = self.plan(self.PLAN.replace("1500", "6000").replace("50", "400"), "long.toml")
        with subprocess.Popen([DESK, "campaign", text, "-o", folder, "--jobs", "2"], stdout=subprocess.PIPE, stderr=subprocess.PIPE, text=True) as run:
            killed = kill_a_child(run.pid, Path(folder, "parts"))
            said = run.communicate()
        self.assertTrue(killed, said)
        self.assertEqual((run.returncode, "Traceback" in said[1]), (1, False), said)
        command("campaign", text, "-o", self.path("calm"), "--jobs", "2")
        self.assertEqual(Path(folder, "results.jsonl").read_bytes(), Path(self.path("calm"), "results.jsonl").read_bytes())

    def test_parcels_of_any_size_give_the_same(self):
        for size in ("1000", "37"):
            command("campaign", self.text, "-o", self.path(size), "--parcel", size)
            self.assertEqual(Path(self.path(size), "results.jsonl").read_bytes(), self.whole)

    def test_json_lines_as_they_come(self):
        status, out, _ = command("campaign", self.text, "-o", self.path("lines"), "--json")
        found = [json.loads(line) for line in out.splitlines()]
        self.assertEqual((status, len(found), len({r["job"] for r in found})), (1, 3000, 3000))

    def test_wrong_words(self):
        for words in (["--jobs", "0"], ["--pages", "-1"], ["--parcel", "0"], ["--tls-key", "x"]):
            self.assertEqual(command("campaign", self.text, "-o", self.path("none"), *words)[0], 2, words)


class Forgetful:
    """A client of Dask as far as a campaign uses it; the results of its first jobs are lost with their workers."""

    def __init__(self, lost: int):
        self.lost, self.count = lost, 0

    def submit(self, work, parcel, pure):
        self.count += 1
        return Settled(self.count, CancelledError() if self.count <= self.lost else work(parcel))


class Settled:
    """A job of that client, which has ended."""

    def __init__(self, key: int, what):
        self.key, self.what = key, what

    def add_done_callback(self, told):
        told(self)

    def result(self):
        if isinstance(self.what, Exception):
            raise self.what
        return self.what


class LostResults(unittest.TestCase):
    """Dask says "cancelled" of a result that is lost with its worker before it was fetched."""

    def all_of(self, client: Forgetful, parcels: list[int]) -> list:
        there = Dask(lambda parcel: [parcel * parcel], client, 2)
        for parcel in parcels:
            there.send(parcel)
        found = []
        while there.flying:
            found += there.ended(0.1)
        return found

    def test_they_are_asked_for_again(self):
        self.assertEqual(sorted(self.all_of(Forgetful(5), [1, 2, 3, 4])), [(1, [1]), (2, [4]), (3, [9]), (4, [16])])

    def test_but_not_for_ever(self):
        back = self.all_of(Forgetful(1000), [1, 2])
        self.assertEqual([(parcel, type(what)) for parcel, what in sorted(back, key=lambda b: b[0])], [(1, Lost), (2, Lost)])

    def test_what_a_worker_raised_is_handed_on(self):
        there = Dask(lambda parcel: ValueError(parcel), Forgetful(0), 2)
        there.send(7)
        (parcel, what), = there.ended(0.1)
        self.assertEqual((parcel, str(what)), (7, "7"))


def kill_a_child(pid: int, parts: Path) -> bool:
    """Kills one child of a process, once the first results are there."""
    for _ in range(600):
        if parts.is_dir() and any(parts.glob("*.jsonl")):
            children = Path("/proc/%d/task/%d/children" % (pid, pid)).read_text().split()
            if children:
                os.kill(int(children[0]), signal.SIGKILL)
                return True
        time.sleep(0.02)
    return False
