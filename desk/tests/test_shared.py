"""Threads, forked processes and interrupts: each call gets its own answer, by the library and by the host process. 2,000 calls of each."""
from __future__ import annotations

import os
import random
import shutil
import signal
import subprocess
import sys
import tempfile
import threading
import time
import unittest
from pathlib import Path

from deltawobble import Refused, calls, engine
from deltawobble.engine import MIXED, Host, Library, NoLibrary, Request
from deltawobble.netlist import Netlist, listing

from .support import ELSEWHERE, NO_LIBRARY, ROOT, examples, unshielded

ARCHIVE = ROOT / "crates" / "deltawobble" / "out" / "libdeltawobble.a"
#: calls of threads, of forked processes and of interrupted ones
THREADS, FORKS, INTERRUPTS = 800, 800, 400


class Expected:
    """Sheets, and the word and the bytes that each answers: of one call after the other, held to the stored listings."""

    def __init__(self, back_end):
        self.requests = [Request("translate", sheet, room=calls.ROOM, lean=True) for _, sheet, _ in examples()]
        self.replies = [back_end.call(request) for request in self.requests]

    def wrong(self, back_end, seed: int, count: int) -> int:
        """How many of so many calls got another answer."""
        rng, wrong = random.Random(seed), 0
        for _ in range(count):
            k = rng.randrange(len(self.requests))
            wrong += back_end.call(self.requests[k]) != self.replies[k]
        return wrong


def native_host(folder: str) -> list[str] | None:
    """The words of a host process: of the archive for this machine, built from desk/host.c, or the one that desk/build made."""
    found = engine.find()
    if isinstance(found, Host):
        return found._words
    if not shutil.which("gcc") or not ARCHIVE.exists() or os.environ.get("DELTAWOBBLE_LIBRARY"):
        return None
    host = Path(folder) / "host"
    subprocess.run(["gcc", "-O2", "-Wall", "-Wextra", "-o", host, ROOT / "desk" / "host.c", "-Wl,--whole-archive", ARCHIVE, "-Wl,--no-whole-archive"],
                   check=True)
    return [str(host)]


class Stored(unittest.TestCase):
    def test_what_is_expected_is_what_is_stored(self):
        for name, sheet, stored in examples():
            try:
                full, lean = (Netlist.parse(calls.translate(sheet, lean=lean)) for lean in (False, True))
                self.assertEqual(listing(full, lean), stored, name)
            except Refused as refused:
                self.assertEqual("refused %d %d\n" % (refused.number, refused.place), stored, name)


class Shared:
    """The same tests for both back ends; `back_end` is one of them, `named` the variable that makes another process use it."""

    named: dict[str, str]

    def test_threads(self):
        wanted, wrong = Expected(self.back_end), []
        work = [threading.Thread(target=lambda k=k: wrong.append(wanted.wrong(self.back_end, k, THREADS // 8))) for k in range(8)]
        for thread in work:
            thread.start()
        for thread in work:
            thread.join()
        self.assertEqual(wrong, [0] * 8)

    def test_forks(self):
        # four processes at once, forked while threads of this one are in the middle of their calls
        wanted, going = Expected(self.back_end), threading.Event()
        busy = [threading.Thread(target=self._busy, args=(wanted, going)) for _ in range(2)]
        for thread in busy:
            thread.start()
        children = [self._forked(wanted, k) for k in range(4)]
        found = [os.waitstatus_to_exitcode(os.waitpid(child, 0)[1]) for child in children]
        going.set()
        for thread in busy:
            thread.join()
        self.assertEqual(found, [0] * 4)
        self.assertEqual(wanted.wrong(self.back_end, 9, 20), 0)

    def _busy(self, wanted: Expected, until: threading.Event) -> None:
        while not until.is_set():
            wanted.wrong(self.back_end, 1, 5)

    def _forked(self, wanted: Expected, seed: int) -> int:
        """A child whose status is how many of its calls were wrong."""
        child = os.fork()
        if child == 0:
            status = 101
            try:
                signal.alarm(60)
                status = min(wanted.wrong(self.back_end, seed, FORKS // 4), 100)
            finally:
                os._exit(status)
        return child

    def test_interrupts(self):
        # a process that is interrupted again and again, mostly in the middle of a call, and asks for something else each time
        program = "from tests.test_shared import interrupted; interrupted(%d)" % INTERRUPTS
        done = subprocess.run([sys.executable, "-c", program], env={**os.environ, **self.named}, capture_output=True, text=True, timeout=120, preexec_fn=unshielded)
        self.assertEqual((done.returncode, done.stderr), (0, ""))
        wrong, of, stopped = map(int, done.stdout.split())
        self.assertEqual((wrong, of), (0, INTERRUPTS))
        self.assertGreater(stopped, INTERRUPTS // 4)

    def test_a_real_interrupt(self):
        # ctrl-C while a trace is run: status 130, one line, no traceback
        words = [sys.executable, "-I", "-S", str(ROOT / "desk" / "deltawobble"), "run", str(ROOT / "examples" / "lfsr-16.dw"), "--period", "--ticks", "60000"]
        for wait in (0.2, 0.4, 0.8):
            process = subprocess.Popen(words, env={**os.environ, **self.named}, stdout=subprocess.DEVNULL, stderr=subprocess.PIPE, text=True, preexec_fn=unshielded)
            time.sleep(wait)
            process.send_signal(signal.SIGINT)
            _, said = process.communicate(timeout=60)
            self.assertIn(process.returncode, (130, 0), said)
            self.assertNotIn("Traceback", said)


def interrupted(count: int) -> None:
    """Prints how many answers were wrong, of how many, and how many calls were stopped on their way."""
    back_end = engine.find()
    wanted = Expected(back_end)
    sheet = next(s for name, s, _ in examples() if name == "accumulator")
    long = Request("run", sheet, inputs=bytes(2 * 3000), starts=bytes(9), room=3000 * 16, number=3000)
    rng, wrong, done, stopped = random.Random(7), 0, 0, 0
    signal.signal(signal.SIGALRM, signal.default_int_handler)
    while done < count:
        try:
            signal.setitimer(signal.ITIMER_REAL, rng.uniform(0.00005, 0.003))
            for _ in range(20):
                back_end.call(long)
            signal.setitimer(signal.ITIMER_REAL, 0)
        except KeyboardInterrupt:
            stopped += 1
        wrong += wanted.wrong(back_end, done, 1)
        done += 1
    print(wrong, done, stopped)


class ByLibrary(Shared, unittest.TestCase):
    named: dict[str, str] = {}

    @classmethod
    def setUpClass(cls):
        cls.back_end = engine.find()
        if not isinstance(cls.back_end, Library):
            raise unittest.SkipTest(NO_LIBRARY if ELSEWHERE else "NOT RUN: what is called is no library in this process")


class ByHost(Shared, unittest.TestCase):
    @classmethod
    def setUpClass(cls):
        cls.folder = tempfile.TemporaryDirectory()
        words = native_host(cls.folder.name)
        if words is None:
            raise unittest.SkipTest("NOT RUN: no host process can be built here")
        cls.named = {"DELTAWOBBLE_HOST": " ".join(words)}
        cls.back_end = Host(words)

    @classmethod
    def tearDownClass(cls):
        cls.back_end.close()
        cls.folder.cleanup()

    def test_same_as_the_library(self):
        self.assertEqual(Expected(self.back_end).replies, Expected(engine.find()).replies)

    def test_a_call_that_fails_drops_the_host(self):
        before = self.back_end._process or self.back_end.call(Request("stretch", b"")) and self.back_end._process
        with self.assertRaises(Exception):
            self.back_end.call(Request("stretch", b"", number=-1))
        self.assertIsNotNone(before.poll())
        self.assertEqual(Expected(self.back_end).wrong(self.back_end, 1, 3), 0)

    def test_an_answer_to_another_request_is_no_answer(self):
        self.back_end.call(Request("stretch", b""))
        self.back_end._process.stdin.write(Host.HEAD.pack(12345, 1, 0, 0, 0, 0, 0, 0, 0, 0))
        with self.assertRaisesRegex(NoLibrary, MIXED):
            self.back_end.call(Request("stretch", b""))
        self.assertEqual(Expected(self.back_end).wrong(self.back_end, 1, 3), 0)

    def test_a_forked_process_ends_no_host_of_its_parent(self):
        self.back_end.call(Request("stretch", b""))
        child = os.fork()
        if child == 0:
            self.back_end.close()
            os._exit(0)
        os.waitpid(child, 0)
        self.assertIsNone(self.back_end._process.poll())
