"""The two back ends: what they hand over, what they bring back, and what is said where there is none."""
from __future__ import annotations

import json
import os
import random
import shutil
import subprocess
import tempfile
import unittest
from pathlib import Path
from unittest import mock

from deltawobble import NoCall, NoLibrary, Refused, calls, engine
from deltawobble.engine import Host, Library, Request

from .support import ELSEWHERE, EXAMPLES, NO_LIBRARY, ROOT, command

HERE = Path(__file__).resolve().parent


@unittest.skipUnless(shutil.which("gcc"), "NOT RUN: there is no gcc")
class BackEnds(unittest.TestCase):
    @classmethod
    def setUpClass(cls):
        cls.folder = tempfile.TemporaryDirectory()
        made = Path(cls.folder.name)
        for words in (["-shared", "-fPIC", "-o", made / "echo.so", HERE / "echo.c"],
                      ["-o", made / "host", HERE / "echo.c", ROOT / "desk" / "host.c"],
                      ["-DWITHOUT_BACK", "-DWITHOUT_MAKE", "-o", made / "less", HERE / "echo.c", ROOT / "desk" / "host.c"]):
            subprocess.run(["gcc", "-O1", "-Wall", *words], check=True)
        cls.library, cls.host, cls.less = Library(made / "echo.so"), Host([str(made / "host")]), Host([str(made / "less")])

    @classmethod
    def tearDownClass(cls):
        cls.host.close()
        cls.less.close()
        cls.folder.cleanup()

    def test_both_hand_over_the_same(self):
        rng = random.Random(5)
        for name in engine.CALLS:
            for _ in range(40):
                unit = Request(name, b"").unit
                some = lambda most, unit=1: bytes(rng.randrange(256) for _ in range(unit * rng.randrange(most)))
                request = Request(name, some(300), inputs=some(50, unit), starts=some(9, unit), room=unit * rng.choice([0, 1, 19, 20, 500]), number=rng.randrange(65536),
                                  states=rng.choice([0, 1, 4, 1024]),
                                  lean=rng.random() < 0.5, plain=rng.random() < 0.5, card=rng.random() < 0.5,
                                  lengths=[rng.randrange(1 << 32) for _ in range(rng.randrange(5))] if name == "batch" else [])
                self.assertEqual(self.library.call(request), self.host.call(request), name)

    def test_which_calls_there_are(self):
        for name in engine.CALLS:
            self.assertTrue(self.library.has(name) and self.host.has(name))
            self.assertEqual(self.less.has(name), name not in ("back", "make"))
        with mock.patch.object(engine, "_found", self.less), self.assertRaises(NoCall) as caught:
            calls.back(b"")
        self.assertEqual(str(caught.exception), "this library has no back: it is older than this desk, build it again with desk/build")

    def test_a_text_needs_the_call(self):
        with mock.patch.object(engine, "_found", self.less):
            status, out, err = command("make", str(EXAMPLES / "P3.dw"))
        self.assertEqual((status, out), (2, ""))
        self.assertEqual(err, "deltawobble: this library has no make: it is older than this desk, build it again with desk/build\n")

    def test_a_host_that_ends_is_told(self):
        gone = Host([str(Path(self.folder.name) / "host")])
        gone._process.kill()
        gone._process.wait()
        with self.assertRaises(NoLibrary):
            for _ in range(3):
                gone.call(Request("verilog", b"x" * 100000))
        gone.close()

    def test_a_large_frame(self):
        request = Request("run", b"s" * 16384, inputs=bytes(1 << 20), starts=bytes(100), room=1 << 20, number=65535)
        self.assertEqual(self.library.call(request), self.host.call(request))


class Texts(unittest.TestCase):
    """The call from a text to a sheet: what it is lent, and what it brings back."""

    TEXT = b"main = fun x : 1. x"

    def test_sheet_and_places(self):
        self.assertEqual(calls.make(self.TEXT), (bytes.fromhex("01 030000 1301 1100"), [11, 18]))

    def test_what_is_lent_always_does(self):
        most = b"d{0} = zero d{n + 1} = d{n} d{n} main = fix x : 1. d{10}"
        sheet, places = calls.make(most)
        self.assertEqual(len(places), calls.NODES)
        self.assertLessEqual(len(sheet), calls.SHEET)

    def test_too_little_room(self):
        for room, places, word in ((8, 2, 8), (7, 1, 17 << 32 | 8), (8, 1, 37 << 32 | 2)):
            reply = engine.find().call(Request("make", self.TEXT, room=room, number=places))
            self.assertEqual(reply.word, word)
            self.assertEqual(reply.state, b"\x0b\0\x12\0" if word == 8 else b"\xff\xff" * places)

    def test_a_refusal(self):
        for text, said in ((b"main = x", "refused 33 at offset 7: This name means nothing here; at the end, there is no main."),
                           (b" " * 65536, "refused 30: A text has at most 65535 bytes, and this one has more."), (b"main = \0", "refused 31 at offset 7: No word of the notation begins here.")):
            with self.assertRaises(Refused) as caught:
                calls.make(text)
            self.assertEqual(str(caught.exception), said)


class Proved(unittest.TestCase):
    """What the other tests call is the archive that was proved, linked and nothing else."""

    def test_the_library_is_the_archive(self):
        how = engine.MADE / "how.json"
        made = json.loads(how.read_text()).get("library") if how.exists() and not {"DELTAWOBBLE_LIBRARY", "DELTAWOBBLE_HOST"} & set(os.environ) else None
        if made is None and ELSEWHERE:
            self.skipTest(NO_LIBRARY)
        if made is None:
            self.skipTest("NOT RUN: what is called is no library that desk/build has made")
        self.assertEqual(engine.find().name, "%s, in this process" % made)
        self.assertIn(" %s\n" % made, Path("/proc/self/maps").read_text())
        with tempfile.TemporaryDirectory() as folder:
            again = Path(folder) / "libdeltawobble.so"
            archive = ROOT / "crates" / "deltawobble" / "out" / "libdeltawobble.a"
            subprocess.run(["gcc", "-shared", "-o", again, "-Wl,--whole-archive", archive, "-Wl,--no-whole-archive"], check=True)
            self.assertEqual(again.read_bytes(), Path(made).read_bytes())


class Missing(unittest.TestCase):
    def test_no_library(self):
        with tempfile.TemporaryDirectory() as folder, mock.patch.object(engine, "MADE", Path(folder)), mock.patch.object(engine, "_found", None), \
                mock.patch.dict("os.environ"):
            engine.os.environ.pop("DELTAWOBBLE_LIBRARY", None)
            engine.os.environ.pop("DELTAWOBBLE_HOST", None)
            status, out, err = command("listing", str(EXAMPLES / "P3.hex"))
        self.assertEqual((status, out), (2, ""))
        self.assertIn("run desk/build", err)

    def test_a_host_of_another_desk(self):
        with tempfile.TemporaryDirectory() as folder, mock.patch.object(engine, "MADE", Path(folder)), mock.patch.object(engine, "_found", None), \
                mock.patch.dict("os.environ"):
            for name in ("DELTAWOBBLE_LIBRARY", "DELTAWOBBLE_HOST"):
                engine.os.environ.pop(name, None)
            (Path(folder) / "how.json").write_text('{"host": ["cat"]}')
            status, _, err = command("listing", str(EXAMPLES / "P3.hex"))
        self.assertEqual((status, err), (2, "deltawobble: the host process was built for another desk: build it again with desk/build\n"))

    def test_a_library_that_is_none(self):
        with mock.patch.object(engine, "_found", None), mock.patch.dict("os.environ", DELTAWOBBLE_LIBRARY=str(EXAMPLES / "P3.hex")):
            status, _, err = command("listing", str(EXAMPLES / "P3.hex"))
        self.assertEqual(status, 2)
        self.assertIn("desk/build", err)

    def test_a_host_that_cannot_be_run(self):
        with self.assertRaises(NoLibrary):
            Host([str(EXAMPLES / "P3.hex")])
