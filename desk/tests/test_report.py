"""report without a browser: what the page is made of. desk/test_pages has it in one."""
from __future__ import annotations

import base64
import hashlib
import json
import re
import tempfile
import unittest
from pathlib import Path

from deltawobble import calls
from deltawobble.bits import Inside, ticks
from deltawobble.files import read
from deltawobble.netlist import Netlist
from deltawobble.notation import make
from deltawobble.page.build import visible
from deltawobble.page.facts import packed
from deltawobble.runs import recorded

from .support import EXAMPLES, command, examples


class Report(unittest.TestCase):
    def setUp(self):
        self.made = tempfile.TemporaryDirectory()
        self.addCleanup(self.made.cleanup)
        self.page = str(Path(self.made.name) / "page.html")

    def text(self, *words: str, status: int = 0) -> str:
        self.assertEqual(command("report", *words, "-o", self.page)[0], status)
        return Path(self.page).read_text()

    def data(self, text: str) -> dict:
        return json.loads(re.search(r'<script type="application/json" id="data">(.*?)</script>', text)[1])

    def test_each_example_has_a_page(self):
        for name, _, listing in examples():
            data = self.data(self.text(str(EXAMPLES / (name + ".hex")), status=int(listing.startswith("refused"))))
            self.assertEqual(bool(data["refusal"]), listing.startswith("refused"), name)

    def test_the_policy_has_the_hashes_of_what_is_there(self):
        text = self.text(str(EXAMPLES / "sticky.dw"))
        for tag, rule in (("script", "script-src"), ("style", "style-src")):
            inside = re.search(r"<%s>(.*?)</%s>" % (tag, tag), text, re.S)[1]
            self.assertIn("%s 'sha256-%s'" % (rule, base64.b64encode(hashlib.sha256(inside.encode()).digest()).decode()), text)

    def test_no_address_is_named(self):
        text = self.text(str(EXAMPLES / "accumulator.dw"), str(EXAMPLES / "accumulator.trace"))
        self.assertEqual(re.findall(r"(?:https?:)?//[a-z]\w*\.\w+|\b(?:src|href|@import|url)\s*[=(]", text), [])

    def test_names_of_a_pair_know_their_nets(self):
        """q1 to q16 name a net each, the same where they are bound and where they are read."""
        data = self.data(self.text(str(EXAMPLES / "lfsr-16.dw")))["text"]
        words = [(piece[0], data["words"][piece[1]]["nets"]) for line in data["lines"] for piece in line if len(piece) > 1]
        bound, read_ = {}, {}
        for name, nets in words:
            if re.fullmatch(r"q\d+", name):
                (read_ if name in bound else bound).setdefault(name, nets)
        self.assertEqual((len(bound), {len(nets) for nets in bound.values()}, len({n for nets in bound.values() for n in nets})), (16, {1}, 16))
        self.assertEqual(bound, {**bound, **read_})

    def test_bits_are_packed_lowest_first(self):
        self.assertEqual(base64.b64decode(packed(bytes([1, 0, 0, 0, 0, 0, 0, 0, 1, 1]))), bytes([1, 3]))
        self.assertEqual(base64.b64decode(packed(b"")), b"")

    def test_marks_that_nobody_sees_are_spelt_out(self):
        self.assertEqual(visible("a\u202eb\u2066\u200f\x07é"), "a\\u202Eb\\u2066\\u200F\\u0007é")

    def test_json_and_refusals(self):
        said = json.loads(command("report", "--json", str(EXAMPLES / "P8.hex"), "-o", self.page)[1])
        self.assertEqual((said["accepted"], said["number"], said["place"]), (False, 13, 4))
        self.assertEqual(command("report", "-", "-", "-o", self.page)[0], 2)
        self.assertEqual(command("report", str(EXAMPLES / "sticky.dw"), str(EXAMPLES / "full-adder.trace"), "-o", self.page)[0], 2)


class Bits(unittest.TestCase):
    """What is worked out inside a circuit is what the proved call shows at its pins."""

    def test_examples(self):
        for name in ("sticky", "accumulator", "serial-adder", "full-adder", "bitonic-sorter-8"):
            source = read(str(EXAMPLES / (name + ".dw")))
            lean = Netlist.parse(calls.translate(source.bytes, lean=True))
            ran, starts = recorded(source, lean, str(EXAMPLES / (name + ".trace")))
            self.assertEqual([inside.shown() for inside in ticks(lean, starts, ran.rows)], [row[1] for row in ran.rows], name)

    def test_a_wrong_output_is_noticed(self):
        source = read(str(EXAMPLES / "sticky.dw"))
        lean = Netlist.parse(calls.translate(source.bytes, lean=True))
        ran, starts = recorded(source, lean, str(EXAMPLES / "sticky.trace"))
        ran.rows[5] = (ran.rows[5][0], bytes([0]))
        with self.assertRaises(RuntimeError):
            list(ticks(lean, starts, ran.rows))

    def test_a_ring_has_no_order(self):
        lean = Netlist.parse(calls.translate(make("main = fun x : 1. fix s : 1. and x s").sheet, lean=True))
        with self.assertRaises(ValueError):
            Inside(lean, b"")
