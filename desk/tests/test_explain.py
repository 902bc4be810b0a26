"""explain: all that `fault` said, types in words for 12, and something to look at for each number."""
from __future__ import annotations

import json
import re
import unittest
from collections import Counter

import deltawobble
from deltawobble import Refused, calls
from deltawobble.explain import report
from deltawobble.netlist import Netlist, listing

from . import fault_reports, generate
from .support import EXAMPLES, command, example, examples

# what docs/FAULT.md showed, written by hand from document 01
WRITTEN = {
    "P8": """refused 13 4
This linear variable has been used before: it can be used only once.
node 4: linear variable (12)
offset 13: 12 00
above it, from the root down:
node 0: linear function (15)
node 1: sharable application (14)
node 3: sharable application (14)
""",
    "P11": """refused 12 0
The types do not fit at this node.
node 0: sharable application (14)
offset 1: 14 1A 00 00 1A 00 00
above it: nothing, it is the root
""",
    "fault-cut": """refused 3 16
The sheet ends too early: its last record is cut short, or one more was due.
offset 16: 1A 01
before it, from offset 0: 01 03 00 00 04 01 00 16 15 02 14 12 00 1A 00 00
""",
    "P3": """accepted
nodes 6
depth 4
types 3
parts 2
points 2
kept points 0
wires 3
pins 1
full netlist bytes 32
lean netlist bytes 16
"""}

# a table of twelve types, and for each cause of 12 a term over it: node, what is wanted, found (second/, edges_clash)
TABLE = "01 020000 030000 030002 040200 040202 040204 030100 040400 040201 030001 030101 020001"
CLASHES = [
    ("function body", "1302 1A0102", 0, "type 0: 1", "type 2: 1 -> 1"),
    ("linear function body", "1504 1200", 0, "type 0: 1", "type 2: 1 -> 1"),
    ("shape of 13", "1304 1100", 0, "a sharable arrow", "type 4: (1 -> 1) -o 1"),
    ("shape of 15", "1502 1200", 0, "a linear arrow", "type 2: 1 -> 1"),
    ("shape of 17", "1707 1A0000 1A0000", 0, "a product", "type 7: 1 * 1 -> 1"),
    ("shape of 19", "1908 1100", 0, "a sharable type", "type 8: ((1 -> 1) -o 1) -o 1"),
    ("application of a bit", "14 1A0000 1A0000", 0, "a sharable arrow", "type 0: 1"),
    ("application of a product", "14 1701 1A0000 1A0000 1A0000", 0, "a sharable arrow", "type 1: 1 * 1"),
    ("the other sort", "16 1A0102 1A0000", 0, "a linear arrow", "type 2: 1 -> 1"),
    ("left side differs", "14 1307 1A0000 1A0000", 0, "type 1: 1 * 1", "type 0: 1"),
    ("pair's first half", "1701 1A0102 1A0000", 0, "type 0: 1", "type 2: 1 -> 1"),
    ("pair's second half", "170C 1A0000 1A0000", 0, "type 1: 1 * 1", "type 0: 1"),
    ("projection of a bit", "18 1A0000 1100", 0, "a product", "type 0: 1"),
    ("fixed point's body", "1901 1A0000", 0, "type 1: 1 * 1", "type 0: 1"),
    ("constant, its type in the sheet", "1302 14 1A040B 1100", 2, "type 3: 1 -> 1 -> 1", "type 11: 1 * 1 -> 1 * 1")]
NOWHERE = [
    ("01 030000 1A0201", "the type of the part and, 1 -> 1 -> 1, which stands nowhere in this sheet", "type 1: 1 -> 1"),
    ("01 1A0100", "the type of the part reg, 1 -> 1, which stands nowhere in this sheet", "type 0: 1"),
    ("31 01 030000 1A0401", "the type of the part xor, 1 * 1 -> 1, which stands nowhere in this sheet", "type 1: 1 -> 1"),
    ("31 01 030000 1B 1A0501 1100", "a sharable type", "type 1: 1 -> 1")]


def as_fault(text: str) -> list[str]:
    """The report's lines that `fault` had too: without the types of 12, and what is said behind its last line."""
    lines = [line for line in text.splitlines() if not line.startswith("wanted ")]
    for number, line in enumerate(lines):
        if line.startswith(("the term, ", "look at: ", "registers ")):
            return lines[:number]
    return lines


class Explain(unittest.TestCase):
    def test_as_fault_said_it_by_hand(self):
        for name, wanted in WRITTEN.items():
            self.assertEqual(as_fault(deltawobble.explain(example(name))), wanted.splitlines(), name)

    def test_examples_are_refused_as_their_comments_say(self):
        for name, sheet, _ in examples():
            wanted = re.search(r"^# (refused \d+ \d+)$", (EXAMPLES / (name + ".hex")).read_text(), re.M)
            if wanted:
                self.assertEqual(deltawobble.explain(sheet).splitlines()[0], wanted[1], name)

    def test_words_of_examples(self):
        stored = sorted(EXAMPLES.glob("*.words"))
        self.assertGreaterEqual(len(stored), 3)
        for path in stored:
            self.assertEqual(deltawobble.explain(example(path.stem)), path.read_text(), path.name)

    def test_each_cause_of_12_in_words(self):
        cases = [(TABLE + term, node, wanted, found) for _, term, node, wanted, found in CLASHES]
        cases += [(sheet, 0, wanted, found) for sheet, wanted, found in NOWHERE]
        for sheet, node, wanted, found in cases:
            lines = deltawobble.explain(bytes.fromhex(sheet)).splitlines()
            self.assertEqual([lines[0], lines[2]], ["refused 12 %d" % node, "wanted %s, found %s" % (wanted, found)], sheet)

    def test_pairs_say_which_half(self):
        for term, half in (("1701 1A0102 1A0000", "first"), ("1701 1A0000 1A0102", "second"), ("170C 1A0102 1A0203", "first")):
            self.assertIn("the pair's %s half" % half, deltawobble.explain(bytes.fromhex(TABLE + term)))

    def held(self, sheet: bytes) -> str:
        """A report is held to the one worked out again."""
        refused, lines = report(sheet)
        if refused:
            wanted = fault_reports.refused(sheet, refused.number, refused.place)
        else:
            both = [Netlist.parse(calls.translate(sheet, lean=lean)) for lean in (False, True)]
            wanted = fault_reports.accepted(sheet, listing(*both).splitlines())
        self.assertEqual(as_fault("\n".join(lines)), wanted, sheet.hex())
        return str(refused.number) if refused else "accepted"

    def test_edges(self):
        seen = Counter(self.held(sheet) for sheet in fault_reports.edges().values())
        self.assertTrue({"2", "3", "4", "8", "9", "10", "12", "15", "16", "accepted"} <= set(seen), seen)

    def test_generated_and_damaged(self):
        seen = Counter(self.held(generate.damaged(seed)) for seed in range(1500))
        self.assertTrue({"3", "4", "5", "6", "7", "9", "10", "11", "12", "13", "14", "15", "accepted"} <= set(seen), seen)

    def test_something_to_look_at(self):
        for name, sheet, _ in examples():
            refused, lines = report(sheet)
            if refused:
                self.assertTrue(any(line.startswith("look at: ") for line in lines), name)

    def test_no_record_before_it_may_be_too_short_where_there_is_none(self):
        for data, hint in (("00", False), ("31 00", False), ("01 00", True)):
            self.assertEqual("the record before it may be too short" in deltawobble.explain(bytes.fromhex(data)), hint, data)

    def test_which_limit(self):
        edges = fault_reports.edges()
        for name, words in (("nodes-2049", "the 2,049th node, and 2,048 are the limit"), ("depth-65", "depth 65, and 64 is the limit"), ("size-129", "129 single bits, and 128 are the limit"),
                            ("terminals-8448", "8448 terminals in all")):
            self.assertIn(words, deltawobble.explain(edges[name]), name)


class Command(unittest.TestCase):
    def test_status_and_first_line(self):
        self.assertEqual(command("explain", str(EXAMPLES / "P3.hex"))[:2], (0, deltawobble.explain(example("P3"))))
        self.assertEqual(command("explain", str(EXAMPLES / "P8.hex"))[:2], (1, deltawobble.explain(example("P8"))))

    def test_standard_input_raw(self):
        self.assertEqual(command("explain", "-", given=example("P8"))[0], 1)
        status, out, _ = command("explain", "-", given=b"")
        self.assertEqual((status, out.splitlines()[0]), (1, "refused 3 0"))

    def test_json(self):
        status, out, _ = command("explain", "--json", str(EXAMPLES / "fault-misfit.hex"))
        said = json.loads(out)
        self.assertEqual((status, said["number"], said["place"], said["wanted"], said["found"]), (1, 12, 2, 0, 1))
        self.assertEqual((said["wanted_words"], said["found_words"], said["form"]), ("type 0: 1", "type 1: 1 -> 1", False))

    def test_json_of_a_form(self):
        for word in ("explain", "translate", "listing"):
            said = json.loads(command(word, "--json", str(EXAMPLES / "P11.hex"))[1])
            self.assertEqual((said["number"], said["wanted"], said["form"], said["found"]), (12, 256, True, 0))


class Exception_(unittest.TestCase):
    def test_refused_carries_all(self):
        with self.assertRaises(Refused) as caught:
            deltawobble.translate(example("fault-misfit"))
        said = caught.exception
        self.assertEqual((said.number, said.place, said.wanted, said.found), (12, 2, 0, 1))
        self.assertEqual(str(said), "refused 12 at node 2: The types do not fit at this node.")
