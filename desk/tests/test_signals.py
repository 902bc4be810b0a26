"""Names of nets and registers, held to netlists read by hand."""
from __future__ import annotations

import unittest

from deltawobble import calls
from deltawobble.files import Source, read
from deltawobble.netlist import Netlist
from deltawobble.notation import make
from deltawobble.sheet import Sheet
from deltawobble.signals import Signals, vector

from .support import EXAMPLES


def signals(source: Source) -> Signals:
    full, lean = (Netlist.parse(calls.translate(source.bytes, lean=lean)) for lean in (False, True))
    return Signals(Sheet.parse(source.bytes, source.own), full, lean)


def of(text: str) -> Signals:
    made = make(text)
    return signals(Source("text", made.sheet, made))


class Names(unittest.TestCase):
    def test_the_comparator(self):
        # examples/comparator-divergence.listing: s is the pair (or 14, or 27); old is the register 32, differ the xor 30
        found = signals(read(str(EXAMPLES / "comparator-divergence.dw")))
        wanted = {"x": 1, "y": 3, "s.0": 14, "s.1": 27, "greater": 14, "diverged": 27, "old": 32, "differ": 30, "inv@21": 21, "reg@16": 16}
        self.assertEqual({name: found.nets[name] for name in wanted}, wanted)
        self.assertEqual([r.name for r in found.registers()], ["greater", "old"])
        self.assertEqual(found.registers()[1].aliases, ["old", "reg@32", "diverged", "s.1"])

    def test_both_editions_and_bare_bytes(self):
        for name in ("comparator-divergence", "comparator-divergence-second"):
            for ending in (".dw", ".hex"):
                found = signals(read(str(EXAMPLES / (name + ending))))
                self.assertEqual(len(found.registers()), 2)
                self.assertEqual(len({r.name for r in found.registers()}), 2)

    def test_a_name_at_two_places(self):
        # two uses of one definition: the second one's variable has ~2
        found = of("keep = fun a : 1. let b = inv a in reg b\nmain = fun x y : 1. (keep x, keep y)")
        self.assertEqual(found.nets["a"], found.nets["x"])
        self.assertEqual(found.nets["a~2"], found.nets["y"])
        self.assertNotEqual(found.nets["b"], found.nets["b~2"])
        self.assertEqual([r.name for r in found.registers()], ["b", "b~2"])

    def test_vectors(self):
        found = of("type w = 1 * 1 * 1 * 1\nmain = fun d : 1. fix count : w. let (a, b, c, e) = count in (d, reg a, reg b, reg c)")
        self.assertEqual(vector("count", found.nets), ["count.0", "count.1", "count.2", "count.3"])
        self.assertEqual(vector("a", found.nets), ["a"])
        self.assertEqual(vector("nothing", found.nets), [])

    def test_every_example(self):
        for path in sorted(EXAMPLES.glob("*.dw")) + sorted(EXAMPLES.glob("sizes/*-*.dw")):
            found = signals(read(str(path)))
            drives = {element.output for element in found.lean.elements}
            self.assertLessEqual(set(found.nets.values()), drives, path.name)
            names = [r.name for r in found.registers()]
            self.assertEqual(len(set(names)), len(found.lean.registers), path.name)
