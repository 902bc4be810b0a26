"""A netlist back to a sheet, and its lean netlist again (document 02, L11): the same parts in the same order, each input with the same driver."""
from __future__ import annotations

import random
import unittest

from deltawobble import calls
from deltawobble.answer import Refused
from deltawobble.netlist import Netlist
from deltawobble.words import PARTS

from .support import examples


def drivers(net: Netlist) -> list[tuple[int, list[tuple[str, int]]]]:
    """Each part's number and, for each of its inputs, the part that drives it or its place among the open inputs."""
    by_input = {to: source for source, to in net.wires}
    made_by = {part.output: k for k, part in enumerate(net.parts)}
    inputs = [i for part in net.parts for i in part.inputs]
    open_inputs = [i for i in inputs if i not in by_input]
    return [(part.part, [("part", made_by[by_input[i]]) if i in by_input else ("pin", open_inputs.index(i)) for i in part.inputs])
            for part in net.parts]


def seen(net: Netlist) -> list[tuple[int, list[tuple[str, int]]]]:
    """The same of the lean netlist that came back, where an open input is fed by the point of its function."""
    by_input = {to: source for source, to in net.wires}
    made_by = {part.output: k for k, part in enumerate(net.parts)}
    points = {point.output: k for k, point in enumerate(net.points)}
    return [(part.part, [("part", made_by[by_input[i]]) if by_input[i] in made_by else ("pin", points[by_input[i]]) for i in part.inputs])
            for part in net.parts]


def generated(chance: random.Random) -> bytes:
    """A netlist of parts alone, in plain kinds, full: 1 to 16 parts, some inputs open."""
    numbers = [chance.randrange(len(PARTS)) for _ in range(chance.randint(1, 16))]
    elements, wires, pins = b"", b"", b""
    inputs, outputs, at = [], [], 0
    for number in numbers:
        elements += bytes([0x22, number]) + at.to_bytes(2, "little")
        inputs += range(at, at + PARTS[number][1])
        outputs.append(at + PARTS[number][1])
        at += PARTS[number][1] + 1
    for i in inputs:
        if chance.random() < 0.7:
            wires += b"\x23" + chance.choice(outputs).to_bytes(2, "little") + i.to_bytes(2, "little")
        else:
            pins += b"\x24" + i.to_bytes(2, "little")
    return elements + wires + pins


class RoundTrip(unittest.TestCase):
    def comes_back(self, net: bytes, lean: bool) -> None:
        sheet = calls.back(net, lean=lean)
        again = Netlist.parse(calls.translate(sheet, lean=True, plain=True))
        before = Netlist.parse(net)
        self.assertEqual(seen(again), drivers(before))
        # the new pins: the open inputs, then all part outputs
        fed = len([1 for part in before.parts for i in part.inputs if i not in {to for _, to in before.wires}])
        self.assertEqual(again.pins, [point.first for point in again.points] + [part.output for part in again.parts])
        self.assertEqual(len(again.points), fed)

    def test_generated_netlists(self):
        chance = random.Random(11)
        back, beyond = 0, 0
        for _ in range(400):
            net = generated(chance)
            try:
                self.comes_back(net, lean=False)
                back += 1
            except Refused as refused:
                self.assertEqual(refused.number, 26)
                beyond += 1
        self.assertGreater(back, 300)

    def test_lean_netlists_of_the_examples(self):
        back = 0
        for name, sheet, listing in examples():
            if not listing.startswith("full"):
                continue
            net = calls.translate(sheet, lean=True, plain=True)
            kept = Netlist.parse(net)
            with self.subTest(name):
                try:
                    self.comes_back(net, lean=True)
                    back += 1
                except Refused as refused:
                    self.assertEqual(refused.number, 25 if kept.points else 26)
        self.assertGreater(back, 5)


if __name__ == "__main__":
    unittest.main()
