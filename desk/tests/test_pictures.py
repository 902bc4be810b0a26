"""What is drawn, judged from the SVG that a person sees: wires over no shape and by no foreign terminal, a dot at each fork and at no crossing,
pins in their order, names from the text, definitions in boxes, and wires coloured by their bits."""
from __future__ import annotations

import re
import tempfile
import unittest
import xml.etree.ElementTree as ElementTree
from pathlib import Path
from typing import Iterator, Optional

from deltawobble import calls
from deltawobble.answer import Refused
from deltawobble.files import Source, read
from deltawobble.interfaces import Interfaces
from deltawobble.netlist import Netlist
from deltawobble.notation import make
from deltawobble.picture import lay_out, planned, svg
from deltawobble.pins import pin_names
from deltawobble.sheet import Sheet

from . import generate
from .geometry import SVG, Picture, faults, joins, picture
from .support import EXAMPLES, command

GENERATED = 200


def drawn(source: Source, *, full: bool = False, depth: Optional[int] = None, nodes: bool = False) -> str:
    whole = Netlist.parse(calls.translate(source.bytes))
    net = whole if full else Netlist.parse(calls.translate(source.bytes, lean=True))
    return svg(lay_out(planned(source, net, whole, depth, nodes).frame()), source.stem)


def accepted(sources: Iterator[Source]) -> Iterator[Source]:
    for source in sources:
        try:
            calls.translate(source.bytes)
            yield source
        except Refused:
            pass


def example_sources() -> Iterator[Source]:
    return accepted(read(str(path)) for path in sorted(EXAMPLES.glob("*.dw")) + sorted(EXAMPLES.glob("*.hex")) + sorted(EXAMPLES.glob("sizes/*-*.dw")))


def generated() -> Iterator[Source]:
    return accepted(Source("generated %d" % seed, generate.sheet(seed)) for seed in range(GENERATED))


def text(words: str) -> Source:
    made = make(words, "text.dw")
    return Source("text.dw", made.sheet, made)


class Geometry(unittest.TestCase):
    """The test of the issue's first point: all examples and 200 generated sheets."""

    def judged(self, source: Source, **how) -> Picture:
        seen = picture(drawn(source, **how))
        self.assertEqual(faults(seen), [], "%s %s" % (source.name, how))
        return seen

    def held(self, source: Source, net: Netlist, seen: Picture) -> None:
        """Each net's lines hang together and reach its driver, its readers and its pins; and nothing else has lines."""
        at = {shape.what.split()[-1]: shape.terminals for shape in seen.shapes if not shape.what.startswith(("pin", "box"))}
        pins = {"in": dict(zip(net.input_pins, seen.pins["in"])), "out": list(zip(net.output_pins, seen.pins["out"]))}
        lean_points = {e.output: e.first for e in net.points if str(e.first) not in at}
        places: dict[int, list] = {}
        driver = {target: lean_points.get(start, start) for start, target in net.wires}
        for e in net.elements:
            if e.output in lean_points:
                continue
            terminals = at[str(e.first)]
            places.setdefault(e.output, []).append(terminals[-1])
            for terminal, place in zip(e.inputs, terminals):
                places.setdefault(driver.get(terminal, terminal), []).append(place)
        for pin, (_, place) in pins["in"].items():
            places.setdefault(pin, []).append(place)
        for pin, (_, place) in pins["out"]:
            places.setdefault(lean_points.get(pin, pin), []).append(place)
        wanted = {net for net, ends in places.items() if len(ends) > 1}
        self.assertEqual({int(n) for n in seen.wires}, wanted, source.name)
        for number in wanted:
            self.assertTrue(joins(seen, str(number), places[number]), "%s, net %d" % (source.name, number))

    def test_examples(self):
        count = 0
        for source in example_sources():
            for full in (False, True):
                seen = self.judged(source, full=full)
                self.held(source, Netlist.parse(calls.translate(source.bytes, lean=not full)), seen)
                count += 1
        self.assertGreaterEqual(count, 100)

    def test_closed_boxes(self):
        for name in ("bitonic-sorter-8", "accumulator", "sticky", "serial-adder", "sizes/bitonic-8", "sizes/butterfly-16"):
            for depth in (1, 2):
                self.judged(read(str(EXAMPLES / (name + ".dw"))), depth=depth)

    def test_generated_sheets(self):
        count = 0
        for source in generated():
            for full in (False, True):
                seen = self.judged(source, full=full)
                self.held(source, Netlist.parse(calls.translate(source.bytes, lean=not full)), seen)
            count += 1
        self.assertGreaterEqual(count, GENERATED * 9 // 10)

    def test_the_judge_sees_faults(self):
        """A picture that is spoiled by hand: each fault is found."""
        good = drawn(read(str(EXAMPLES / "accumulator.dw")))
        self.assertEqual(faults(picture(good)), [])
        dot = re.search(r'<circle class="fork"[^>]*/>', good)[0]
        shape = picture(good).shapes[0]
        x, y = shape.terminals[0]
        net, (line, *_) = next(iter(picture(good).wires.items()))

        def with_wire(*ends: float) -> str:
            return good.replace("</svg>", '<g class="net" data-net="999"><path class="wire" d="M%g,%g L%g,%g"/></g></svg>' % ends)

        spoiled = {
            "has dots at []": good.replace(dot, ""),
            "forks at []": with_wire(1, 1, 9, 1).replace("</g></svg>", '<circle class="fork" cx="5" cy="1" r="2"/></g></svg>'),
            "passes over": with_wire(shape.left - 5, (shape.top + shape.bottom) / 2 + 1, shape.right + 5, (shape.top + shape.bottom) / 2 + 1),
            "passes a terminal": with_wire(x - 9, y + 2, x - 1, y + 2),
            "run together": with_wire(line[0] + 1, line[1] + 1, line[2] + 1, line[3] + 1),
            "touches": with_wire(line[0] - 40, (line[1] + line[3]) / 2, line[0], (line[1] + line[3]) / 2)}
        self.assertEqual((line[0], line[1] < line[3]), (line[2], True), "the first line of net %s is upright" % net)
        for word, bad in spoiled.items():
            self.assertTrue(any(word in fault for fault in faults(picture(bad), 100)), word)

    def test_the_walk_over_interfaces_is_the_netlist(self):
        for source in list(example_sources()) + list(generated()):
            full = Netlist.parse(calls.translate(source.bytes))
            walk = Interfaces(Sheet.parse(source.bytes))
            self.assertEqual((walk.of[0], walk.free), (full.pins, sum(len(e.terminals) for e in full.elements)), source.name)


class Places(unittest.TestCase):
    def test_pins_in_their_order(self):
        for source in example_sources():
            seen = picture(drawn(source))
            net = Netlist.parse(calls.translate(source.bytes, lean=True))
            named = list(zip(net.pins, pin_names(Sheet.parse(source.bytes, source.own))))
            inputs = set(net.input_pins)
            for side, wanted in (("in", [n for p, n in named if p in inputs]), ("out", [n for p, n in named if p not in inputs])):
                self.assertEqual([name for name, _ in sorted(seen.pins[side], key=lambda pin: pin[1][1])], wanted, source.name)
            bodies = [s for s in seen.shapes if not s.what.startswith("pin")]
            self.assertTrue(all(x <= min(s.left for s in bodies) for _, (x, _) in seen.pins["in"] if bodies), source.name)
            self.assertTrue(all(x >= max(s.right for s in bodies) for _, (x, _) in seen.pins["out"] if bodies), source.name)

    def test_a_shift_register_stands_in_rows(self):
        source = text("main = fun d : 1. %sd%s" % ("reg (" * 40, ")" * 40))
        seen = picture(drawn(source))
        rows = {s.top for s in seen.shapes if s.what.startswith("reg")}
        self.assertLess(seen.wide, 1400)
        self.assertLessEqual(len(rows), 4)

    def test_no_picture_of_an_example_is_a_strip(self):
        for source in example_sources():
            self.assertLess(picture(drawn(source)).wide, 2000, source.name)


class Names(unittest.TestCase):
    def words(self, source: Source, **how) -> list[str]:
        return [t.text for t in ElementTree.fromstring(drawn(source, **how)).iter(SVG + "text")]

    def test_wires_and_registers_have_the_text_s_names(self):
        words = self.words(read(str(EXAMPLES / "comparator-divergence.dw")))
        self.assertEqual(sorted(set(words) & {"differ", "old", "greater", "diverged"}), ["differ", "diverged", "greater", "old"])
        self.assertFalse([w for w in words if w.startswith(("node", "xor "))])
        root = ElementTree.fromstring(drawn(read(str(EXAMPLES / "lfsr-16.dw"))))
        named = {g.find(SVG + "text").text for g in root.iter(SVG + "g") if g.get("class") == "gate reg"}
        self.assertEqual(named, {"q%d" % i for i in range(1, 17)})

    def test_nodes_are_asked_for_and_bytes_have_numbers(self):
        named = read(str(EXAMPLES / "sticky.dw"))
        self.assertEqual([w for w in self.words(named) if w.startswith("node ")], [])
        self.assertEqual(len([w for w in self.words(named, nodes=True) if w.startswith("node ")]), 3)
        self.assertIn("s", self.words(named, nodes=True))
        words = self.words(read(str(EXAMPLES / "sticky.hex")))
        self.assertTrue([w for w in words if w.startswith("node ")] and [w for w in words if w.startswith("xor ")])

    def test_names_of_other_definitions_are_not_taken(self):
        self.assertNotIn("b", self.words(read(str(EXAMPLES / "accumulator.dw"))))


class Boxes(unittest.TestCase):
    ADDERS = ("edition 2\nfa = fun a b c : 1. let half = xor (a, b) in (xor (half, c), or (and (a, b), and (half, c)))\n"
              "main = fun x y z : 1. let (s, k) = fa x y z in fa s k z\n")

    def test_a_definition_stands_in_a_box(self):
        seen = picture(drawn(text(self.ADDERS)))
        self.assertEqual([box.what for box in seen.boxes], ["box fa", "box fa"])
        for box in seen.boxes:
            inside = [s for s in seen.shapes if box.left < s.left and s.right < box.right and box.top < s.top and s.bottom < box.bottom]
            self.assertEqual(len(inside), 5)

    def test_closed_boxes_have_ports_in_the_order_of_the_variables(self):
        root = ElementTree.fromstring(drawn(text(self.ADDERS), depth=1))
        boxes = [g for g in root.iter(SVG + "g") if g.get("class") == "box closed"]
        self.assertEqual([g.get("data-name") for g in boxes], ["fa", "fa"])
        self.assertEqual([g for g in root.iter(SVG + "g") if (g.get("class") or "").startswith("gate")], [])
        for box in boxes:
            ports = sorted((float(t.get("y")), t.text) for t in box.iter(SVG + "text") if t.get("class") != "title")
            self.assertEqual([name for _, name in ports], ["a", "b", "c"])

    def test_a_recursion_has_a_box_for_each_step(self):
        source = text("delay{0} = fun x : 1. x\ndelay{n + 1} = fun x : 1. reg (delay{n} x)\nmain = fun d : 1. delay{3} d\n")
        boxes = picture(drawn(source)).boxes
        self.assertEqual([box.what for box in boxes], ["box delay"] * 3)
        wide = sorted(boxes, key=lambda box: box.left)
        for outer, inner in zip(wide, wide[1:]):
            self.assertTrue(outer.left < inner.left and inner.right < outer.right and outer.top < inner.top and inner.bottom < outer.bottom)

    def test_some_250_parts_fit_on_a_page(self):
        bits = 8
        lets = "".join("let (s%d, c%d) = fa x%d y%d c%d in " % (i, i + 1, i, i, i) for i in range(bits))
        names = [", ".join("%s%d" % (v, i) for i in range(bits)) for v in "xys"]
        words = ("edition 2\ntype word = %s\n" % " * ".join(["1"] * bits) + self.ADDERS.splitlines()[1] + "\n"
                 "add = fun x y : word. let (%s) = x in let (%s) = y in let c0 = zero in %s (%s)\n" % (names[0], names[1], lets, names[2])
                 + "main = fun x y : word. add (add (add x y) (add y x)) (add (add x y) x)\n")
        source = text(words)
        # six adders of 41 parts; 1,983 of 2,048 nodes
        self.assertEqual(len(Netlist.parse(calls.translate(source.bytes, lean=True)).parts), 246)
        seen = picture(drawn(source, depth=1))
        self.assertLess(max(seen.wide, seen.high), 1400)


class Colours(unittest.TestCase):
    def test_wires_have_their_bits(self):
        """sticky at tick 3 (README): x is 1 and y is 0, they differ, and the bit begins to stay; at tick 0 all is 0."""
        with tempfile.TemporaryDirectory() as folder:
            out = str(Path(folder) / "x.svg")
            # at 3: x, the xor and the or; at 4: the or and the register; x and y are 0
            for tick, ones in ((0, 0), (3, 3), (4, 2)):
                status = command("draw", str(EXAMPLES / "sticky.dw"), "--trace", str(EXAMPLES / "sticky.trace"), "--tick", str(tick), "-o", out)[0]
                self.assertEqual(status, 0)
                looks = {g.get("data-net"): g.get("class") for g in ElementTree.parse(out).getroot().iter(SVG + "g") if (g.get("class") or "").startswith("net")}
                self.assertEqual(set(looks.values()) - {"net one", "net zero"}, set())
                self.assertEqual(sum(look == "net one" for look in looks.values()), ones, (tick, looks))
