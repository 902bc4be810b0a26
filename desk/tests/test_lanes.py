"""Sixteen traces at once, and runs in windows: held to runs of single traces, and to rows worked out by hand."""
from __future__ import annotations

import random
import unittest
from array import array

from deltawobble import Refused, calls, lanes
from deltawobble.lanes import Traces, pack, unpack
from deltawobble.netlist import Netlist

from .support import example


def traces_of(rng: random.Random, count: int, bits: int) -> list[bytes]:
    return [bytes(rng.randrange(2) for _ in range(bits)) for _ in range(count)]


class Packing(unittest.TestCase):
    def test_by_hand(self):
        self.assertEqual(list(pack([b"\x01\x00\x01"])), [1, 0, 1])
        self.assertEqual(list(pack([b"\x01\x00\x01", b"\x01\x01\x00"])), [3, 2, 1])
        nine = [b"\x00"] * 8 + [b"\x01"]
        self.assertEqual(list(pack(nine)), [256])
        self.assertEqual([unpack(array("H", [0x8001, 0x0100]), k) for k in (0, 8, 15)], [b"\x01\x00", b"\x00\x01", b"\x01\x00"])

    def test_there_and_back(self):
        rng = random.Random(3)
        for count in range(1, 17):
            given = traces_of(rng, count, 40)
            numbers = pack(given)
            self.assertEqual([unpack(numbers, k) for k in range(16)], given + [bytes(40)] * (16 - count))

    def test_what_is_no_trace(self):
        for given in ([], [b"\x00", b""], [b"\x02"], [b"\x00"] * 17):
            with self.assertRaises(ValueError):
                pack(given)


class Lanes(unittest.TestCase):
    def test_by_hand(self):
        # sticky: what xor has set stays. Trace 0 differs at tick 1, trace 1 never, trace 2 started set; the register shows a tick later
        x, y = [b"\x00\x01\x00", b"\x00\x01\x00", b"\x00\x00\x00"], [b"\x00\x00\x00", b"\x00\x01\x00", b"\x00\x00\x00"]
        inputs = pack([bytes(b for pair in zip(a, c) for b in pair) for a, c in zip(x, y)])
        shown, state = calls.lanes(example("sticky"), inputs, [0b100], 3)
        self.assertEqual([unpack(shown, k) for k in range(3)], [b"\x00\x01\x01", b"\x00\x00\x00", b"\x01\x01\x01"])
        self.assertEqual(list(state), [0b101])

    def test_each_lane_is_a_run(self):
        rng = random.Random(4)
        for name in ("sticky", "accumulator", "full-adder", "ripple-adder-8", "bitonic-sorter-8", "comparator-divergence", "lfsr-16"):
            sheet = example(name)
            net = Netlist.parse(calls.translate(sheet, lean=True))
            ticks = 30
            given, starts = traces_of(rng, 16, ticks * len(net.input_pins)), traces_of(rng, 16, len(net.registers))
            shown, _ = calls.lanes(sheet, pack(given), pack(starts), ticks)
            for k in range(16):
                self.assertEqual(unpack(shown, k), calls.run(sheet, given[k], starts[k], ticks), (name, k))

    def test_windows_are_one_run(self):
        # any cut into pieces gives what one call gives
        rng = random.Random(5)
        for name in ("accumulator", "comparator-divergence", "serial-adder"):
            sheet = example(name)
            whole = Traces(sheet)
            ticks = 100
            inputs = array("H", [rng.randrange(65536) for _ in range(ticks * whole.inputs)])
            wanted = whole.run(inputs)
            for size in (1, 7, 99):
                parts = Traces(sheet)
                pieces = [inputs[at:at + size * parts.inputs] for at in range(0, len(inputs), size * parts.inputs)]
                windows = list(parts.windows(pieces))
                self.assertEqual(array("H", [n for w in windows for n in w.outputs]), wanted)
                self.assertEqual((parts.state, parts.tick), (whole.state, whole.tick))
                self.assertEqual([w.first for w in windows], list(range(0, ticks, size)))

    def test_more_ticks_than_a_call_has(self):
        # the 16-bit shift register comes round after 65,535 ticks (examples/lfsr-16.run): tick 65,535 shows what tick 0 does
        sheet = example("lfsr-16")
        traces = Traces(sheet, [1] + [0] * 15)
        wide = traces.outputs
        shown = unpack(traces.run(array("H"), 65535 + 40), 0)
        self.assertEqual(len(shown), (65535 + 40) * wide)
        self.assertEqual(shown[65535 * wide:], shown[:40 * wide])
        self.assertNotEqual(shown[65534 * wide:65535 * wide], shown[:wide])

    def test_refusals(self):
        sheet = example("sticky")
        state = array("H", [3])
        for given, starts, ticks in (([0] * 3, state, 2), ([0] * 4, [], 2), ([0] * 4, [0, 0], 2)):
            with self.assertRaises(Refused) as caught:
                calls.lanes(sheet, given, starts, ticks)
            self.assertEqual((caught.exception.number, caught.exception.place), (20, 0))
        with self.assertRaises(Refused) as caught:
            Traces(example("P4"))
        self.assertEqual(caught.exception.number, 19)
        with self.assertRaises(ValueError):
            calls.lanes(sheet, [], state, 65536)

    def test_a_room_that_is_too_short_is_asked_for(self):
        sheet = example("bitonic-sorter-8")
        width = len(Netlist.parse(calls.translate(sheet, lean=True)).input_pins)
        given = [k % 65536 for k in range(9 * width)]
        self.assertEqual(calls.lanes(sheet, given, [], 9, room=1), calls.lanes(sheet, given, [], 9))

    def test_the_window_is_bounded(self):
        for name in ("sticky", "ripple-adder-8", "lfsr-16"):
            traces = Traces(example(name))
            self.assertLessEqual(traces.most, lanes.MOST_TICKS)
            self.assertLessEqual(traces.most * (traces.inputs + traces.outputs), lanes.WINDOW)
