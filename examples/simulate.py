#!/usr/bin/env python3
"""Runs a lean listing tick after tick, and holds the circuits of this folder to what they are for.
A register's first bit is not known (document 02, L2): each run is given its start bits, and says what it shows with them.

    python3 examples/simulate.py LISTINGS      # a folder of NAME.listing files, as examples/run writes them
"""
import os
import random
import sys


class Circuit:
    """The lean part of a listing: a bit for each output, tick after tick."""

    def __init__(self, text):
        lines = text.split("\n")
        self.points, self.parts, self.driver, self.pins = [], [], {}, []
        for line in lines[lines.index("lean") + 1:lines.index("end")]:
            word, *rest = line.split()
            if word == "point":
                self.points.append((int(rest[0]), int(rest[1])))
            elif word == "part":
                self.parts.append((rest[0], [int(x) for x in rest[1:]]))
            elif word == "wire":
                self.driver[int(rest[1])] = int(rest[0])
            else:
                self.pins.append(int(rest[0]))
        inputs = {i for i, _ in self.points} | {i for _, t in self.parts for i in t[:-1]}
        self.in_pins = [p for p in self.pins if p in inputs]
        self.out_pins = [p for p in self.pins if p not in inputs]
        self.registers = sorted(t[-1] for name, t in self.parts if name == "reg")

    def start(self, starts):
        """the bits that the registers show at tick 0, by rising terminal"""
        assert len(starts) == len(self.registers), "a start bit for each register"
        self.state = dict(zip(self.registers, starts))

    def run(self, starts, ticks):
        """what the output pins show, tick after tick, from these starts"""
        self.start(starts)
        return [self.tick(given) for given in ticks]

    def tick(self, bits):
        given = dict(zip(self.in_pins, bits))
        known = {}

        def value(i):
            return given[i] if i in given else output(self.driver[i])

        def output(o):
            if o not in known:
                known[o] = self.state[o] if o in self.state else self.source[o]()
            return known[o]

        self.source = {}
        for i, o in self.points:
            self.source[o] = lambda i=i: value(i)
        gates = {"zero": lambda: 0, "one": lambda: 1, "inv": lambda a: 1 - a, "and": lambda a, b: a & b,
                 "or": lambda a, b: a | b, "xor": lambda a, b: a ^ b}
        for name, t in self.parts:
            if name != "reg":
                self.source[t[-1]] = lambda name=name, t=t: gates[name](*[value(i) for i in t[:-1]])
        shown = [output(o) for o in self.out_pins]
        self.state = {t[-1]: value(t[0]) for name, t in self.parts if name == "reg"}
        return shown


def bits(n, width):
    return [n >> k & 1 for k in range(width)]


def number(bs):
    return sum(b << k for k, b in enumerate(bs))


def adder(c, width):
    rng = random.Random(7)
    c.start([])
    for _ in range(500):
        x, y = rng.randrange(2 ** width), rng.randrange(2 ** width)
        assert number(c.tick(bits(x, width) + bits(y, width))) == x + y, (x, y)
    return "it has no register"


def full_adder(c):
    c.start([])
    for n in range(8):
        a = bits(n, 3)
        assert number(c.tick(a)) == sum(a), a
    return "it has no register"


def has_period_255(seen):
    return len(set(map(tuple, seen[:255]))) == 255 and seen[255] == seen[0]


def shift_register(c):
    for n in (0, 1, 90, 128, 255):
        assert has_period_255(c.run(bits(n, 8), [[1]] + [[0]] * 256)[1:]), "after a 1 on the pin the period is 255"
        quiet = c.run(bits(n, 8), [[0]] * 256)
        assert has_period_255(quiet) if n else quiet == [[0] * 8] * 256, "with no 1 on the pin zeros stay zeros"
    return "from five starts after a 1 on its pin; with no 1 on it, from any start but zeros"


def chain(c):
    for s in (0, 1):
        said = [shown[0] for shown in c.run([s], [[1], [0], [0], [1]])]
        assert said == [1 - s, 0, 1, 1], said
    return "from either start, which it shows inverted at tick 0"


def comparator(c, second=False):
    """in the second edition diverged's register is made first, where old is named, and so it has the lower terminal"""
    rng = random.Random(9)
    xs, ys = [rng.randrange(2) for _ in range(20)], [0] * 20
    ys[:5] = xs[:5]
    ys[5] = 1 - xs[5]
    compared = {(0, 0): ([0] * 5 + [xs[5]] * 15, [0] * 5 + [1] * 15), (1, 0): ([1] * 20, [0] * 5 + [1] * 15),
                (0, 1): ([0] * 20, [1] * 20), (1, 1): ([1] * 20, [1] * 20)}
    for starts, (greater, diverged) in compared.items():
        shown = c.run(starts[::-1] if second else starts, list(zip(xs, ys)))
        assert [g for g, _ in shown] == greater and [d for _, d in shown] == diverged, starts
    return "from starts 0 0; from any other, greater keeps what it woke up with"


CHECKS = {"full-adder": full_adder, "ripple-adder-8": lambda c: adder(c, 8), "shift-register-8": shift_register,
          "chain-two": chain, "comparator-divergence": comparator}
# the same circuits in the second edition
SECOND = {"full-adder": full_adder, "ripple-adder-8": lambda c: adder(c, 8), "comparator-divergence": lambda c: comparator(c, second=True)}


def saved(one, two):
    """the points and wires that the second edition's full netlist is without"""
    lines = [text.split("\nlean\n")[0].split("\n") for text in (one, two)]
    points, wires = [[sum(line.startswith(word) for line in half) for half in lines] for word in ("point", "wire")]
    return "%d of %d points and %d of %d wires" % (points[0] - points[1], points[0], wires[0] - wires[1], wires[0])


def listing(name):
    with open(os.path.join(sys.argv[1], name + ".listing")) as f:
        return f.read()


def main():
    if len(sys.argv) != 2:
        sys.exit(__doc__)
    for name, check in sorted(CHECKS.items()):
        text = listing(name)
        print("%s does what it is for: %s" % (name, check(Circuit(text))))
        if name in SECOND:
            again = listing(name + "-second")
            print("%s-second too: %s; it saves %s" % (name, SECOND[name](Circuit(again)), saved(text, again)))


if __name__ == "__main__":
    main()
