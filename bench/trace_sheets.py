#!/usr/bin/env python3
"""Writes the sheets that bench/trace measures, with how many parts, input pins, registers and output pins each has.

    python3 bench/trace_sheets.py FOLDER [worst]     # prints NAME PARTS INPUTS REGISTERS OUTPUTS, one line each
"""
import os
import sys

sys.path.insert(0, os.path.join(os.path.dirname(os.path.abspath(__file__)), "..", "examples"))
from terms import app, bit, first, fix, fun, pair, prod, proj, sheet  # noqa: E402

gate, let = first.gate, first.let

EXAMPLES = os.path.join(os.path.dirname(os.path.abspath(__file__)), "..", "examples")


def stored(name):
    with open(os.path.join(EXAMPLES, name + ".hex")) as file:
        return bytes.fromhex(" ".join(line.split("#")[0] for line in file))


def of_term(term):
    return bytes(b for own, _ in sheet(term, first) for b in own)


def chain(x, names):
    """parts of one input, one behind the other"""
    for name in names:
        x = gate(name, x)
    return x


def shift(x, stages):
    """registers in a row, 32 for each name, since 64 levels are the limit"""
    if stages == 1:
        return chain(x, ["reg"] * 32)
    return let("y%d" % stages, chain(x, ["reg"] * 32), lambda y: shift(y, stages - 1))


def tree(x, levels, names, number=0):
    """32 chains of parts of one input, joined by xor"""
    if levels == 0:
        return chain(x, names(number))
    return gate("xor", tree(x, levels - 1, names, 2 * number), tree(x, levels - 1, names, 2 * number + 1))


def varied(number):
    """30 registers and inverters: each chain another row of them, so that no simulator takes two for one"""
    return [name for k in range(15) for name in ("inv" if number >> k % 5 & 1 else "reg", "reg")]


def product(n):
    return bit if n == 1 else prod(product(n // 2), product(n - n // 2))


def apart(v, n, body, got=()):
    """the bits of a product, from left to right"""
    if n == 1:
        return body(list(got) + [v])
    return proj(v, "l%d" % len(got), "r%d" % len(got),
                lambda l, r: apart(l, n // 2, lambda more: apart(r, n - n // 2, body, tuple(more)), got))


def together(bits):
    return bits[0] if len(bits) == 1 else pair(together(bits[:len(bits) // 2]), together(bits[len(bits) // 2:]))


def against(n, length):
    """chains of inverters, each made behind the one that feeds it: a sweep settles one chain"""
    chains = lambda q: together([chain(first.const("zero"), ["inv"] * length)] + [chain(x, ["inv"] * length) for x in q[:-1]])
    return fix("s", product(n), lambda s: apart(s, n, chains))


# the most work before the first tick: sweeps for the order, and the search for a ring's lowest input
WORST = [
    ("against-the-order", lambda: against(40, 17), 681, 0, 0, 40),
    ("ring-behind-959", lambda: app(fun("x", bit, lambda x: tree(x, 5, lambda number: ["inv"] * 29)), fix("y", bit, lambda y: gate("inv", y))), 960, 0, 0, 1),
]


def main():
    folder = sys.argv[1]
    if sys.argv[2:] == ["worst"]:
        write(folder, [(name, of_term(term()), *counts) for name, term, *counts in WORST])
        return
    sheets = [
        ("comparator", stored("comparator-divergence"), 8, 2, 2, 2),
        ("ripple-adder-8", stored("ripple-adder-8"), 41, 16, 0, 9),
        ("shift-register-128", of_term(fun("x", bit, lambda x: shift(x, 4))), 128, 1, 128, 1),
        ("mixed-991", of_term(fun("x", bit, lambda x: tree(x, 5, varied))), 991, 1, sum(varied(i).count("reg") for i in range(32)), 1),
    ]
    write(folder, sheets)


def write(folder, sheets):
    for name, data, *counts in sheets:
        with open(os.path.join(folder, name), "wb") as out:
            out.write(data)
        print(name, *counts)


main()
