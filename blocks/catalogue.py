"""The blocks: what each one says of itself, which property it has at which sizes, and at which sizes it is tried against its model."""
from __future__ import annotations

from dataclasses import dataclass
from typing import Callable, Sequence

import models

Sizes = Sequence[tuple[int, ...]]


@dataclass(frozen=True)
class Block:
    """`says` is what the block computes. `property` is the clause that is never 1, and `proved` are the numbers that it is asked with; `label` says
    what these numbers are, and `sized` which blocks they are about. `tried` are sizes of the block at which the model alone judges. `term` makes
    the block with its circuits."""

    family: str
    name: str
    says: str
    property: str
    proved: Sizes
    tried: Sizes
    model: Callable[..., models.Model]
    label: str = ""
    sized: Callable[..., Sizes] = lambda *numbers: [numbers]
    #: a clause that is never 1 from the model's start, and meets 2^n - 1 states on the way
    round: str = ""
    term: Callable[..., str] = lambda name, *size: name + braces(size)
    #: the sizes proved, in words, where there are too many to list
    words: str = ""
    #: the size that docs/blocks shows a run of
    show: tuple[int, ...] = ()
    #: the next numbers, which pass a limit; one more than the last where the property has one number
    next: tuple[int, ...] = ()

    def block(self, size: tuple[int, ...]) -> str:
        return self.term(self.name, *size)

    def never(self, numbers: tuple[int, ...]) -> str:
        return self.property + braces(numbers)

    def beyond(self) -> tuple[int, ...]:
        """Numbers just above those proved, at which a limit has to stop the proof; none where the block has no size."""
        return self.next or (tuple(number + 1 for number in self.proved[-1]) if len(self.proved[-1]) == 1 else ())

    def proved_blocks(self, numbers: tuple[int, ...]) -> Sizes:
        return self.sized(*numbers)


def braces(size: Sequence[int]) -> str:
    return "{%s}" % ", ".join(map(str, size)) if size else ""


def one(*values: int) -> Sizes:
    return [(value,) for value in values]


def upto(first: int, last: int) -> Sizes:
    return one(*range(first, last + 1))


#: a block without numbers has one size, which is all there is to prove and to try
ALONE: Sizes = [()]
#: a stream's block has no size, but its words have
WORD, NO_SIZE = "bits a word", lambda n: ALONE

BITS = [
    Block("bits", "half_adder", "x + y of two bits", "half_adder_differs", ALONE, ALONE, models.half_adder),
    Block("bits", "full_adder", "x + y + c of three bits", "full_adder_differs", ALONE, ALONE, models.full_adder),
    Block("bits", "ripple_adder", "x + y + c, n bits each", "ripple_adder_differs", upto(1, 5), one(6, 7), models.ripple_adder),
    Block("bits", "adder", "x + y + c, 2^k bits each", "adder_differs", upto(0, 2), one(3, 4, 5), models.adder),
    Block("bits", "saturating_adder", "x + y + c, or 2^(2^k) - 1 if that is less", "saturating_adder_differs", upto(0, 2), one(3, 4), models.saturating_adder),
    Block("bits", "counter", "the ticks with `up` before this one, modulo 2^n", "counter_jumps", upto(1, 9), one(12, 15), models.counter),
    Block("bits", "delay", "x, n ticks later", "delay_differs", upto(0, 6), one(12, 20), models.delay),
    Block("bits", "taps", "x at each of the n ticks before, the last one first", "taps_differ", upto(1, 9), one(12, 16), models.taps),
    Block("bits", "pick", "bit i of n", "pick_differs", ALONE, [(8, 5), (16, 15)], models.pick, sized=lambda: [(3, 0), (3, 1), (3, 2)]),
    Block("bits", "lfsr", "a shift register with feedback by x^n + x^a + 1: not all 0, and never so", "lfsr_dies",
          [(2, 1), (3, 1), (4, 1), (5, 2), (6, 1), (7, 1), (9, 4), (10, 3), (11, 2)], [(15, 1)], models.lfsr, "n, a", round="lfsr_dead"),
    Block("bits", "lfsr4", "the same by x^n + x^a + x^b + x^c + 1", "lfsr4_dies", [(8, 6, 5, 4), (12, 6, 4, 1)], [(16, 15, 13, 4)], models.lfsr4, "n, a, b, c",
          round="lfsr4_dead"),
    Block("bits", "gray", "the Gray code of a number", "gray_jumps", upto(1, 10), one(12, 14), models.gray),
    Block("bits", "ungray", "the number of a Gray code", "ungray_differs", upto(1, 9), one(10, 12), models.ungray),
    Block("bits", "gray_counter", "counter in Gray code", "gray_counter_jumps", upto(1, 9), one(12), models.gray_counter),
    Block("bits", "parity", "the number of ones of 2^k bits, modulo 2", "parity_differs", upto(0, 3), one(4, 6), models.parity),
    Block("bits", "population", "the number of ones of 2^k bits", "population_differs", upto(0, 3), one(4), models.population),
    Block("bits", "choose", "x where s is 0, y where s is 1", "choose_differs", ALONE, ALONE, models.choose),
    Block("bits", "choose_word", "the same for words of 2^k bits", "choose_word_differs", upto(0, 2), one(3, 4), models.choose_word),
    Block("bits", "multiplexer", "bit s of 2^k", "multiplexer_differs", upto(1, 3), one(4, 5), models.multiplexer),
    Block("bits", "priority", "of the bits that are 1 the first one", "priority_overtakes", upto(1, 7), one(8, 12), models.priority),
    Block("bits", "order", "x < y, and whether x and y differ, 2^k bits each", "order_differs", upto(0, 2), one(3, 4), models.order),
    Block("bits", "unequal", "whether x and y differ, 2^k bits each", "unequal_differs", upto(0, 2), one(3, 5), models.unequal),
    Block("bits", "less", "x < y, 2^k bits each", "less_differs", upto(0, 2), one(3, 5), models.less),
    Block("bits", "in_order", "the lower of two numbers of 2^k bits, then the higher", "in_order_fails", upto(0, 2), one(3, 4), models.in_order),
    Block("bits", "exchange", "two bits in order: rising (0), falling (1)", "exchange_fails", ALONE, one(0, 1), models.exchange, sized=lambda: one(0, 1)),
    Block("bits", "bitonic", "2^k bits sorted: rising (0), falling (1)", "bitonic_fails", [(d, k) for k in (1, 2, 3) for d in (0, 1)],
          [(0, 4), (1, 4)], models.bitonic, "d, k", next=(0, 4)),
    Block("bits", "odd_even_sorter", "n bits sorted, the ones last", "odd_even_sorter_fails", [(n, n.bit_length()) for n in range(1, 9)], one(9, 12),
          models.odd_even_sorter, "n, bits that count to n", sized=lambda n, m: one(n), next=(9, 4)),
    Block("bits", "butterfly", "place j: the xor of the places whose ones are ones of j", "butterfly_differs", upto(0, 3), one(4, 5), models.butterfly),
]

SERIAL = [
    Block("serial", "serial_adder", "x + y, modulo 2^n where the word has n bits", "serial_adder_differs", upto(1, 5), ALONE, models.serial_adder, WORD, NO_SIZE),
    Block("serial", "serial_subtractor", "x - y", "serial_subtractor_differs", upto(1, 5), ALONE, models.serial_subtractor, WORD, NO_SIZE),
    Block("serial", "serial_negation", "- x", "serial_negation_differs", upto(1, 7), ALONE, models.serial_negation, WORD, NO_SIZE),
    Block("serial", "serial_less", "x < y in the bits so far", "serial_less_differs", upto(1, 7), ALONE, models.serial_less, WORD, NO_SIZE),
    Block("serial", "shift", "2^m x", "shift_differs", [(m, n) for m in (0, 1, 2, 3) for n in (1, 2, 3, 4, 5, 6)], one(4, 8), models.shift,
          "m, bits a word", sized=lambda m, n: one(m)),
    Block("serial", "scale", "x times the number with these four binary digits", "scale_differs",
          [(0, 0, 0, 1, 1, 5), (0, 0, 1, 0, 2, 5), (0, 0, 1, 1, 3, 5), (0, 1, 0, 1, 5, 5), (0, 1, 1, 1, 7, 5), (1, 0, 0, 1, 9, 4), (1, 0, 1, 0, 10, 4)],
          [(0, 0, 1, 1), (1, 0, 1, 0), (1, 1, 1, 1)], models.scale,
          "digits, number, bits a word", sized=lambda a, b, c, d, e, n: [(a, b, c, d)]),
    Block("serial", "product", "x y, where y has n bits and stays for the word", "product_differs", [(n, m) for n in (3, 4, 5) for m in (1, 2, 3)], one(3, 8), models.product,
          "bits a word, n", show=(3,), sized=lambda n, m: one(m)),
    Block("serial", "multiply_accumulate", "the sum of x y since clear, in words of w bits", "multiply_accumulate_differs",
          [(2, 1), (2, 2), (3, 1), (3, 2)], [(8, 4), (16, 4)], models.multiply_accumulate, "w, n", next=(3, 3), show=(4, 2)),
    Block("serial", "saturate", "the word before, or all ones where `over` was 1 at its end", "saturate_differs", upto(2, 4), one(8, 16), models.saturate, "w", show=(4,)),
    Block("serial", "mean", "the mean of 2^n words of m + n bits, rounded down", "mean_differs", [(1, 2), (2, 3)], [(3, 1), (6, 2), (10, 2)], models.mean,
          "m, m + n; n is 1", sized=lambda m, w: [(m, 1)], next=(3, 4), show=(3, 1)),
    Block("serial", "euler", "x at load, else s + f s of the word before; here f s = 2 s", "euler_differs", upto(2, 3), one(8, 16), models.euler, "w",
          term=lambda name, w: "euler{%d} twice" % w, show=(4,)),
    Block("serial", "leapfrog", "place and speed at load, else a step of both; here f x = - x", "leapfrog_differs", one(2), one(8, 16), models.leapfrog, "w",
          term=lambda name, w: "leapfrog{%d} serial_negation" % w, show=(4,)),
]

DECISIONS = [
    Block("decisions", "rise", "whether x goes up", "rise_differs", ALONE, ALONE, models.rise),
    Block("decisions", "fall", "whether x goes down", "fall_differs", ALONE, ALONE, models.fall),
    Block("decisions", "change", "whether x changes", "change_differs", ALONE, ALONE, models.change),
    Block("decisions", "sticky", "whether set was 1 since the last clear, at its tick or behind it", "sticky_fails", ALONE, ALONE, models.sticky),
    Block("decisions", "latch", "x at the last tick with take", "latch_fails", ALONE, ALONE, models.latch),
    Block("decisions", "some", "whether any of n bits is 1", "some_differs", upto(1, 9), one(12), models.some),
    Block("decisions", "all", "whether all n bits are 1", "all_differs", upto(1, 9), one(12), models.all_of),
    Block("decisions", "vote", "whether n of the m bits are 1", "vote_differs", [(n, m, m - n) for m in range(1, 9) for n in range(1, m + 1)],
          [(5, 9), (2, 12)], models.vote, sized=lambda n, m, i: [(n, m)], words="all n up to m, m = 1 to 8", next=(4, 9, 5)),
    Block("decisions", "watchdog", "whether kick was 0 at each of the n ticks before", "watchdog_differs", upto(1, 5), one(8, 12), models.watchdog),
    Block("decisions", "timeout", "the same of 2^n - 1 ticks", "timeout_differs", [(1, 1), (2, 3), (3, 7)], one(6, 8), models.timeout, "n, 2^n - 1",
          sized=lambda n, t: one(n), next=(4, 15)),
    Block("decisions", "apart", "whether 2^k bits are not all alike", "apart_differs", upto(0, 3), one(4, 5), models.apart),
    Block("decisions", "diverged", "whether x and y have differed since clear", "diverged_fails", ALONE, ALONE, models.diverged),
    Block("decisions", "divergence", "which of 2^k chains have differed from r since clear", "divergence_fails", upto(0, 3), one(4), models.divergence),
    Block("decisions", "first_diverged", "which of 2^k chains differed from r at the first tick since clear at which any did", "first_diverged_fails",
          upto(0, 3), one(4), models.first_diverged),
]

TAKE_IN = "(fun p : 1 * bits{%d}. let (x, s) = p in (s, %s))"


def alternating(one_circuit: str, other: str, n: int) -> str:
    return " ".join(other if i % 2 else one_circuit for i in range(n))


def taking_in(n: int) -> str:
    """The feedback step that takes x in at the low end and drops the highest bit."""
    names = ["s%d" % i for i in range(n)]
    if n == 1:
        return TAKE_IN % (1, "x")
    return TAKE_IN % (n, "let (%s) = s in (%s)" % (", ".join(names), ", ".join(["x"] + names[:-1])))


FUNCTIONS = [
    Block("functions", "two", "f on the left one, g on the right one", "two_differs", ALONE, ALONE, models.two, term=lambda name: "two[1, 1] inv reg"),
    Block("functions", "riffle", "the two halves of 2^k shuffled", "riffle_differs", ALONE, one(2, 4, 5), models.riffle, sized=lambda: one(3),
          term=lambda name, k: "riffle[1]{%d}" % k),
    Block("functions", "unriffle", "the even places, then the odd ones", "unriffle_differs", upto(0, 3), one(4, 5), models.unriffle,
          term=lambda name, k: "unriffle[1]{%d}" % k),
    Block("functions", "zip", "two rows of n as one row of pairs", "zip_differs", upto(1, 6), one(7, 8), models.zip_, term=lambda name, n: "zip[1, 1]{%d}" % n),
    Block("functions", "map", "each of n circuits on its place of the row", "map_differs", upto(1, 9), one(9), models.map_,
          term=lambda name, n: "map[1, 1]{%d} %s" % (n, alternating("inv", "reg", n))),
    Block("functions", "fold", "n circuits, each with its place of the row and what the one before it gave", "fold_differs", upto(1, 11), one(10), models.fold,
          sized=lambda n: one(n) if n < 11 else [],  # eleven circuits behind one another are too deep for a sheet of their own
          term=lambda name, n: "fold[1, 1]{%d} %s" % (n, alternating("and", "xor", n))),
    Block("functions", "scan", "the same, each giving a place of a row too", "scan_differs", upto(1, 5), one(6), models.scan,
          term=lambda name, n: "scan[1 * 1, 1, 1]{%d} %s" % (n, " ".join(["(fun p : (1 * 1) * 1. let (q, c) = p in full_adder (c, q))"] * n))),
    Block("functions", "registers", "n bits a tick later", "registers_differ", upto(1, 9), one(12), models.registers),
    Block("functions", "feedback", "f, whose second result is its state at the next tick", "feedback_jumps", upto(1, 9), one(9), models.feedback,
          term=lambda name, n: "feedback[1, bits{%d}]{%d} %s" % (n, n, taking_in(n))),
]

ALL = BITS + SERIAL + DECISIONS + FUNCTIONS
