"""What each block computes, as arithmetic over numbers: no gates, no registers, and nothing of the texts.

A model is made by a function of the block's numbers. It says how wide the inputs and outputs are, in pin order, lowest bit first, and has one
step a tick, from input numbers to output numbers. `feed` gives the inputs of a run, where not every run is allowed; `start` the bits that the
registers start with, where these are not 0.
"""
from __future__ import annotations

from dataclasses import dataclass
from itertools import islice
from random import Random
from typing import Callable, Iterator, Optional, Sequence

Row = tuple[int, ...]


@dataclass
class Model:
    ins: Sequence[int]
    outs: Sequence[int]
    step: Callable[..., Row]
    feed: Optional[Callable[[Random], Iterator[Row]]] = None
    start: Sequence[int] = ()

    def columns(self, drawn: Random, ticks: int) -> list[Sequence[int]]:
        """The inputs of a run, one column for each input."""
        if self.feed is not None:
            return list(zip(*islice(self.feed(drawn), ticks)))
        bits = drawn.getrandbits
        return [[bits(width) for _ in range(ticks)] for width in self.ins]


def plain(ins: Sequence[int], outs: Sequence[int], value: Callable[..., Row]) -> Model:
    """A block without state."""
    return Model(ins, outs, value)


def ones(x: int) -> int:
    return x.bit_count()


def number(bits: Sequence[int]) -> int:
    return sum(bit << i for i, bit in enumerate(bits))


# ---- bits in a row

def half_adder() -> Model:
    return plain([1, 1], [2], lambda x, y: (x + y,))


def full_adder() -> Model:
    return plain([1, 1, 1], [2], lambda c, x, y: (x + y + c,))


def ripple_adder(n: int) -> Model:
    return plain([1, n, n], [n + 1], lambda c, x, y: (x + y + c,))


def adder(k: int) -> Model:
    return ripple_adder(1 << k)


def saturating_adder(k: int) -> Model:
    width = 1 << k
    return plain([1, width, width], [width], lambda c, x, y: (min(x + y + c, (1 << width) - 1),))


def counter(n: int) -> Model:
    seen = 0

    def step(up: int) -> Row:
        nonlocal seen
        shown, seen = seen % (1 << n), seen + up
        return shown,
    return Model([1], [n], step)


def late(n: int) -> Callable[[int], int]:
    """What was given n ticks ago; 0 at first."""
    ring, at = [0] * max(n, 1), 0

    def step(x: int) -> int:
        nonlocal at
        if n == 0:
            return x
        old, ring[at] = ring[at], x
        at = (at + 1) % n
        return old
    return step


def delay(n: int) -> Model:
    back = late(n)
    return Model([1], [1], lambda x: (back(x),))


def taps(n: int) -> Model:
    seen = 0

    def step(x: int) -> Row:
        nonlocal seen
        shown, seen = seen, (seen << 1 | x) & ((1 << n) - 1)
        return shown,
    return Model([1], [n], step)


def pick(n: int, i: int) -> Model:
    return plain([n], [1], lambda x: (x >> i & 1,))


def shift_with_feedback(n: int, exponents: Sequence[int]) -> Model:
    """The next bit is the xor of those that came so many ticks before as the polynomial has exponents."""
    # bit i of `last` came i + 1 ticks before
    last, chosen = 1 << n - 1, sum(1 << e - 1 for e in exponents)

    def step() -> Row:
        nonlocal last
        shown, last = last, (last << 1 | ones(last & chosen) & 1) & ((1 << n) - 1)
        return shown,
    return Model([], [n], step, start=[0] * (n - 1) + [1])


def lfsr(n: int, a: int) -> Model:
    return shift_with_feedback(n, [n, a])


def lfsr4(n: int, a: int, b: int, c: int) -> Model:
    return shift_with_feedback(n, [n, a, b, c])


def gray(n: int) -> Model:
    return plain([n], [n], lambda x: (x ^ x >> 1,))


def ungray(n: int) -> Model:
    codes = {x ^ x >> 1: x for x in range(1 << n)}
    return plain([n], [n], lambda g: (codes[g],))


def gray_counter(n: int) -> Model:
    counting = counter(n)
    return Model([1], [n], lambda up: ((lambda x: x ^ x >> 1)(counting.step(up)[0]),))


def parity(k: int) -> Model:
    return plain([1 << k], [1], lambda x: (ones(x) % 2,))


def population(k: int) -> Model:
    return plain([1 << k], [k + 1], lambda x: (ones(x),))


def choose() -> Model:
    return plain([1, 1, 1], [1], lambda s, x, y: ((x, y)[s],))


def choose_word(k: int) -> Model:
    return plain([1, 1 << k, 1 << k], [1 << k], lambda s, x, y: ((x, y)[s],))


def multiplexer(k: int) -> Model:
    return plain([k, 1 << k], [1], lambda s, x: (x >> s & 1,))


def priority(n: int) -> Model:
    return plain([n], [n], lambda x: (x & -x,))


def order(k: int) -> Model:
    return plain([1 << k, 1 << k], [1, 1], lambda x, y: (int(x < y), int(x != y)))


def unequal(k: int) -> Model:
    return plain([1 << k, 1 << k], [1], lambda x, y: (int(x != y),))


def less(k: int) -> Model:
    return plain([1 << k, 1 << k], [1], lambda x, y: (int(x < y),))


def in_order(k: int) -> Model:
    return plain([1 << k, 1 << k], [1 << k, 1 << k], lambda x, y: (min(x, y), max(x, y)))


def exchange(d: int) -> Model:
    return plain([1, 1], [1, 1], lambda x, y: (max(x, y), min(x, y)) if d else (min(x, y), max(x, y)))


def odd_even_sorter(n: int) -> Model:
    return plain([n], [n], lambda x: ((1 << n) - (1 << n - ones(x)),))


def bitonic(d: int, k: int) -> Model:
    return plain([1 << k], [1 << k], lambda x: ((1 << ones(x)) - 1,)) if d else odd_even_sorter(1 << k)


def butterfly(k: int) -> Model:
    width = 1 << k
    #: for each place of x the places of the result that it stands in
    above = [number([int(i & j == i) for j in range(width)]) for i in range(width)]

    def value(x: int) -> Row:
        shown = 0
        for i in range(width):
            if x >> i & 1:
                shown ^= above[i]
        return shown,
    return plain([width], [width], value)


# ---- streams, lowest bit first

def words(drawn: Random, extra: int, held: Sequence[int] = (), length: int = 0) -> Iterator[Row]:
    """`first`, then so many bits that are drawn at each tick, then numbers that stay for the word. Words of one length, or of 1 to 24 ticks."""
    bits = drawn.getrandbits
    while True:
        stay = tuple(bits(width) for width in held)
        for k in range(length or 1 + bits(32) % 24):
            yield (int(k == 0), *[bits(1) for _ in range(extra)], *stay)


def serial(outcome: Callable[..., int], extra: int, held: Sequence[int] = ()) -> Model:
    """Bit k of a result that is worked out from what has come of the words: bits 0 to k of a sum need no more."""
    at, taken = 0, [0] * extra

    def step(first: int, *given: int) -> Row:
        nonlocal at
        if first:
            at, taken[:] = 0, [0] * extra
        for i in range(extra):
            taken[i] |= given[i] << at
        shown = outcome(*taken, *given[extra:]) >> at & 1
        at += 1
        return shown,
    return Model([1] * (1 + extra) + list(held), [1], step, lambda drawn: words(drawn, extra, held))


def serial_adder() -> Model:
    return serial(lambda x, y: x + y, 2)


def serial_subtractor() -> Model:
    return serial(lambda x, y: x - y, 2)


def serial_negation() -> Model:
    return serial(lambda x: -x, 1)


def serial_less() -> Model:
    at = x = y = 0

    def step(first: int, a: int, b: int) -> Row:
        nonlocal at, x, y
        if first:
            at = x = y = 0
        x, y, at = x | a << at, y | b << at, at + 1
        return int(x < y),
    return Model([1, 1, 1], [1], step, lambda drawn: words(drawn, 2))


def shift(n: int) -> Model:
    return serial(lambda x: x << n, 1)


def scale(a: int, b: int, c: int, d: int) -> Model:
    return serial(lambda x: (8 * a + 4 * b + 2 * c + d) * x, 1)


def product(n: int) -> Model:
    return serial(lambda x, y: x * y, 1, [n])


def multiply_accumulate(w: int, n: int) -> Model:
    at = x = before = total = 0

    def step(first: int, clear: int, bit: int, y: int) -> Row:
        nonlocal at, x, before, total
        if first:
            at = x = 0
            before = 0 if clear else total % (1 << w)
        x |= bit << at
        total = before + x * y
        shown = total >> at & 1
        at += 1
        return shown,

    def feed(drawn: Random) -> Iterator[Row]:
        clear = 1
        while True:
            y = drawn.getrandbits(n)
            for k in range(w):
                yield int(k == 0), clear, drawn.getrandbits(1), y
            clear = int(drawn.getrandbits(2) == 0)
    return Model([1, 1, 1, n], [1], step, feed)


def saturate(w: int) -> Model:
    at, word, shown, over_before, full = 0, 0, 0, 0, 0

    def step(first: int, over: int, x: int) -> Row:
        nonlocal at, word, shown, over_before, full
        if first:
            shown, full, at, word = word, over_before, 0, 0
        out = (1 if full else shown >> at & 1)
        word |= x << at
        at, over_before = at + 1, over
        return out,
    return Model([1, 1, 1], [1], step, lambda drawn: words(drawn, 2, (), w))


def mean(m: int, n: int) -> Model:
    at, word, total, before = 0, 0, 0, 0

    def step(first: int, start: int, x: int) -> Row:
        nonlocal at, word, total, before
        if first:
            total += word
            before, at, word = total // (1 << n), 0, 0
            total = 0 if start else total
        out = before >> at & 1 if at < m else 0
        word |= x << at
        at += 1
        return out,

    def feed(drawn: Random) -> Iterator[Row]:
        while True:
            for j in range(1 << n):
                x = drawn.getrandbits(m)
                for k in range(m + n):
                    yield int(k == 0), int(j == 0), x >> k & 1
    return Model([1, 1, 1], [1], step, feed)


def stepping(w: int, states: int, following: Callable[..., tuple[int, ...]]) -> Model:
    """Numbers of w bits, word after word: loaded where `load` is 1, else what follows the word before."""
    at, now, loading = 0, [0] * states, False

    def step(first: int, load: int, *given: int) -> Row:
        nonlocal at, loading
        if first:
            at, loading = 0, bool(load)
            now[:] = [0] * states if load else [x % (1 << w) for x in following(*now)]
        if loading:
            for i, bit in enumerate(given):
                now[i] |= bit << at
        shown = tuple(x >> at & 1 for x in now)
        at += 1
        return shown

    def feed(drawn: Random) -> Iterator[Row]:
        load = 1
        while True:
            for k in range(w):
                yield (int(k == 0), load, *[drawn.getrandbits(1) for _ in range(states)])
            load = int(drawn.getrandbits(3) == 0)
    return Model([1] * (2 + states), [1] * states, step, feed)


def euler(w: int) -> Model:
    """The step by f s = 2 s."""
    return stepping(w, 1, lambda s: (s + 2 * s,))


def leapfrog(w: int) -> Model:
    """The step by f x = - x, which comes back to where it was after six steps."""
    return stepping(w, 2, lambda x, v: (x + (v - x), v - x))


# ---- decisions

def edge(value: Callable[[int, int], bool]) -> Model:
    before = 0

    def step(x: int) -> Row:
        nonlocal before
        shown, before = int(value(before, x)), x
        return shown,
    return Model([1], [1], step)


def rise() -> Model:
    return edge(lambda before, x: before < x)


def fall() -> Model:
    return edge(lambda before, x: before > x)


def change() -> Model:
    return edge(lambda before, x: before != x)


def sticky() -> Model:
    up = False

    def step(set_: int, clear: int) -> Row:
        nonlocal up
        up = bool(set_) or (up and not clear)
        return int(up),
    return Model([1, 1], [1], step)


def latch() -> Model:
    kept = 0

    def step(take: int, x: int) -> Row:
        nonlocal kept
        kept = x if take else kept
        return kept,
    return Model([1, 1], [1], step)


def some(n: int) -> Model:
    return plain([n], [1], lambda x: (int(x > 0),))


def all_of(n: int) -> Model:
    return plain([n], [1], lambda x: (int(x == (1 << n) - 1),))


def vote(n: int, m: int) -> Model:
    return plain([m], [1], lambda x: (int(ones(x) >= n),))


def watchdog(n: int) -> Model:
    quiet = 0

    def step(kick: int) -> Row:
        nonlocal quiet
        shown = int(quiet >= n)
        quiet = 0 if kick else quiet + 1
        return shown,
    return Model([1], [1], step, lambda drawn: kicks(drawn, 2 * n))


def kicks(drawn: Random, most: int) -> Iterator[Row]:
    """Kicks with up to so many quiet ticks between them."""
    while True:
        yield 1,
        for _ in range(drawn.randrange(most + 1)):
            yield 0,


def timeout(n: int) -> Model:
    return watchdog((1 << n) - 1)


def apart(k: int) -> Model:
    return plain([1 << k], [1], lambda x: (int(0 < x < (1 << (1 << k)) - 1),))


def seldom(drawn: Random, chains: int) -> Iterator[Row]:
    """Chains that mostly show what the chain r shows, and now and then a clear."""
    whole = (1 << chains) - 1
    while True:
        r = drawn.getrandbits(1)
        x = whole * r
        if drawn.getrandbits(3) == 0:
            x ^= 1 << drawn.randrange(chains)
        if drawn.getrandbits(5) == 0:
            x = drawn.getrandbits(chains)
        yield int(drawn.getrandbits(4) == 0), r, x


def diverged() -> Model:
    return divergence(0)


def divergence(k: int) -> Model:
    chains, gone = 1 << k, 0

    def step(clear: int, r: int, x: int) -> Row:
        nonlocal gone
        gone = (0 if clear else gone) | x ^ ((1 << chains) - 1) * r
        return gone,
    return Model([1, 1, chains], [chains], step, lambda drawn: seldom(drawn, chains))


def first_diverged(k: int) -> Model:
    chains, named = 1 << k, 0

    def step(clear: int, r: int, x: int) -> Row:
        nonlocal named
        named = 0 if clear else named
        named = named or x ^ ((1 << chains) - 1) * r
        return named,
    return Model([1, 1, chains], [chains], step, lambda drawn: seldom(drawn, chains))


# ---- circuits that take circuits: with the circuits that the catalogue gives them

def two() -> Model:
    """two inv reg: the left bit turned, the right one a tick late."""
    back = late(1)
    return Model([1, 1], [1, 1], lambda x, y: (1 - x, back(y)))


#: for each byte its bits at the even places, and for each pair of bytes the bits at their even places
SPACED = [number([bit for i in range(8) for bit in (byte >> i & 1, 0)]) for byte in range(256)]
EVEN = {spaced: byte for byte, spaced in enumerate(SPACED)}
EVERY_SECOND = 0x5555


def spaced(x: int) -> int:
    return SPACED[x & 255] | SPACED[x >> 8] << 16


def even(x: int) -> int:
    return EVEN[x & EVERY_SECOND] | EVEN[x >> 16 & EVERY_SECOND] << 8


def riffle(k: int) -> Model:
    half = 1 << k >> 1
    return plain([1 << k], [1 << k], lambda x: (spaced(x & (1 << half) - 1) | spaced(x >> half) << 1 if k else x,))


def unriffle(k: int) -> Model:
    half = 1 << k >> 1
    return plain([1 << k], [1 << k], lambda x: (even(x) | even(x >> 1) << half if k else x,))


def zip_(n: int) -> Model:
    return plain([n, n], [2 * n], lambda x, y: (spaced(x) | spaced(y) << 1,))


def map_(n: int) -> Model:
    """inv at the even places, reg at the odd ones."""
    even, back = sum(1 << i for i in range(0, n, 2)), late(1)
    return Model([n], [n], lambda x: ((~x & even) | back(x & ~even),))


def fold(n: int) -> Model:
    """`and` at the even places, `xor` at the odd ones."""
    def value(z: int, x: int) -> Row:
        for i in range(n):
            z = z ^ x >> i & 1 if i % 2 else z & x >> i & 1
        return z & 1,
    return plain([1, n], [1], value)


def scan(n: int) -> Model:
    """With full adders on pairs: an adder."""
    return plain([1, 2 * n], [n + 1], lambda c, pairs: (even(pairs) + even(pairs >> 1) + c,))


def registers(n: int) -> Model:
    back = late(1)
    return Model([n], [n], lambda x: (back(x),))


def feedback(n: int) -> Model:
    """With a step that takes in x at the low end: the last n bits, the youngest first."""
    return taps(n)
