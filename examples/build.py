#!/usr/bin/env python3
"""Writes the .hex files of this folder whose sheets are too long to write by hand.

    python3 examples/build.py            # from the repository's root; then examples/run shows what they give
"""
import os

from terms import app, arrow, bit, first, fix, fun, pair, prod, proj, second, sheet

HERE = os.path.dirname(os.path.abspath(__file__))


const, gate = first.const, first.gate


def write(name, meaning, term, edition=first):
    lines = sheet(term, edition)
    with open(os.path.join(HERE, name + ".hex"), "w") as out:
        for m in meaning.strip().split("\n"):
            out.write("# %s\n" % m.strip())
        for own, words in lines:
            out.write("%-12s # %s\n" % (" ".join("%02X" % b for b in own), words))


def full_adder(edition, a, b, c, body):
    """sum and carry of three bits, named once each"""
    gate, let = edition.gate, edition.let
    return let("h", gate("xor", a, b), lambda h:
           let("s", gate("xor", h, c), lambda s:
           let("k", gate("or", gate("and", a, b), gate("and", h, c)), lambda k: body(s, k))))


def one_adder(edition):
    return fun("a", bit, lambda a: fun("b", bit, lambda b: fun("c", bit, lambda c: full_adder(edition, a, b, c, pair))))


def vector(n):
    return bit if n == 1 else prod(bit, vector(n - 1))


def apart(v, n, name, body, got=()):
    """the bits of a vector, least first"""
    if n == 1:
        return body(list(got) + [v])
    return proj(v, "%s%d" % (name, len(got)), "%sr%d" % (name, len(got)), lambda x, rest: apart(rest, n - 1, name, body, tuple(got) + (x,)))


def together(bits):
    return bits[0] if len(bits) == 1 else pair(bits[0], together(bits[1:]))


def ripple(xs, ys, c, sums=()):
    if not xs:
        return together(list(sums) + [c])
    # a projection costs one level of depth a stage, where names by functions would cost six: 64 levels are the limit
    return proj(full_adder(first, xs[0], ys[0], c, pair), "s%d" % len(sums), "k%d" % len(sums), lambda s, k: ripple(xs[1:], ys[1:], k, tuple(sums) + (s,)))


def named_ripple(xs, ys, c, sums=()):
    """the same with names by 1B, three levels of depth a stage: sum and carry need no pair to leave it"""
    if not xs:
        return together(list(sums) + [c])
    return full_adder(second, xs[0], ys[0], c, lambda s, k: named_ripple(xs[1:], ys[1:], k, tuple(sums) + (s,)))


def adder_8(stages, zero):
    return fun("x", vector(8), lambda x: fun("y", vector(8), lambda y:
        apart(x, 8, "x", lambda xs: apart(y, 8, "y", lambda ys: stages(xs, ys, zero)))))


def comparator(edition):
    """the state is (greater, diverged)"""
    gate, let = edition.gate, edition.let
    return fun("x", bit, lambda x: fun("y", bit, lambda y: fix("s", prod(bit, bit), lambda s: proj(s, "greater", "diverged", lambda g, d:
        let("old", gate("reg", d), lambda old:
        let("differ", gate("xor", x, y), lambda differ:
            pair(gate("or", gate("reg", g), gate("and", gate("inv", old), gate("and", differ, x))),
                 gate("or", old, differ))))))))


def unread_comparator(edition):
    """the comparator with an alarm of its own for the desk, of which nobody reads the output"""
    gate, let = edition.gate, edition.let
    return fun("x", bit, lambda x: fun("y", bit, lambda y: fix("s", prod(bit, bit), lambda s: proj(s, "greater", "diverged", lambda g, d:
        let("old", gate("reg", d), lambda old:
        let("differ", gate("xor", x, y), lambda differ:
        let("alarm", gate("or", old, differ), lambda alarm:
            pair(gate("or", gate("reg", g), gate("and", gate("inv", old), gate("and", differ, x))),
                 gate("or", old, differ)))))))))


def main():
    # the paper's section 3.1
    write("paper-identity", "Section 3.1.1: the identity on bits, one point, pins its two ends.", fun("x", bit, lambda x: app(x)))
    write("paper-replicate", "Section 3.1.1: one bit stream, shown twice.", fun("x", bit, lambda x: pair(x, x)))
    twice = app(fun("x", bit, lambda x: pair(x, x)), const("zero"))
    write("paper-projection", "Section 3.1.1: proj (λx:1. (x, x)) zero of (y, z) in and y z. Lean: no point is left.",
          proj(twice, "y", "z", lambda y, z: gate("and", y, z)))
    write("paper-and-shared", "Section 3.1.1: (λx:1. and x x) zero. The same circuit as the projection's.",
          app(fun("x", bit, lambda x: gate("and", x, x)), const("zero")))
    write("paper-and-zero-zero", "Section 3.1.1: and zero zero. Two zeros: a β-step changes the structure.", gate("and", const("zero"), const("zero")))
    write("paper-linear-identity", "Section 3.1.2: the identity on circuits from a bit to a bit: two separate points.",
          fun("f", arrow(bit, bit), lambda f: app(f)))
    write("paper-linear-zero", "Section 3.1.2: (λ^f:1→1. f zero) ^ reg. This is P3. The pin shows the register's start at tick 0, then 0.",
          app(fun("f", arrow(bit, bit), lambda f: app(f, const("zero"))), const("reg")))
    write("paper-feedback", "Section 3.1.3: fix x:1. and zero (reg x). This is P6. The pin shows 0 from either start.",
          fix("x", bit, lambda x: gate("and", const("zero"), gate("reg", x))))
    # circuits from the desk
    write("full-adder", """
        A full adder: three bits in; out comes the pair of sum and carry.
        Pins: a, b, c in, then sum, carry.""",
          one_adder(first))
    write("full-adder-second", """
        The full adder in the second edition: the gates take pairs, and names (1B) need no points.
        Pins: a, b, c in, then sum, carry.""",
          one_adder(second), second)
    write("ripple-adder-8", """
        A ripple adder of 8 bits: two vectors (pairs nested to the right, least bit first); out come 8 sum bits and the carry.
        Pins: 8 bits of x, 8 bits of y, then 8 sums and the carry.""",
          adder_8(ripple, const("zero")))
    write("ripple-adder-8-second", """
        The ripple adder of 8 bits in the second edition. Each stage names its sum and its carry (1B) for the stages below it:
        no pair, no projection, and three levels of depth a stage where names by functions would cost six.
        Pins: 8 bits of x, 8 bits of y, then 8 sums and the carry.""",
          adder_8(named_ripple, second.const("zero")), second)

    def shift(r, n, seed, taps):
        """a register chain in a loop: bit 0 takes the feedback, every other the bit before it"""
        return fix(r, vector(n), lambda v: apart(v, n, "q", lambda q:
            together([gate("reg", gate("or", seed, feedback([q[t] for t in taps])))] + [gate("reg", q[i]) for i in range(n - 1)])))

    def feedback(bits):
        return bits[0] if len(bits) == 1 else gate("xor", bits[0], feedback(bits[1:]))

    write("shift-register-8", """
        A linear feedback shift register of 8 bits (the card's random source), taps at 8, 6, 5, 4.
        The card doesn't clear its registers. If all eight wake up at zero they never leave zero by themselves: the pin held at 1
        for one tick starts it, from any start bits. With the pin at 0 it runs by itself from any start bits but eight zeros.
        Pins: start in, then the 8 register bits, first to last.""",
          fun("start", bit, lambda start: shift("v", 8, start, [7, 5, 4, 3])))
    chain_ty = arrow(bit, bit)
    write("chain-two", """
        A function of higher order: it takes two circuits from a bit to a bit and chains them. Each is used exactly once: linear.
        Applied to a register and an inverter: a bit comes out delayed and inverted; at tick 0 it shows the register's start, inverted.
        Pins: the bit in, the bit out.""",
          app(fun("f", chain_ty, lambda f: fun("g", chain_ty, lambda g: fun("x", bit, lambda x: app(g, app(f, x))))), const("reg"), const("inv")))
    write("chain-open", """
        The same function, not applied: the card's user plugs the two circuits in.
        Pins: the first circuit's input (an output here) and output (an input here), the second's, then the bit in and the bit out.""",
          fun("f", chain_ty, lambda f: fun("g", chain_ty, lambda g: fun("x", bit, lambda x: app(g, app(f, x))))))
    write("comparator-unread", """
        The divergence comparator with an alarm gate whose output nobody reads: the card's profile refuses it with 29.
        Pins: x, y in, then greater, diverged.""",
          unread_comparator(first))
    write("comparator-divergence", """
        A bit-serial comparator of two streams, most significant bit first, with a divergence bit that stays once it is set.
        State: (greater, diverged). A stream that differs sets diverged; greater keeps the verdict of the first difference.
        This is so if both registers start with 0. If diverged's register starts with 1, diverged is 1 from tick 0 on and greater
        keeps its own start; if only greater's does, greater is 1 whatever comes.
        Pins: x, y in, then greater, diverged.""",
          comparator(first))
    write("comparator-divergence-second", """
        The comparator with a divergence bit in the second edition: the gates take pairs, and the names old and differ (1B) need
        no points. Both registers must start with 0; diverged's is made first here, where old is named.
        Pins: x, y in, then greater, diverged.""",
          comparator(second), second)


if __name__ == "__main__":
    main()
