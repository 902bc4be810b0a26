"""The bit of every net of a lean netlist at a tick. The proved call says what the output pins show; what is inside is worked out here, and
held to what the call said at every tick on the way."""
from __future__ import annotations

import operator
from typing import Iterator, Sequence

from .netlist import Netlist

GATES = {"and": operator.and_, "or": operator.or_, "xor": operator.xor}


class Inside:
    """A lean netlist that a run has accepted, tick by tick: `bits` has a bit for each output and each input pin."""

    def __init__(self, net: Netlist, starts: Sequence[int]):
        self.net, self.inputs, self.outputs = net, net.input_pins, net.output_pins
        self.one = max([e.output for e in net.elements], default=-1) + 1
        #: behind the terminals a bit that is 1, against which an inverter is an exclusive or
        self.bits = [0] * self.one + [1]
        self.drivers = {target: source for source, target in net.wires}
        self.registers = [(self.source(e.first), e.output) for e in net.registers]
        for (_, output), start in zip(self.registers, starts):
            self.bits[output] = start
        for e in net.elements:
            if e.name == "one":
                self.bits[e.output] = 1
        self.steps = self._ordered()

    def _ordered(self) -> list[tuple]:
        """Gates and points, each behind what it reads: its function, its inputs' drivers, its output."""
        owner = {e.output: e for e in self.net.elements if e.name not in ("reg", "zero", "one")}
        steps: list[tuple] = []
        done: set[int] = set()
        for element in owner.values():
            path = [element]
            while path:
                e = path[-1]
                waiting = [owner[s] for s in map(self.source, e.inputs) if s in owner and s not in done]
                if e.output in done or not waiting:
                    path.pop()
                    if e.output not in done:
                        done.add(e.output)
                        steps.append(self._step(e))
                elif waiting[0] in path:
                    raise ValueError("a ring of wires, points and gates passes through no register")
                else:
                    path.append(waiting[0])
        return steps

    def _step(self, e) -> tuple:
        sources = [self.source(t) for t in e.inputs]
        if e.name in GATES:
            return GATES[e.name], sources[0], sources[1], e.output
        return (operator.xor, sources[0], self.one, e.output) if e.name == "inv" else (operator.or_, sources[0], sources[0], e.output)

    def source(self, terminal: int) -> int:
        """Where an input's bit stands: at its driver, or at itself if it is a pin."""
        return self.drivers.get(terminal, terminal)

    def settle(self, inputs: Sequence[int]) -> None:
        """The inputs of a tick go in, and every gate follows."""
        bits = self.bits
        for pin, bit in zip(self.inputs, inputs):
            bits[pin] = bit
        for gate, a, b, out in self.steps:
            bits[out] = gate(bits[a], bits[b])

    def turn(self) -> None:
        """The next tick begins: each register shows what it was given."""
        for output, bit in [(output, self.bits[source]) for source, output in self.registers]:
            self.bits[output] = bit

    def shown(self) -> bytes:
        """What the output pins show."""
        return bytes(self.bits[pin] for pin in self.outputs)

    @property
    def state(self) -> list[int]:
        return [self.bits[output] for _, output in self.registers]


def ticks(net: Netlist, starts: Sequence[int], rows: Sequence[tuple[bytes, bytes]]) -> Iterator[Inside]:
    """The inside at each tick of a run. `rows` has for each tick the input pins' bits, and the output pins' as the proved call gave them."""
    inside = Inside(net, starts)
    for given, wanted in rows:
        inside.settle(given)
        if inside.shown() != wanted:
            raise RuntimeError("what is worked out inside a circuit is not what the run shows")
        yield inside
        inside.turn()
