"""The bits of nets inside a circuit, which the proved call does not show: worked out here, tick by tick, from the lean netlist.

What is worked out is held against the pins that the proved call showed at each tick; where they differ, nothing is shown.
"""
from __future__ import annotations

from typing import Sequence

from .circuit import Circuit
from .files import WrongUse
from .netlist import Element
from .running import Stretch
from .signals import vector

GATES = {"zero": "0", "one": "1", "and": "{0} & {1}", "or": "{0} | {1}", "xor": "{0} ^ {1}", "inv": "1 - {0}"}


def chosen(words: str, circuit: Circuit) -> list[str]:
    """The nets that --show names: one, a vector, or several; those that are pins anyhow are left out."""
    nets = circuit.signals.nets
    found: list[str] = []
    for word in (one.strip() for one in words.split(",")):
        names = vector(word, nets)
        if not names:
            raise WrongUse("--show: nothing inside is called %s: there are %s" % (word, ", ".join(nets)))
        found += [name for name in names if name not in found and name not in circuit.pins]
    return found


class Inside:
    """A circuit's nets, worked out. It is one function of Python's own, made from the netlist: a line for each element, in an order that works."""

    def __init__(self, circuit: Circuit, names: Sequence[str]):
        self.circuit, self.names = circuit, list(names)
        self._terminals = [circuit.signals.nets[name] for name in names]
        self._run = self._function()

    def _function(self):
        lean = self.circuit.lean
        driver = {to: source for source, to in lean.wires}
        pins = {pin: "i%d" % k for k, pin in enumerate(lean.input_pins)}

        def given(terminal: int) -> str:
            return pins[terminal] if terminal in pins else "t%d" % driver[terminal]

        shown = ["t%d" % pin for pin in lean.output_pins] + ["t%d" % terminal for terminal in self._terminals]
        lines = ["def run(ticks, state):", "    rows = []", "    for row in ticks:"]
        lines += ["        (%s,) = row" % ", ".join("i%d" % k for k in range(len(pins)))] if pins else []
        lines += ["        (%s,) = state" % ", ".join("t%d" % r.output for r in lean.registers)] if lean.registers else []
        for element in self._ordered(driver):
            words = "{0}" if element.part is None else GATES[element.name]
            lines.append("        t%d = %s" % (element.output, words.format(*(given(i) for i in element.inputs))))
        lines.append("        state = (%s)" % "".join(given(r.inputs[0]) + ", " for r in lean.registers))
        lines += ["        rows.append(bytes((%s)))" % "".join(one + ", " for one in shown), "    return rows"]
        space: dict = {}
        exec("\n".join(lines), space)  # names are numbers of terminals: nothing that was handed in stands in it
        return space["run"]

    def _ordered(self, driver: dict[int, int]) -> list[Element]:
        """All elements but registers, each behind those that drive it: there are no other rings, or the call had refused (19)."""
        by_output = {e.output: e for e in self.circuit.lean.elements if e.name != "reg"}
        done: set[int] = set()
        order: list[Element] = []
        for first in by_output:
            waiting = [first]
            while waiting:
                at = waiting[-1]
                before = [driver[i] for i in by_output[at].inputs if i in driver and driver[i] in by_output and driver[i] not in done]
                if before and at not in done:
                    waiting += before
                    continue
                waiting.pop()
                if at not in done:
                    done.add(at)
                    order.append(by_output[at])
        return order

    def put(self, stretch: Stretch) -> None:
        """Fills in the inner columns of a stretch."""
        ticks = zip(*stretch.inputs) if stretch.inputs else iter([()] * stretch.ticks)
        joined, wide = b"".join(self._run(ticks, tuple(stretch.starts))), len(stretch.outputs) + len(self.names)
        for k, shown in enumerate(stretch.outputs):
            if joined[k::wide] != shown:
                raise AssertionError("what is worked out at the desk is not what the proved call shows")
        stretch.inner = [joined[len(stretch.outputs) + k::wide] for k in range(len(self.names))]
