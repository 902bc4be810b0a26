"""An accepted sheet that is to be run: its lean netlist, and the names of its pins, nets and registers."""
from __future__ import annotations

from functools import cached_property
from itertools import groupby
from typing import Sequence

from . import calls
from .files import Source, WrongUse
from .netlist import Netlist
from .pins import NAME, named_outputs, pin_names
from .sheet import Sheet
from .signals import Register, Signals


class Circuit:
    """Refused where the sheet is. `renamed` has other names for pins, by the name that they have."""

    def __init__(self, source: Source, renamed: dict[str, str] | None = None):
        self.source = source
        self.lean = Netlist.parse(calls.translate(source.bytes, lean=True))
        self.sheet = Sheet.parse(source.bytes, source.own)
        self.pins = self._renamed(pin_names(self.sheet, named_outputs(source)), renamed or {})
        given = set(self.lean.input_pins)
        self.inputs = [name for name, pin in zip(self.pins, self.lean.pins) if pin in given]
        self.outputs = [name for name, pin in zip(self.pins, self.lean.pins) if pin not in given]

    @staticmethod
    def _renamed(names: list[str], renamed: dict[str, str]) -> list[str]:
        for old, new in renamed.items():
            if old not in names:
                raise WrongUse("--names: no pin is called %s: they are %s" % (old, ", ".join(names)))
            if not NAME.fullmatch(new):
                raise WrongUse("--names: '%s' is no name for a pin" % new)
        found = [renamed.get(name, name) for name in names]
        twice = next((name for name in found if found.count(name) > 1), None)
        if twice is not None:
            raise WrongUse("--names: two pins would be called %s" % twice)
        return found

    @cached_property
    def signals(self) -> Signals:
        return Signals(self.sheet, Netlist.parse(calls.translate(self.source.bytes)), self.lean)

    @cached_property
    def registers(self) -> list[Register]:
        return self.signals.registers()

    def widths(self) -> list[tuple[str, int]]:
        """Each pin with the number of pins of its vector."""
        return [(name, len(group)) for group in vectors(self.pins) for name in group]


def base(name: str) -> str:
    """The vector that a name is a bit of, or the name."""
    head, _, tail = name.rpartition(".")
    return head if head and tail.isdecimal() else name


def vectors(names: Sequence[str]) -> list[list[str]]:
    """The names in groups: x.0, x.1 and so on, as far as they stand together and from 0 on, are one group."""
    found: list[list[str]] = []
    for head, group in groupby(names, key=base):
        some = list(group)
        whole = some == ["%s.%d" % (head, i) for i in range(len(some))]
        found += [some] if whole else [[name] for name in some]
    return found
