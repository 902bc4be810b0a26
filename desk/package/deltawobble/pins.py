"""Names for the pins of a sheet: those of the variables that its outermost functions take, then `out`. No two pins have one name."""
from __future__ import annotations

import re
from typing import Optional, Sequence

from .files import Source, WrongUse
from .naming import names_of
from .sheet import Sheet
from .typed import Typed
from .types import Type

#: a comment of a text that names the bits of the result
OUTPUTS = re.compile(r"^\s*--\s*outputs\s*:(.*)$")
NAME = re.compile(r"[A-Za-z_][A-Za-z0-9_']*(?:\.[0-9]+)?")


def pin_names(sheet: Sheet, outputs: Optional[Sequence[str]] = None) -> list[str]:
    """A name for each pin position.

    A variable of several bits is numbered, x.0, x.1 and so on; so is the result, where `outputs` gives its bits no names. A variable with the
    name of an earlier one has _2 behind it.
    """
    node, names = sheet.term, names_of(sheet)
    found: list[str] = []
    taken: set[str] = set()
    t, functions = Typed(sheet).root(), True
    while t.kind > 2:
        functions = functions and node.kind in (0x13, 0x15)
        name = names.bound[node.number][0].name if functions else "in%d" % (len(found) + 1)
        node = node.subterms[0] if functions else node
        found += bits(own_name(name, taken), t.left)
        t = t.right
    if outputs is None:
        return found + bits(own_name("out", taken), t)
    if len(outputs) != t.size:
        raise WrongUse("%d outputs are named, and there are %d" % (len(outputs), t.size))
    twice = next((name for name in outputs if name in found or list(outputs).count(name) > 1), None)
    if twice is not None:
        raise WrongUse("two pins would be called %s" % twice)
    return found + list(outputs)


def own_name(name: str, taken: set[str]) -> str:
    """The name, or the first of name_2, name_3 and so on that is free; from now on it is taken."""
    count, found = 1, name
    while found in taken:
        count += 1
        found = "%s_%d" % (name, count)
    taken.add(found)
    return found


def bits(name: str, t: Type) -> list[str]:
    return [name] if t.size == 1 else ["%s.%d" % (name, i) for i in range(t.size)]


def named_outputs(source: Source) -> Optional[list[str]]:
    """The outputs' names that a comment of the text gives, `-- outputs: greater, diverged`; None where there is none."""
    lines = source.made.text.lines if source.made else []
    for number, line in enumerate(lines, 1):
        match = OUTPUTS.match(line)
        if match:
            names = [word.strip() for word in match[1].split(",")]
            odd = next((name for name in names if not NAME.fullmatch(name)), None)
            if odd is not None:
                raise WrongUse("%s:%d: '%s' is no name for an output" % (source.name, number, odd))
            return names
    return None
