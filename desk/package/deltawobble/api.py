"""The calls as Python programs use them: a sheet is bytes, what `make` gives, or a path; wrong arguments are TypeError or ValueError.

The modules below hand bytes to the proved calls; here stands what is done for a caller's convenience.
"""
from __future__ import annotations

import os
from contextlib import contextmanager
from typing import Iterator, Optional, Sequence, Union

from . import calls
from . import explain as explaining
from .answer import Refused
from .at_offset import limit
from .circuit import Circuit
from .files import Source, need_text, raw, read, read_net
from .netlist import Netlist
from .notation import Made
from .notation import make as made_from
from .notation import show as shown
from .ran import Ran, bits_of, starts_of

Given = Union[bytes, bytearray, memoryview, Made, Source, str, "os.PathLike[str]"]


def source(sheet: Given) -> Source:
    """A sheet that was given, in any form, with the names that it was written with."""
    if isinstance(sheet, Source):
        return sheet
    if isinstance(sheet, Made):
        return Source(sheet.text.name, sheet.sheet, sheet)
    if isinstance(sheet, (bytes, bytearray, memoryview)):
        return Source("sheet", bytes(sheet))
    if isinstance(sheet, (str, os.PathLike)):
        return read(os.fspath(sheet))
    raise TypeError("a sheet is bytes, what make gives, or a path, and not %s" % type(sheet).__name__)


def net_bytes(net: Union[bytes, bytearray, memoryview, str, "os.PathLike[str]"]) -> bytes:
    """A netlist that was given."""
    if isinstance(net, (bytes, bytearray, memoryview)):
        return bytes(net)
    if isinstance(net, (str, os.PathLike)):
        return read_net(os.fspath(net)).bytes
    raise TypeError("a netlist is bytes or a path, and not %s" % type(net).__name__)


@contextmanager
def _told(sheet: bytes) -> Iterator[None]:
    """Refusal 8 says which limit, and how far."""
    try:
        yield
    except Refused as refused:
        if refused.number == 8:
            refused.sentence = limit(sheet, refused)
        raise


def translate(sheet: Given, *, lean: bool = False, plain: bool = False, card: bool = False) -> bytes:
    """The netlist of a sheet: the full one or the lean one, with nodes named or in plain kinds 21 and 22, held to the card's profile or not."""
    data = source(sheet).bytes
    with _told(data):
        return calls.translate(data, lean=bool(lean), plain=bool(plain), card=bool(card))


def stretch(sheet: Given, node: int) -> tuple[int, int]:
    """Where a node and its subterms stand in the sheet: start and length. (0, 0) where 2 to 9 refuse the sheet, or there is no such node."""
    if not isinstance(node, int):
        raise TypeError("a node is a number, and not %s" % type(node).__name__)
    if not 0 <= node < 1 << 64:
        raise ValueError("a node's number is 0 or more, and not %d" % node)
    return calls.stretch(source(sheet).bytes, node)


def batch(sheets: Sequence[Given], *, lean: bool = False, plain: bool = False, card: bool = False) -> list[Union[bytes, Refused]]:
    """For each sheet its netlist, or its refusal, from one call."""
    if isinstance(sheets, (str, bytes, bytearray, memoryview, os.PathLike, Made)):
        raise TypeError("batch takes a list of sheets, and here is one")
    return calls.batch([source(sheet).bytes for sheet in sheets], lean=bool(lean), plain=bool(plain), card=bool(card))


def verilog(sheet: Given) -> str:
    """The lean netlist as one module of structural Verilog (L1)."""
    data = source(sheet).bytes
    with _told(data):
        return calls.verilog(data)


def run(sheet: Given, trace=None, starts=None, ticks: Optional[int] = None) -> Ran:
    """A trace through the lean netlist (L4).

    `trace` has a bit for each input pin and tick: rows, a dict of columns by pin name, a numpy array of ticks by pins, or bytes, one a bit;
    without one all inputs are 0, for so many `ticks`. `starts` has a bit for each register by rising terminal, 0 where it is not said.

        >>> ran = run(make("main = fun x : 1. reg x"), [[1], [0], [1]])
        >>> ran.names, ran["out"]
        (['x', 'out'], [0, 1, 0])
    """
    given = source(sheet)
    with _told(given.bytes):
        circuit = Circuit(given)
    bits, ticks = bits_of(trace, circuit.inputs, ticks)
    shown = through(given.bytes, circuit.lean, bits, starts_of(starts, len(circuit.lean.registers)), ticks)
    return Ran(circuit.inputs, circuit.outputs, bits, shown, ticks)


def through(sheet: bytes, lean: Netlist, bits: bytes, starts: bytes, ticks: int) -> bytes:
    """The output pins' bits. A run longer than one call's is lane 0 of a run in windows."""
    if ticks <= 65535:
        return calls.run(sheet, bits, starts, ticks)
    from .lanes import Traces, pack, unpack
    return unpack(Traces(sheet, list(starts), lean).run(pack([bits]), ticks), 0)


def never(sheet: Given, pin: Union[int, str, None] = None, starts: Optional[Sequence[int]] = None) -> calls.Searched:
    """Whether an output pin is 0 at every tick of every run: `holds`, with the number of `states`; or the first `tick` at which it can be 1, and a
    shortest trace, `starts` and `inputs`, that shows it.

    `pin` is a name, or a number among the output pins; it may be left out where there is one. `starts` has 0, 1, or 2 for either, for each
    register by rising terminal; either where it is not said.

        >>> never(make("main = fun x : 1. and x (inv x)")).holds
        True
        >>> never(make("main = fun x : 1. reg x"), starts=[0])
        Searched(states=None, tick=1, starts=b'\\x00', inputs=b'\\x01\\x00')
    """
    given = source(sheet)
    with _told(given.bytes):
        circuit = Circuit(given)
    if pin is None and len(circuit.outputs) != 1:
        raise ValueError("which pin? the output pins are %s" % ", ".join(circuit.outputs))
    if isinstance(pin, str) and pin not in circuit.outputs:
        raise ValueError("no output pin is called %s: they are %s" % (pin, ", ".join(circuit.outputs)))
    if pin is not None and not isinstance(pin, (int, str)):
        raise TypeError("a pin is a name or a number, and not %s" % type(pin).__name__)
    number = circuit.outputs.index(pin) if isinstance(pin, str) else pin or 0
    return calls.never(given.bytes, bytes([2] * len(circuit.lean.registers) if starts is None else starts), number)


def check(net, *, lean: bool = False) -> None:
    """Nothing, where a netlist from outside in kinds 21 to 24 is accepted (L8); else its refusal."""
    calls.check(net_bytes(net), lean=bool(lean))


def back(net, *, lean: bool = False) -> bytes:
    """The sheet of a netlist that is accepted (L11)."""
    return calls.back(net_bytes(net), lean=bool(lean))


def explain(sheet: Given, *, card: bool = False) -> str:
    """A report on a sheet, its first line `accepted` or `refused NUMBER PLACE`; `card` asks for the card's profile too."""
    given = source(sheet)
    return "\n".join(explaining.report(given.bytes, card=bool(card), own=given.own)[1]) + "\n"


def make(text: Union[str, "os.PathLike[str]"], name: str = "text") -> Made:
    """The sheet of a text in the notation, or of a file with one. NotationError where it cannot be read.

        >>> make("main = reg zero").sheet.hex(" ")
        '01 03 00 00 14 1a 01 01 1a 00 00'
    """
    if isinstance(text, os.PathLike):
        path = os.fspath(text)
        return made_from(need_text(path, raw(path)), path)
    if not isinstance(text, str):
        raise TypeError("a text is a str, or a path of a file with one, and not %s" % type(text).__name__)
    return made_from(text, name)


def show(sheet: Given) -> str:
    """The text of an accepted sheet, with the names that it was written with. What is refused has no text: Refused."""
    given = source(sheet)
    with _told(given.bytes):
        return shown(given.bytes, given.own)


__all__ = ["translate", "stretch", "batch", "verilog", "run", "never", "check", "back", "explain", "make", "show"]
