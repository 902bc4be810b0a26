"""The picture of a circuit with its wires coloured at the tick that a search found."""
from __future__ import annotations

from pathlib import Path
from typing import Optional

from . import calls
from .bits import ticks
from .files import WrongUse
from .netlist import Netlist
from .picture import lay_out, planned, svg
from .picture.png import png
from .searching import Shown

KINDS = (".svg", ".png")


def judge(name: Optional[str]) -> None:
    if name is not None and Path(name).suffix not in KINDS:
        raise WrongUse("%s: a picture is FILE.svg or FILE.png" % name)


def picture(shown: Shown, name: str) -> bytes:
    """SVG or PNG, by the name."""
    circuit, wide = shown.circuit, len(shown.circuit.inputs)
    rows = [(bytes(row[:wide]), bytes(row[wide:])) for row in zip(*shown.columns)]
    for inside in ticks(circuit.lean, shown.starts, rows):
        bits = dict(enumerate(inside.bits))
    full = Netlist.parse(calls.translate(circuit.source.bytes))
    frame = planned(circuit.source, circuit.lean, full, None, False).frame()
    text = svg(lay_out(frame), "%s, tick %d" % (circuit.source.stem, shown.tick), bits)
    return text.encode() if Path(name).suffix == ".svg" else png(text)
