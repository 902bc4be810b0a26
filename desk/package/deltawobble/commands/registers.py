"""deltawobble registers: the registers of a sheet by name, and all other nets."""
from __future__ import annotations

import argparse
import json

from ..answer import Refused
from ..circuit import Circuit
from ..files import Source, read
from ..refusing import say

WORDS = "list the registers of a sheet by terminal, node, place in the text and name"
EXAMPLE = "deltawobble registers examples/comparator-divergence.dw"


def add(parser: argparse.ArgumentParser) -> None:
    parser.add_argument("sheet", help="raw bytes, commented hex or notation; - for standard input")
    parser.add_argument("--all", action="store_true", help="all nets that run --show takes, each with its terminal")


def run(given: argparse.Namespace) -> int:
    source = read(given.sheet)
    try:
        circuit = Circuit(source)
    except Refused as refused:
        return say(source, refused, given.json)
    rows = [row(circuit, source, k) for k in range(len(circuit.registers))]
    if given.json:
        said: dict = {"accepted": True, "registers": rows}
        print(json.dumps({**said, "nets": circuit.signals.nets} if given.all else said))
        return 0
    print("\n".join(table(rows)) if rows else "no registers")
    if given.all:
        print("nets:" if circuit.signals.nets else "no nets")
        for name, terminal in circuit.signals.nets.items():
            print("%5d  %s" % (terminal, name))
    return 0


def row(circuit: Circuit, source: Source, k: int) -> dict:
    """A register: its number as --starts counts, its output terminal, its node, where that stands in the text, and its names."""
    register = circuit.registers[k]
    node = register.element.node
    mark = source.made.mark(node) if source.made and node is not None else None
    used = {"file": source.made.text.files[mark.file].name} if source.made and mark and len(source.made.text.files) > 1 else {}
    return {"register": k, "terminal": register.terminal, "node": node, **used, "line": mark.line if mark else None, "column": mark.column if mark else None,
            "name": register.name, "also": [name for name in dict.fromkeys(register.aliases) if name != register.name]}


def table(rows: list[dict]) -> list[str]:
    words = [["register", "terminal", "node", "place", "name", "also"]]
    for one in rows:
        place = "%s%d:%d" % ("%s:" % one["file"] if "file" in one else "", one["line"], one["column"]) if one["line"] else "-"
        words.append([str(one["register"]), str(one["terminal"]), str(one["node"]), place, one["name"], ", ".join(one["also"]) or "-"])
    wide = [max(len(line[i]) for line in words) for i in range(5)]
    return [("  ".join(word.ljust(w) if i > 2 else word.rjust(w) for i, (word, w) in enumerate(zip(line, wide))) + "  " + line[5]).rstrip() for line in words]
