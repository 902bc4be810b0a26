"""Sheets and netlists as commented hex, one record a line."""
from __future__ import annotations

from typing import Optional

from .naming import names_of
from .netlist import BODY, Netlist
from .sheet import SECOND, Own, Sheet, read_types
from .tree import label


#: bytes that a report shows of a stretch
MOST_BYTES = 32


def hex_of(part: bytes) -> str:
    return " ".join("%02X" % b for b in part)


def shortened(part: bytes) -> str:
    """Bytes in hex, each behind a space; past 32 of them three dots."""
    return "".join(" %02X" % b for b in part[:MOST_BYTES]) + (" ..." if len(part) > MOST_BYTES else "")


def sheet_hex(data: bytes, own: Optional[Own] = None) -> str:
    """A sheet that can be read: each type, and each node in the words of the notation, with its own names where there are some."""
    sheet = Sheet.parse(data, own)
    names, rows = names_of(sheet), [(bytes([SECOND]), "second edition")] if sheet.edition == 2 else []
    for number, (offset, t) in enumerate(read_types(data, sheet.edition - 1)[0]):
        rows.append((data[offset:offset + (1 if t.kind == 1 else 3)], "type %d: %s" % (number, t)))
    for node in sheet.nodes:
        end = node.subterms[0].offset if node.subterms else node.end
        rows.append((data[node.offset:end], "node %d: %s%s" % (node.number, "  " * (node.depth - 1), label(node, names))))
    return "".join("%-12s # %s\n" % (hex_of(own), words) for own, words in rows)


def netlist_hex(data: bytes) -> str:
    """A netlist, each record as the listing has it."""
    net, at, rows = Netlist.parse(data), 0, []
    for number, line in enumerate(net.lines()):
        size = 1 + BODY[data[at]]
        node = net.elements[number].node if number < len(net.elements) else None
        rows.append("%-18s # %s%s\n" % (hex_of(data[at:at + size]), line, "" if node is None else ", node %d" % node))
        at += size
    return "".join(rows)
