"""What to look at where a sheet is refused at an offset (2 to 9)."""
from __future__ import annotations

from .answer import Refused
from .files import text_of
from .sheet import BODY, SECOND, SUBTERMS, read_types
from .types import Type


def at_offset(data: bytes, refused: Refused) -> list[str]:
    """What to look at where a sheet is refused with 2 to 9."""
    number, place = refused.number, refused.place
    if number == 2:
        return ["it has %d bytes" % len(data)]
    known = [t for _, t in read_types(data[:place], int(data[:1] == bytes([SECOND])))[0]]
    if number in (5, 6, 7, 8) and place < len(data) and data[place] <= 4:
        return _type_record(data, place, number, known)
    return [_term_record(data, place, number, len(known))]


def limit(data: bytes, refused: Refused) -> str:
    """Refusal 8 in a sentence: which limit, and how far."""
    return "This record passes a limit: %s." % at_offset(data, refused)[-1]


def _past(count: int, what: str, most: int) -> str:
    return "it would be the {:,}th {}, and {:,} are the limit".format(count, what, most)


def _type_record(data: bytes, place: int, number: int, known: list[Type]) -> list[str]:
    kind = {1: "a single bit", 2: "a product", 3: "a sharable arrow", 4: "a linear arrow"}[data[place]]
    sides = data[place + 1:place + 3] if data[place] > 1 else b""
    said = ["it would be type %d, %s" % (len(known), kind)]
    for word, side in zip(("left", "right"), sides):
        there = "the types before it are 0 to %d" % (len(known) - 1) if known else "no type stands before it"
        said.append("its %s side is type %d%s" % (word, side, ": %s" % known[side] if side < len(known) else ", and " + there))
    if number == 7:
        same = [t for t in known if t.kind == data[place] and (t.kind == 1 or (known.index(t.left), known.index(t.right)) == tuple(sides))]
        said += ["type %d is the same record" % known.index(same[0])] if same else []
    if number == 8:
        said.append(_past(257, "type", 256) if len(known) == 256 else
                    "it would have %d single bits, and 128 are the limit" % sum(known[side].size for side in sides))
    return said


def _term_record(data: bytes, place: int, number: int, types: int) -> str:
    """A word on a record of the term, from the records before it."""
    nodes = _nodes_before(data, place)
    if number == 3 and place < len(data):
        kind, there = data[place], len(data) - place
        need = 3 if kind <= 4 else 1 + BODY.get(kind, 0)
        return "a record of kind %02X has %d bytes, and %d are there" % (kind, need, there)
    if number == 3:
        return "no term follows the types" if not nodes else "node %d still wants a subterm" % _waiting(nodes)
    if number == 4:
        return _unknown_kind(data, place)
    if number == 5:
        return "the sheet has %d types, 0 to %d" % (types, types - 1) if types else "the sheet has no types"
    if number == 8:
        return _past(2049, "node", 2048) if len(nodes) >= 2048 else "it would have depth 65, and 64 is the limit"
    if number == 9:
        return "the term has %d nodes, the last at offset %d" % (len(nodes), nodes[-1][0]) if nodes else ""
    return ""


def _unknown_kind(data: bytes, place: int) -> str:
    kind = data[place]
    if kind == 0x1B:
        return "1B is of the second edition: its sheets begin with 31"
    if kind == SECOND:
        return "31 opens a second-edition sheet, and stands nowhere but first"
    if 1 <= kind <= 4:
        return "type records stand before the term, and node 0 has begun it"
    if text_of(data) is not None:
        return "all its bytes are signs of a text: commented hex has a word such as 01, a notation has 'main = ..'"
    if place <= int(data[0] == SECOND):
        return ""
    return "the record before it may be too short or too long by a byte"


def _nodes_before(data: bytes, place: int) -> list[tuple[int, int]]:
    """Offset and kind of each node before an offset, in record order."""
    at = read_types(data, int(data[:1] == bytes([SECOND])))[1]
    nodes = []
    while at < place and data[at] in BODY:
        nodes.append((at, data[at]))
        at += 1 + BODY[data[at]]
    return nodes


def _waiting(nodes: list[tuple[int, int]]) -> int:
    """The nearest node that still wants a subterm."""
    open_: list[list[int]] = []
    for number, (_, kind) in enumerate(nodes):
        if open_:
            open_[-1][1] -= 1
        open_.append([number, SUBTERMS[kind]])
        while open_ and open_[-1][1] == 0:
            open_.pop()
    return open_[-1][0] if open_ else 0
