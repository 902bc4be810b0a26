"""The lines that the program `fault` printed for a sheet, worked out again from its bytes, the refusal and the netlists' listing."""
from __future__ import annotations

SUBTERMS = {0x11: 0, 0x12: 0, 0x13: 1, 0x14: 2, 0x15: 1, 0x16: 2, 0x17: 2, 0x18: 2, 0x19: 1, 0x1A: 0, 0x1B: 2}
BODY = {0x11: 1, 0x12: 1, 0x13: 1, 0x14: 0, 0x15: 1, 0x16: 0, 0x17: 1, 0x18: 0, 0x19: 1, 0x1A: 2, 0x1B: 0}
WORDS = {0x11: "sharable variable", 0x12: "linear variable", 0x13: "sharable function", 0x14: "sharable application", 0x15: "linear function",
         0x16: "linear application", 0x17: "pair", 0x18: "projection", 0x19: "fixed point", 0x1A: "constant",
         0x1B: "projection with one variable"}
RULES = {
    2: "A sheet has at most 16384 bytes, and this one has more.",
    3: "The sheet ends too early: its last record is cut short, or one more was due.",
    4: "No node has this kind: a record of the term begins with 11 to 1A, in the second edition to 1B.",
    5: "This record has a type number that names no earlier type.",
    6: "A side of this type has the wrong sort: 02 takes two sharable types, 03 a sharable one left, 04 an arrow left.",
    7: "This type record is the same as an earlier one.",
    8: "This record passes a limit: 256 types, 128 single bits in a type, 2048 nodes, depth 64.",
    9: "The term has ended before this byte, and nothing may follow it.",
    10: "This variable's binder number is not in scope: there are not so many binders around it.",
    11: "This variable is of the other sort than its binder: 11 is for sharable ones, 12 for linear ones.",
    12: "The types do not fit at this node.",
    13: "This linear variable has been used before: it can be used only once.",
    14: "This linear function does not use its variable: it must be used once.",
    15: "This constant names no part: parts are 00 to 06.",
    16: "The full netlist would have more than 8192 terminals."}


def nodes(s):
    """(offset, end, parent) of each node of a sheet that can be read, by a stack of open nodes; and the number of types"""
    at, types = int(s[0] == 0x31), 0
    while s[at] <= 4:
        at += 1 if s[at] == 1 else 3
        types += 1
    found, open_ = [], []
    while True:
        found.append([at, None, open_[-1][0] if open_ else None])
        open_.append([len(found) - 1, SUBTERMS[s[at]]])
        at += 1 + BODY[s[at]]
        while open_ and open_[-1][1] == 0:
            found[open_.pop()[0]][1] = at
        if not open_:
            return found, types
        open_[-1][1] -= 1


def above(found, k):
    chain = []
    while found[k][2] is not None:
        k = found[k][2]
        chain.insert(0, k)
    return chain


def hexes(part):
    return "".join(" %02X" % b for b in part[:32]) + (" ..." if len(part) > 32 else "")


def node_line(s, found, k):
    return "node %d: %s (%02X)" % (k, WORDS[s[found[k][0]]], s[found[k][0]])


def refused(s, number, place):
    lines = ["refused %d %d" % (number, place), RULES[number]]
    if number <= 9:
        lines.append("offset %d:" % place + (hexes(s[place:]) or " the sheet's end"))
        low = max(place - 16, 0)
        lines.append("before it, from offset %d:%s" % (low, hexes(s[low:place])) if place else "before it: nothing")
    elif number <= 15:
        found, _ = nodes(s)
        start, end, _ = found[place]
        lines += [node_line(s, found, place), "offset %d:%s" % (start, hexes(s[start:end]))]
        lines.append("above it, from the root down:" if place else "above it: nothing, it is the root")
        lines += [node_line(s, found, k) for k in above(found, place)]
    return lines


def accepted(s, listing):
    """`listing` is the listing's lines"""
    found, types = nodes(s)
    middle = listing.index("lean")
    full, lean = [line.split()[0] for line in listing[1:middle]], [line.split()[0] for line in listing[middle + 1:-1]]
    size = {"point": 3, "part": 4, "wire": 5, "pin": 3}
    numbers = [("nodes", len(found)), ("depth", 1 + max(len(above(found, k)) for k in range(len(found)))), ("types", types),
               ("parts", full.count("part")), ("points", full.count("point")), ("kept points", lean.count("point")),
               ("wires", full.count("wire")), ("pins", full.count("pin")),
               ("full netlist bytes", sum(size[k] for k in full)), ("lean netlist bytes", sum(size[k] for k in lean))]
    return ["accepted"] + ["%s %d" % n for n in numbers]


def tree(levels, last):
    """two-input gates over zeros, 2,045 nodes for 9 levels; `last` is the last leaf's record"""
    if levels == 0:
        return last
    return [0x14, 0x14, 0x1A, 2, 2] + tree(levels - 1, [0x1A, 0, 0]) + tree(levels - 1, last)


def edges() -> dict[str, bytes]:
    """Sheets at the limits of length, depth, nodes and terminals."""
    zero, types = [0x1A, 0, 0], [1, 3, 0, 0, 3, 0, 1]
    inverter, wide = [0x14, 0x1A, 5, 1], [1] + [b for t in range(7) for b in (2, t, t)]
    many = [1] + [b for t in range(255) for b in (2, 0, t)]
    sheets = {
        "none": [], "longest": [1] + zero + [0] * 16380, "longer": [1] + zero + [0] * 16381, "long": [1] * 100000,
        "depth-64": types + inverter * 63 + zero, "depth-65": types + inverter * 64 + zero, "deep-part": types + inverter * 63 + [0x1A, 9, 0],
        "last-part": types + tree(9, [0x1A, 7, 0]), "last-binder": types + tree(9, [0x11, 0]),
        "nodes-2048": types + [0x13, 1] + inverter + tree(9, zero), "nodes-2049": types + inverter * 2 + tree(9, zero),
        "names-63": [0x31, 1] + ([0x1B] + zero) * 63 + [0x11, 62], "names-deep": [0x31, 1] + ([0x1B] + zero) * 64 + [0x11, 0],
        "name-of-arrow": [0x31] + types + [0x1B, 0x1A, 5, 1, 0x11, 0], "name-in-first": [1, 0x1B] + zero + [0x11, 0], "opened-twice": [0x31, 0x31, 1],
        "terminals-8192": wide + [0x19, 7] * 32 + [0x11, 0], "terminals-8448": wide + [0x19, 7] * 33 + [0x11, 0],
        "size-129": wide + [2, 7, 0] + zero, "wide-enough": many[:1 + 3 * 127] + zero, "type-in-term": types + [0x14, 3, 0, 0]}
    return {name: bytes(s) for name, s in sheets.items()}
