"""The documents' words: parts, kinds of nodes, and one sentence for each refusal (documents 01 and 02)."""
from __future__ import annotations

#: a part's number is its place here; then how many inputs it has
PARTS: tuple[tuple[str, int], ...] = (
    ("zero", 0), ("reg", 1), ("and", 2), ("or", 2), ("xor", 2), ("inv", 1), ("one", 0))

KINDS: dict[int, str] = {
    0x11: "sharable variable", 0x12: "linear variable", 0x13: "sharable function", 0x14: "sharable application",
    0x15: "linear function", 0x16: "linear application", 0x17: "pair", 0x18: "projection", 0x19: "fixed point",
    0x1A: "constant", 0x1B: "projection with one variable"}

#: the wanted number of refusal 12 where a rule wants a form and not one type (document 02, L3)
FORM = 256

RULES: dict[int, str] = {
    1: "The working memory has fewer than 32768 numbers.",
    2: "A sheet has at most 16384 bytes, and this one has more.",
    3: "The sheet ends too early: its last record is cut short, or one more was due.",
    4: "No node has this kind: a record of the term begins with 11 to 1A, in the second edition to 1B.",
    5: "This record has a type number that names no earlier type.",
    6: "A side of this type has the wrong sort: 02 takes two sharable types, 03 a sharable one left, 04 an arrow left.",
    7: "This type record is the same as an earlier one.",
    8: "This record passes a limit: 256 types, 128 single bits in a type, 2048 nodes, depth 64.",
    9: "The term has ended before this byte, and nothing may follow it.",
    10: "This variable's binder number is not in scope: there are not so many binders around it.",
    11: "This variable is of the other sort than its binder: 11 is for sharable ones, 12 for linear ones.",
    12: "The types do not fit at this node.",
    13: "This linear variable has been used before: it can be used only once.",
    14: "This linear function does not use its variable: it must be used once.",
    15: "This constant names no part: parts are 00 to 06.",
    16: "The full netlist would have more than 8192 terminals.",
    17: "The output is too short for what would be written.",
    18: "A point is kept that drives itself: a ring of points alone has no text.",
    19: "A ring of wires, points and gates passes through no register: the circuit cannot be run.",
    20: "The bits lent do not fit: a bit for each input pin and tick, a start for each register, each of them 0 or 1.",
    21: "This record of the netlist is cut short, of an unknown kind, out of order, or names no part.",
    22: "This record of the netlist has a terminal number that is out of turn, too large, or of the wrong direction.",
    23: "This input terminal has not exactly one wire or pin.",
    24: "The lengths do not add up to the bytes lent, or there is too little room for the results.",
    25: "This netlist has a point, and only one of parts alone goes back to a sheet.",
    26: "Too many or too few: 1 to 16 parts and at most 24 undriven inputs go back to a sheet.",
    27: "The root's type is no chain of sharable arrows that ends in a sharable type.",
    28: "A point is kept that drives itself: nothing on the card would set its bit.",
    29: "Nobody reads this part's output: it drives no wire of the lean netlist and is no pin of it.",
    30: "A text has at most 65535 bytes, and this one has more.",
    31: "No word of the notation begins here.",
    32: "The grammar wants another word here.",
    33: "This name means nothing here; at the end, there is no main.",
    34: "A limit of the notation is passed here.",
    35: "A side of this type has the wrong sort: * takes two sharable types, -> a sharable one left, -o an arrow left.",
    36: "A clause above covers this one, or has another number of parameters.",
    37: "There are fewer places than the sheet has nodes.",
    40: "The pin can be 1.",
    41: "A search goes through the states of at most 20 registers, and there are more.",
    42: "A search tries all inputs of at most 12 input pins, and there are more.",
    43: "The start bytes do not fit: one for each register, 0, 1, or 2 for either.",
    44: "There is no such output pin.",
    45: "The trail or the queue has fewer than 2^registers numbers."}


def place_word(number: int) -> str:
    """What the place of a refusal counts: an offset, a node, a terminal, a length, a tick, or nothing."""
    if 3 <= number <= 9 or 31 <= number <= 36 or number in (21, 22, 25):
        return "offset"
    if 10 <= number <= 15:
        return "node"
    if number in (18, 19, 23, 28, 29):
        return "terminal"
    return {17: "length", 40: "tick"}.get(number, "")
