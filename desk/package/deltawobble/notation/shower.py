"""A sheet as a text in the notation. `make` gives the same bytes back for every accepted sheet."""
from __future__ import annotations

from dataclasses import dataclass, field
from typing import Optional

from ..files import WrongUse
from ..naming import names_of
from ..sheet import Node, Own, Sheet, part_name
from ..types import Type, written

WIDE = 100
#: a type whose words are longer gets a name
LONG = 24
#: a type in more levels than these is written as another one in a named surrounding: what stands in `[ ]` is worked out by itself
MOST_LEVELS = 32
#: how closely a term binds: a whole one, a function that is applied, an argument
WHOLE, FUNCTION, ARGUMENT = 0, 1, 2


@dataclass
class Shape:
    """A term's words on one line, and where it may be broken: `head` stands first, the lines of the others below it.

    `hang` tells that the last one needs no deeper indentation: the body of a let or of a fun.
    """

    flat: str
    head: str = ""
    parts: list[tuple[str, "Shape", str]] = field(default_factory=list)
    hang: bool = False


class Shower:
    """The words of one sheet's term."""

    def __init__(self, sheet: Sheet, table: bool, rows: bool = False):
        self.sheet, self.names, self.table, self.rows = sheet, names_of(sheet), table, rows
        self.type_names: dict[Type, str] = {}
        #: for each type with a name the levels that it is worked out in
        self.levels: dict[Type, int] = {}

    def text(self) -> str:
        lines = ["edition 2"] if self.sheet.edition == 2 else []
        lines += self._types()
        return "\n".join(lines + layout(self.term(self.sheet.term), "main = ", "", 2)) + "\n"

    # ---- types

    def _types(self) -> list[str]:
        """Names for long types, and the table where it is asked for."""
        listed = self.sheet.types if self.table else []
        annotated = [b.type for bound in self.names.bound.values() for b in bound if b.node.kind in (0x13, 0x15, 0x19)]
        needed = closed([*listed, *annotated])
        lines = self._rows(needed) if self.rows else []
        for number, t in enumerate(self.sheet.types):
            if t in needed and t not in self.type_names and len(written(t, self.type_names)) > LONG:
                lines += self._named(t, self.sheet.own.types.get(t) or self._fresh("t%d" % number))
        return lines + wrapped("table ", [self.type(t) for t in listed])

    def _rows(self, needed: set[Type]) -> list[str]:
        """Rows of bits by doubling, as many before something else as a sum of powers of two: 128 bits take 14 levels, where `1 * 1 * ..` takes 127."""
        ones = {2 ** k: self._fresh("ones%d" % 2 ** k) for k in range(1, 7)}
        widest = 0
        for t in sorted(needed, key=lambda t: t.size):
            bits, rest = 0, t
            while rest.kind == 2 and rest.left.kind == 1:
                bits, rest = bits + 1, rest.right
            if bits >= 4:
                words = written(rest, self.type_names) if bits % 2 == 0 else written(Type(2, t.left, rest), self.type_names)
                for size, name in ones.items():
                    words = "%s[%s]" % (name, words) if bits & size else words
                self.type_names[t] = words
                widest = max(widest, bits)
        first = ["type %s[a] = 1 * 1 * a" % ones[2]] if widest else []
        return first + ["type %s[a] = %s[%s[a]]" % (ones[size], ones[size // 2], ones[size // 2]) for size in ones if 2 < size <= widest]

    def _named(self, t: Type, name: str) -> list[str]:
        """The lines that give a type its name."""
        inner = max((s for s in closed([t]) if s in self.levels), key=lambda s: self.levels[s], default=None)
        self.levels[t] = 1 + self._height(t)
        lines = ["type %s = %s" % (name, written(t, self.type_names))]
        if inner is not None and self.levels[t] > MOST_LEVELS:
            around, hole = self._fresh("around_%s" % name), self._fresh("a")
            lines = ["type %s[%s] = %s" % (around, hole, written(t, {**self.type_names, inner: hole})), "type %s = %s[%s]" % (name, around, self.type_names[inner])]
            kept, self.levels[inner] = self.levels[inner], 1
            self.levels[t] = max(2 + kept, 2 + self._height(t))
            self.levels[inner] = kept
        self.type_names[t] = name
        return lines

    def _height(self, t: Type) -> int:
        """The levels that a type's words are worked out in: a name has its own, and a side has one more, two in parentheses."""
        if t.kind == 1 or t in self.type_names:
            return self.levels.get(t, 1)
        return 2 + max(self._height(t.left), self._height(t.right))

    def _fresh(self, name: str) -> str:
        """A type's name that the text has not given to another one."""
        taken = set(self.sheet.own.types.values())
        while name in taken:
            name += "_"
        return name

    def type(self, t: Optional[Type]) -> str:
        return written(t, self.type_names) if t else "?"

    # ---- terms

    def term(self, node: Node, place: int = WHOLE) -> Shape:
        shape, binds = self._shape(node)
        if binds >= place:
            return shape
        return Shape("(%s)" % shape.flat, "(", [("", shape, ")")])

    def _shape(self, node: Node) -> tuple[Shape, int]:
        """The words of a node, and how closely they bind."""
        if node.is_variable:
            return Shape(self.names.word(node)), ARGUMENT
        if node.kind == 0x1A:
            return Shape(part_name(node.part)), ARGUMENT
        if node.kind == 0x17:
            return self._pair(node), ARGUMENT
        if node.kind in (0x13, 0x15, 0x19):
            return self._binding(node), WHOLE
        if node.kind == 0x18:
            return self._apart(node), WHOLE
        if node.kind == 0x1B:
            return self._let(node, node.subterms[0], node.subterms[1]), WHOLE
        if self._names_value(node):
            return self._let(node.subterms[0], node.subterms[1], node.subterms[0].subterms[0]), WHOLE
        function, argument = self.term(node.subterms[0], FUNCTION), self.term(node.subterms[1], ARGUMENT)
        return Shape("%s %s" % (function.flat, argument.flat), "", [("", function, ""), ("", argument, "")]), FUNCTION

    def _names_value(self, node: Node) -> bool:
        """A function that is applied is a let; but for a sharable one in the second edition, where let is 1B."""
        function = node.subterms[0].kind
        return function == 0x15 and node.kind == 0x16 or function == 0x13 and node.kind == 0x14 and self.sheet.edition == 1

    def _binding(self, node: Node) -> Shape:
        """Binders that follow one another stand in one line while there is room; functions over one type share it."""
        head = ""
        while True:
            word, t = "fix" if node.kind == 0x19 else "fun", self.names.bound[node.number][0].type
            names: list[str] = []
            while not names or word == "fun" and node.kind in (0x13, 0x15) and self.names.bound[node.number][0].type == t:
                names.append(self.names.bound[node.number][0].name)
                node = node.subterms[0]
            head += "%s%s %s : %s." % (" " if head else "", word, " ".join(names), self.type(t))
            if node.kind not in (0x13, 0x15, 0x19) or len(head) > WIDE // 2:
                break
        body = self.term(node)
        return Shape("%s %s" % (head, body.flat), head, [("", body, "")], hang=True)

    def _let(self, binding: Node, value: Node, body: Node) -> Shape:
        return self._in("let %s = " % self.names.bound[binding.number][0].name, value, body)

    def _in(self, head: str, value: Node, body: Node) -> Shape:
        named = value.kind in (0x18, 0x1B) or value.kind in (0x14, 0x16) and self._names_value(value)
        first, second = self.term(value, FUNCTION if named else WHOLE), self.term(body)
        return Shape("%s%s in %s" % (head, first.flat, second.flat), "", [(head, first, " in"), ("", second, "")], hang=True)

    def _apart(self, node: Node) -> Shape:
        """Projections of the rest of a pair, which nobody else reads, are one."""
        value, names = node.subterms[0], [self.names.bound[node.number][0].name]
        while self._takes_rest(node):
            node = node.subterms[1]
            names.append(self.names.bound[node.number][0].name)
        names.append(self.names.bound[node.number][1].name)
        return self._in("let (%s) = " % ", ".join(names), value, node.subterms[1])

    def _takes_rest(self, node: Node) -> bool:
        inner = node.subterms[1]
        if inner.kind != 0x18 or inner.subterms[0].kind != 0x11 or inner.subterms[0].binder != 0:
            return False
        rest = self.names.bound[node.number][1]
        reads = [number for number, binder in self.names.meant.items() if binder is rest]
        return reads == [inner.subterms[0].number]

    def _pair(self, node: Node) -> Shape:
        """(a, (b, c)) is (a, b, c)."""
        halves = []
        while node.kind == 0x17:
            halves.append(self.term(node.subterms[0]))
            node = node.subterms[1]
        halves.append(self.term(node))
        parts = [("", half, ",") for half in halves[:-1]] + [("", halves[-1], ")")]
        return Shape("(%s)" % ", ".join(half.flat for half in halves), "(", parts)


def layout(shape: Shape, before: str, behind: str, indent: int) -> list[str]:
    """The lines of a term that stands behind some words and before some others; further lines begin at an indentation."""
    if len(before) + len(shape.flat) + len(behind) <= WIDE or not shape.parts:
        return [before + shape.flat + behind]
    lines, first = [], before + shape.head
    if shape.head and shape.hang:
        lines, first = [first], " " * indent
    for number, (head, part, tail) in enumerate(shape.parts):
        last = number == len(shape.parts) - 1
        inner = indent if shape.hang and last else indent + 2
        lines += layout(part, first + head, tail + (behind if last else ""), inner)
        first = " " * (indent if shape.hang else inner)
    return lines


def wrapped(head: str, words: list[str]) -> list[str]:
    """Words behind a head, commas between, in lines that are not too wide."""
    if not words:
        return []
    lines = [head + words[0]]
    for word in words[1:]:
        lines[-1] += ","
        if len(lines[-1]) + len(word) >= WIDE:
            lines.append(" " * len(head) + word)
        else:
            lines[-1] += " " + word
    return lines


def closed(types: list[Optional[Type]]) -> set[Type]:
    """Types and all their sides."""
    found: set[Type] = set()
    left = [t for t in types if t]
    while left:
        t = left.pop()
        if t not in found:
            found.add(t)
            left += [t.left, t.right] if t.kind > 1 else []
    return found


def show(sheet: bytes, own: Optional[Own] = None) -> str:
    """The text of an accepted sheet, with names of its own where it has some. What is refused has no text: Refused.

    A name may stand for two binders where definitions were put into one another: then all are named anew. The table of types is
    written where the term alone gives another one, and rows of bits by doubling where the levels do not suffice. What `make` says to a text decides: WrongUse where each passes a limit.
    """
    from ..calls import translate
    translate(sheet)
    for names in ([own, None] if own is not None else [None]):
        for rows in (False, True):
            for table in (False, True):
                text = Shower(Sheet.parse(sheet, names), table, rows).text()
                if _makes(text, sheet):
                    return text
    raise WrongUse("this sheet's text would pass a limit of the notation: 80 terms or types in one another, 65535 bytes, or 32767 for what is put in")


def _makes(text: str, sheet: bytes) -> bool:
    from .call import Refusal, make
    try:
        return make(text.encode())[0] == sheet
    except Refusal:
        return False
