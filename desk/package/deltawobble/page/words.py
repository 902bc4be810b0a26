"""The text of a sheet in lines of pieces; a word that stands for gates or nets knows them."""
from __future__ import annotations

from dataclasses import dataclass, field
from typing import Iterator, Optional

from ..files import Source
from ..naming import names_of
from ..netlist import Netlist
from ..notation.text import Span
from ..picture.plan import Plan
from ..sheet import Node, Sheet
from ..tree import label
from ..typed import Typed
from ..types import written

#: bytes in a line of a sheet that cannot be read as a term
BYTES = 16


@dataclass
class Word:
    """A stretch of a line: the gates that it made, those that it was the way to, and the nets that it names; `fault` where a refusal is."""

    line: int
    start: int
    end: int
    gates: list[int] = field(default_factory=list)
    way: list[int] = field(default_factory=list)
    nets: list[int] = field(default_factory=list)
    fault: bool = False


@dataclass
class Lines:
    """What stands in the text's panel: each line's head and text, and the words by rising place."""

    heads: list[str]
    texts: list[str]
    words: list[Word]
    kind: str

    def as_json(self) -> dict:
        """Lines as pieces: a text, or a text with the number of its word."""
        of_line: dict[int, list[int]] = {}
        for number, word in enumerate(self.words):
            of_line.setdefault(word.line, []).append(number)
        pieces = [list(self._pieces(text, of_line.get(at, []))) for at, text in enumerate(self.texts)]
        return {"kind": self.kind, "heads": self.heads, "lines": pieces,
                "words": [{"gates": w.gates, "way": w.way, "nets": w.nets, "fault": w.fault} for w in self.words]}

    def _pieces(self, text: str, numbers: list[int]) -> Iterator[list]:
        at = 0
        for number in numbers:
            word = self.words[number]
            if word.start > at:
                yield [text[at:word.start]]
            yield [text[word.start:word.end], number]
            at = word.end
        if at < len(text):
            yield [text[at:]]


def lines_of(source: Source, plan: Optional[Plan], lean: Optional[Netlist], fault: Optional[object]) -> Lines:
    """The notation; or the term of a sheet in bytes; or its bytes, where they are no term. `fault` is a Span, a node's number or an offset."""
    if source.made:
        return notation_lines(source, plan, lean, fault)
    try:
        sheet = Sheet.parse(source.bytes)
    except (ValueError, IndexError, RecursionError):
        return byte_lines(source.bytes, fault)
    return term_lines(sheet, plan, lean, fault)


# ---- notation

def notation_lines(source: Source, plan: Optional[Plan], lean: Optional[Netlist], fault: Optional[object]) -> Lines:
    """The files of the text, one below the other; the name of each stands before it where there are several."""
    made = source.made
    assert made is not None
    heads, texts, firsts = [], [], []
    for file in made.text.files:
        if len(made.text.files) > 1:
            heads.append("")
            texts.append("-- " + file.name)
        firsts.append(len(texts))
        heads += [str(i + 1) for i in range(len(file.lines))]
        texts += file.lines
    words = []
    for word in made.words.all[:-1]:
        span = made.text.span(word.start, word.end)
        words.append(Word(firsts[span.file] + span.line - 1, span.column - 1, span.end_column - 1))
    if plan and lean:
        join_gates(words, source, lean)
        join_nets(words, plan)
    if isinstance(fault, Span):
        mark_fault(words, firsts[fault.file], fault)
    kept = [w for w in sorted(words, key=lambda w: (w.line, w.start)) if w.gates or w.way or w.nets or w.fault]
    return Lines(heads, texts, kept, "text")


def join_gates(words: list[Word], source: Source, lean: Netlist) -> None:
    """A part's word made its gates; the name of a definition, where it is put in and where it is defined, is the way to them."""
    made = source.made
    assert made is not None
    for e in lean.parts:
        if e.node is None:
            continue
        origin = made.origins[e.node]
        words[origin.word].gates.append(e.first)
        for number in [number for put in origin.through for number in (*put.at, put.head)]:
            if e.first not in words[number].way:
                words[number].way.append(e.first)


def join_nets(words: list[Word], plan: Plan) -> None:
    """A variable's word names the nets of its bits, where it is bound and where it is read."""
    made = plan.source.made
    assert made is not None
    for node in plan.sheet.nodes:
        number = made.origins[node.number].word
        if node.kind == 0x11:
            # the rest of a pair has no name in the text: its word is the name that is taken from it next
            above = node.parent
            rest = above is not None and above.kind == 0x18 and above.subterms[0] is node and made.places[above.number] == made.places[node.number]
            if not rest:
                add_nets(words[number], plan, plan.interfaces.of[node.number])
        elif node.kind in (0x13, 0x19, 0x1B):
            add_nets(words[number], plan, plan.interfaces.bound[node.number][0])
        elif node.kind == 0x18:
            first, second = plan.interfaces.bound[node.number]
            add_nets(words[number], plan, first)
            if made.words.all[number + 3].kind == ")":
                add_nets(words[number + 2], plan, second)


def add_nets(word: Word, plan: Plan, interface: list[int]) -> None:
    word.nets += [net for net in map(plan.nets.of, interface) if net not in word.nets]


def mark_fault(words: list[Word], first: int, span: Span) -> None:
    begin, end = (first + span.line - 1, span.column - 1), (first + span.end_line - 1, span.end_column - 1)
    for word in words:
        if begin <= (word.line, word.start) < end or (word.line, word.start) == begin:
            word.fault = True


# ---- terms and bytes

def term_lines(sheet: Sheet, plan: Optional[Plan], lean: Optional[Netlist], fault: Optional[object]) -> Lines:
    """A line for each node, deeper ones further in, with its type where that is known."""
    names, typed = names_of(sheet), Typed(sheet)
    made: dict[int, list[int]] = {}
    for e in lean.parts if lean else []:
        made.setdefault(e.node if e.node is not None else -1, []).append(e.first)
    heads, texts, words = [], [], []
    for node in sheet.nodes:
        start = "  " * (node.depth - 1)
        name, t = label(node, names), typed.of(node)
        texts.append(start + name + ("   " + written(t, names.types) if t else ""))
        heads.append(str(node.number))
        word = Word(len(texts) - 1, len(start), len(start) + len(name), made.get(node.number, []), fault=fault == node.number)
        if plan:
            word.nets = nets_of(plan, node)
        words.append(word)
    return Lines(heads, texts, [w for w in words if w.gates or w.nets or w.fault], "term")


def nets_of(plan: Plan, node: Node) -> list[int]:
    found: list[int] = []
    if node.kind == 0x11:
        found = [plan.nets.of(t) for t in plan.interfaces.of[node.number]]
    elif node.kind in (0x13, 0x19, 0x1B):
        found = [plan.nets.of(t) for t in plan.interfaces.bound[node.number][0] if t in plan.nets.points or t in plan.nets.kept]
    return list(dict.fromkeys(found))


def byte_lines(data: bytes, fault: Optional[object]) -> Lines:
    shown = data[:4096]
    rows = [shown[i:i + BYTES] for i in range(0, len(shown), BYTES)] or [b""]
    texts = [row.hex(" ").upper() for row in rows]
    words = []
    if isinstance(fault, int):
        line, column = divmod(fault, BYTES)
        if line == len(rows) or fault == len(shown):
            line, column = len(rows) - 1, len(rows[-1])
            texts[-1] += " (the end)"
        if line < len(rows):
            words = [Word(line, 3 * column, min(3 * column + 2, len(texts[line])) if column < len(rows[line]) else len(texts[line]), fault=True)]
    return Lines([str(BYTES * i) for i in range(len(rows))], texts, words, "bytes")
