"""A sheet that was made from a text: its bytes, its places, and its refusals at a line and column."""
from __future__ import annotations

from functools import cached_property
from typing import Optional

from ..answer import Refused
from ..files import WrongUse
from ..netlist import Netlist
from ..sheet import Node, Own, Sheet
from ..typed import Typed
from ..types import Type, written
from ..words import FORM, PARTS, place_word
from . import call
from .origins import Origin, Origins
from .refusals import error_of
from .text import NotationError, Span, Text
from .uses import MOST_BYTES, joined
from .words import Words

#: the rules in a few words
SHORT = {2: "the sheet is too long", 12: "the types do not fit", 13: "a circuit is used again", 14: "a circuit is not used",
         16: "the full netlist has more than 8192 terminals", 18: "a ring of points alone", 19: "a ring without a register",
         27: "the root's type is not for the card", 28: "a ring of points alone", 29: "nobody reads this part's output"}
#: characters of a type that messages write out; a longer one goes by its name
MOST_WORDS = 12
#: so many types are asked for at once
TOGETHER = 30


class Made:
    """The sheet of a text: `sheet` its bytes, `places` the offset of each node's word in `text`; `root` is the definition that it was made of."""

    def __init__(self, text: Text, sheet: bytes, places: list[int], root: str = "main"):
        self.text, self.sheet, self.places, self.root = text, sheet, places, root

    @cached_property
    def words(self) -> Words:
        return Words(self.text.data)

    @cached_property
    def parsed(self) -> Sheet:
        return Sheet.parse(self.sheet)

    @cached_property
    def _origins(self) -> Origins:
        return Origins(self.text, self.words, self.parsed, self.places, self.root)

    @property
    def origins(self) -> list[Origin]:
        """For each node where it comes from."""
        return self._origins.all

    def mark(self, node: int) -> Span:
        """A node's word."""
        return self._origins.span(self.origins[node].word)

    def own(self) -> Own:
        """The text's own names; a variable that it does not name is called rest, or whole, or after the names in its list."""
        return Own({number: origin.binds for number, origin in enumerate(self.origins) if origin.binds}, self.type_names)

    @cached_property
    def type_names(self) -> dict[Type, str]:
        """The names that the text gives to long types. `make` says what each stands for: the text's types alone are made, with a term that names some."""
        names = [clause.name.text for clause in self.words.clauses if clause.is_type and not clause.parameters]
        found: dict[Type, str] = {}
        for at in range(0, len(names), TOGETHER):
            some = names[at:at + TOGETHER]
            for name, t in zip(some, self._types_of(some)):
                if len(str(t)) > MOST_WORDS:
                    found.setdefault(t, name)
        return found

    def _types_of(self, names: list[str]) -> list[Type]:
        alone = b"\n".join(self.text.data[c.start:c.end] for c in self.words.clauses if c.is_type)
        asked = "\nmain = zero" + "".join(" (fix x : %s. x)" % name for name in names)
        try:
            sheet = Sheet.parse(call.make(alone + asked.encode())[0])
        except call.Refusal:
            return []
        return [sheet.types[node.type_number] for node in sheet.nodes if node.kind == 0x19]

    # ---- refusals of the sheet

    def node_of(self, refused: Refused) -> Optional[int]:
        """The node that a refusal of the sheet is about."""
        word = place_word(refused.number)
        if word == "node":
            return refused.place
        if word == "terminal":
            from ..calls import translate
            element = Netlist.parse(translate(self.sheet, lean=True)).element_of(refused.place)
            return element.node if element else None
        return None

    def span_of(self, refused: Refused) -> Optional[Span]:
        """What in the text a refusal of the sheet is about."""
        node = self.node_of(refused)
        if node is not None:
            return self.mark(node)
        main = next((c for c in self.words.clauses if c.name.text == "main" and not c.is_type), None)
        return self.text.span(main.name.start, main.name.end) if main and refused.number in (2, 16, 27) else None

    def place_lines(self, data: bytes, refused: Refused) -> list[str]:
        """A refusal at its line and column, the line shown."""
        span, node = self.span_of(refused), self.node_of(refused)
        if span is None:
            return []
        word = place_word(refused.number)
        where = " at %s %d" % (word, refused.place) if word in ("node", "terminal") else ""
        head = "refused %d%s: %s" % (refused.number, where, SHORT.get(refused.number, refused.sentence))
        if node is None:
            return self.text.shown(span, head)
        lines = self.text.shown(span, head, self._word(refused, self.parsed.nodes[node]))
        lines += ["     | %s" % hint for hint in self._edition(refused, self.parsed.nodes[node])]
        names = [at for put in reversed(self.origins[node].through) for at in reversed(put.at)]
        if names:
            lines.append("     | put in at " + ", itself put in at ".join(self.text.place_words(self._origins.span(at)) for at in names))
        return lines

    def _type(self, number: int) -> str:
        return written(self.parsed.types[number], self.type_names)

    def _word(self, refused: Refused, node: Node) -> str:
        """What stands behind the carets."""
        if refused.number == 12 and node.kind == 0x17:
            typed = [Typed(self.parsed).of(s) for s in node.subterms]
            half = next((i for i, t in enumerate(typed) if t and not t.sharable), 0)
            return "a pair holds bits and pairs alone: its %s half has type %s" % (("first", "second")[half], self._type(refused.found))
        if refused.number == 12:
            wanted = "" if refused.wanted == FORM else self._type(refused.wanted)
            return misfit(node, self.parsed.types[refused.found].sharable, self._type(refused.found), wanted)
        if refused.number in (13, 14):
            return "%s is linear, and is used %s" % (self.words.all[self.origins[node.number].word].text, "here again" if refused.number == 13 else "nowhere")
        return ""

    def _edition(self, refused: Refused, node: Node) -> list[str]:
        """Where a gate takes its bits in the other edition's way."""
        if refused.number != 12 or node.kind != 0x14 or node.subterms[0].kind != 0x1A or refused.wanted == FORM:
            return []
        name, inputs = PARTS[node.subterms[0].part]
        if inputs != 2 or self.parsed.types[refused.found].size > 2:
            return []
        if self.parsed.edition == 2:
            return ["in the second edition %s takes a pair: %s (x, y)" % (name, name)]
        return ["in the first edition %s takes one bit after the other: %s x y; a pair in the second, 'edition 2'" % (name, name)]


def misfit(node: Node, sharable: bool, found: str, wanted: str) -> str:
    """Refusal 12 in a few words: the type found, sharable or not, and the one wanted, if it is one type."""
    if node.kind in (0x14, 0x16):
        if wanted:
            return "wants %s, and gets %s" % (wanted, found)
        return "has type %s, and is no function" % found if sharable else "has type %s" % found
    if node.kind == 0x18:
        return "what is taken apart has type %s, and is no pair" % found
    if node.kind == 0x19:
        return "is of type %s, and its body has %s" % (wanted, found) if wanted else "a fixed point is over a sharable type, not %s" % found
    return "wants %s, and gets %s" % (wanted or "another form", found)


def make(text: str, name: str = "text") -> Made:
    """The sheet of a text in the notation, and of the files that it uses. NotationError where it means none."""
    data = text.encode(errors="surrogatepass")
    if len(data) > MOST_BYTES:
        raise WrongUse("%s: a text in the notation has at most %d bytes, and this one has %d" % (name, MOST_BYTES, len(data)))
    return made_of(joined(name, data))


def made_of(text: Text) -> Made:
    try:
        return Made(text, *call.make(text.data))
    except call.Refusal as refusal:
        raise error_of(text, refusal) from None


def check_unused(made: Made) -> None:
    """NotationError at the first definition without parameters that main does not use and whose term, taken alone, the proved call refuses.

    Such a definition is made as main: the text up to its end, where main itself is blanked.
    """
    from ..calls import translate
    used = {made.words.clause_at(place) for place in made.places}
    main = next(c for c in made.words.clauses if c.name.text == "main" and not c.is_type)
    data = made.text.data[:main.start] + b" " * (main.end - main.start) + made.text.data[main.end:]
    for number, clause in enumerate(made.words.clauses):
        if clause.is_type or clause.parameters or number in used or clause is main:
            continue
        try:
            sheet, places = call.make(data[:clause.end] + b"\nmain = " + clause.name.text.encode())
            translate(sheet)
        except call.Refusal:
            # it names main, which is not there now; by itself it was made
            continue
        except Refused as refused:
            alone = Made(Text(data, made.text.files, made.text.pieces), sheet, places, clause.name.text)
            lines = alone.place_lines(sheet, refused) or ["%s: %s" % (made.text.name, refused)]
            raise NotationError.of(lines + ["     | in a definition that main does not use"]) from None
