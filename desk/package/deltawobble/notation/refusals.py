"""A text's refusal, 30 to 36 at an offset, in words: what is wrong there, and what may have been meant. Only the words around the place are looked
at; what a text means, `make` alone says."""
from __future__ import annotations

import difflib
from typing import Optional

from .call import Refusal
from .text import NotationError, Text
from .words import CLOSES, OPENS, PART_NUMBERS, Clause, Word, Words

#: what is open at a place takes a level at least
MOST_NESTED = 80
#: words behind which a term is due, and those behind which a type is
TERM_DUE, TYPE_DUE = ("=", ".", "in", "("), (":", "*", "->", "-o", "table", "[")
#: names that are looked through for one that was meant: of so many characters, and so many
MOST_NEAR, MOST_NAMES = 60, 400
SIDES = {"*": "a pair holds single bits and pairs alone", "->": "the left side of this arrow is a circuit: -o takes one",
         "-o": "the left side of this arrow is no circuit: -> takes it"}


def error_of(text: Text, refusal: Refusal) -> NotationError:
    """The refusal at its line and column."""
    words = Words(text.data)
    word = words.all[words.at(refusal.place)]
    what, hint = Around(text, words, refusal.place).said(refusal.number)
    return NotationError(text, text.span(word.start, word.end), what, hint, refusal.number, refusal.place)


class Open:
    """Something that is open at a place: a bracket, `fun` and `fix` up to their `.`, or `let` up to its `in`."""

    def __init__(self, word: Word):
        self.word, self.behind = word, word.kind


class Around:
    """The words before a place: what is open there, and in which clause it stands."""

    def __init__(self, text: Text, words: Words, place: int):
        self.text, self.words = text, words
        self.number = words.at(place)
        self.word = words.all[self.number]
        self.before = words.all[self.number - 1] if self.number else None
        self.clause: Optional[Clause] = words.clauses[words.clause_at(place)] if words.clause_at(place) >= 0 else None
        self.open: list[Open] = []
        #: names that the words before the place bind, in the clause
        self.bound: list[str] = []
        self.starts = {clause.first for clause in words.clauses} | {k for k, w in enumerate(words.all) if w.kind == "table"}
        for at in range(self.number):
            self._pass(at)

    def _pass(self, at: int) -> None:
        word, top = self.words.all[at], self.open[-1] if self.open else None
        if at in self.starts:
            self.open, self.bound = [], []
        elif word.kind in ("fun", "fix", "let", *OPENS):
            self.open.append(Open(word))
        elif top and word.kind in CLOSES and top.word.kind == CLOSES[word.kind] or word.kind in (".", "in") and top:
            self.open.pop()
        elif top and word.kind in (":", "=") and top.word.kind in ("fun", "fix", "let"):
            top.behind = word.kind
        elif word.kind == "name" and self.binder() is not None:
            self.bound.append(word.text)

    # ---- what is said

    def said(self, number: int) -> tuple[str, str]:
        """What is wrong, and a hint that stands behind the carets."""
        return {30: self.too_long, 31: self.no_word, 32: self.due, 33: self.unknown, 34: self.limit, 35: self.sides, 36: self.twice}[number]()

    def here(self) -> str:
        return self.word.text if self.word.kind == "end" else "'%s'" % self.word.text

    def too_long(self) -> tuple[str, str]:
        return "a text in the notation has at most 65535 bytes", ""

    def no_word(self) -> tuple[str, str]:
        if self.word.text == '"' and self.before and self.before.text == "use":
            return 'use "FILE" stands at the head of a text, before all definitions', ""
        if self.word.text[0].isdigit():
            return "%s is no word of the notation: no number, and a name begins with a letter or _" % self.word.text, ""
        return "no word of the notation begins with %s" % ascii(self.word.text), ""

    def near(self, known: list[str]) -> str:
        short = [name for name in dict.fromkeys(known[::-1]) if len(name) <= MOST_NEAR][:MOST_NAMES]
        near = difflib.get_close_matches(self.word.text, short, 1) if len(self.word.text) <= MOST_NEAR else []
        return "did you mean %s?" % near[0] if near and near[0] != self.word.text else ""

    # ---- 32

    def due(self) -> tuple[str, str]:
        """What is due here: by the word before, else by what is open."""
        special = self.special()
        if special:
            return special, ""
        top = self.open[-1] if self.open else None
        wanted, hint = self.behind_word(top) or self.inside(top)
        return "%s, and here is %s" % (wanted, self.here()), hint

    def special(self) -> str:
        """Faults that have a sentence of their own."""
        kind, top = self.word.kind, self.open[-1] if self.open else None
        binds = top is not None and (top.behind in ("fun", "fix", "let") or self.in_list())
        if kind == "part" and (binds or self.before and self.before.kind == "type" or not self.open and self.words.all[self.number + 1].kind == "="):
            return "%s is a part, and cannot name anything else" % self.word.text
        if kind == ")" and self.in_list() and self.before and self.before.kind in ("name", ")"):
            taken = {"let": "let (x, y) = ..", "fun": "fun (x, y) : .."}.get(self.open[-2].behind, "a list in a list")
            return "%s takes a pair apart, and here is one %s" % (taken, "name" if self.before.kind == "name" else "list")
        if kind in ("fun", "fix", "let") and self.before and self.before.kind in ("name", "part", ")", "]", "}") and not binds:
            return "%s as an argument stands in parentheses" % kind
        if self.before and self.before.kind == "edition" and kind == "number":
            return "there are editions 1 and 2"
        if kind == "edition":
            return "the edition stands before all else"
        return ""

    def binder(self) -> Optional[Open]:
        """The `fun`, `fix` or `let` whose names stand here: they are not yet at its `:` or `=`, and only lists are open in it."""
        top = next((o for o in reversed(self.open) if o.word.kind != "("), None)
        return top if top is not None and top.behind in ("fun", "fix", "let") else None

    def in_list(self) -> bool:
        """Whether a list stands here that `let` or `fun` takes from a pair, or a list in such a list."""
        binder = self.binder()
        return binder is not None and binder is not self.open[-1] and binder.behind in ("let", "fun")

    def begins_list(self) -> bool:
        return self.word.kind == "(" and (self.in_list() or self.before is not None and self.before.kind in ("let", "fun"))

    def in_head(self) -> bool:
        return self.clause is not None and self.clause.first <= self.number < self.clause.body

    def in_type(self) -> bool:
        """Whether a type stands here: behind `:`, in `[ ]`, in a type's definition, or in a `table` line."""
        top = next((o for o in reversed(self.open) if o.word.kind != "("), None)
        if top is not None:
            return top.behind == ":" or top.word.kind == "["
        table = max((k for k in self.starts if k < self.number), default=-1)
        return table >= 0 and (self.words.all[table].kind in ("table", "type"))

    def behind_word(self, top: Optional[Open]) -> Optional[tuple[str, str]]:
        before = self.before.kind if self.before else ""
        if before in ("fun", "fix", "let", "type"):
            return "a name is due behind %s" % before, ""
        if before in ("^", "+") or top and top.word.kind == "{" and before in ("{", ","):
            return ("a number is due" if before == "+" else "a number or the name of one is due"), ""
        if self.in_list() and before in ("(", ","):
            return "a name or a list is due", ""
        if self.in_head() and before in ("(", ",", "["):
            return "a name is due", ""
        if before in TYPE_DUE or self.in_type() and before in ("=", "(", ","):
            return "a type is due", ""
        if before in TERM_DUE or before == ",":
            return "a term is due", ""
        return ("a number is due behind edition", "") if before == "edition" else None

    def inside(self, top: Optional[Open]) -> tuple[str, str]:
        if top and top.word.kind in OPENS:
            span = self.text.span(top.word.start, top.word.end)
            due = "',' or ')'" if self.in_list() else "'%s'" % OPENS[top.word.kind]
            return "%s is due" % due, "the '%s' at %s is open" % (top.word.kind, self.text.place_words(span))
        if top and top.behind in ("fun", "fix"):
            return "':' is due behind the variable", ""
        if top and top.behind == ":":
            return "'.' is due behind the variable's type", ""
        if top and top.word.kind == "let":
            return ("'=' is due behind what let names" if top.behind == "let" else "'in' is due behind the value"), ""
        if self.word.kind != "=" and self.before and self.before.kind in ("name", "]", "}") and (not self.clause or self.clause.last <= self.number - 1) or self.word.kind != "=" and self.clause is None and self.number:
            return "'=' is due behind the name that is defined", ""
        return "a definition, 'type' or 'table' is due", ""

    # ---- 33

    def unknown(self) -> tuple[str, str]:
        if self.word.kind == "end":
            return "there is no definition of main: the sheet's term is 'main = ..'", ""
        if self.counts_bits() and (self.word.kind == "number" or self.word.text in self.numbers()):
            return "zero bits are no type", ""
        if self.counts_bits() or any(o.word.kind == "{" for o in self.open):
            return "no number is called %s here: the numbers that a clause knows stand in its head" % self.word.text, ""
        is_type = self.in_type()
        above = [c.name.text for c in self.words.clauses if c.is_type == is_type and (self.clause is None or c.start < self.clause.start)]
        own = self.words.named(self.word.text, is_type)
        if self.word.text in above or own and own[0].numbers:
            return self.no_clause(own, is_type), ""
        later = " above: a definition knows those before it" if own else ""
        hint = "" if later else self.near(above if is_type else self.bound + above + list(PART_NUMBERS))
        if is_type:
            return "no type %s is defined above" % self.word.text, hint
        return "%s is not defined%s" % (self.word.text, later), hint

    def counts_bits(self) -> bool:
        """Whether this word begins the number of a row of bits."""
        return self.before is not None and self.before.kind == "^"

    def numbers(self) -> list[str]:
        """The names of numbers in the head of the clause."""
        head = self.words.all[self.clause.first:self.clause.body] if self.clause else []
        behind = [word.kind for word in head].index("{") if any(word.kind == "{" for word in head) else len(head)
        return [word.text for word in head[behind:] if word.kind == "name"]

    def no_clause(self, own: list[Clause], is_type: bool) -> str:
        """A name that is known, though not with these parameters."""
        behind = self.words.all[self.number + 1].kind in ("[", "{")
        name = ("the type %s" if is_type else "%s") % self.word.text
        if own and own[0].parameters != behind:
            return "%s has %s" % (name, "no parameters" if behind else "parameters, and here are none")
        return "no clause of %s above fits these parameters" % name

    # ---- 34, 35, 36

    def limit(self) -> tuple[str, str]:
        """Which limits there are at such a word."""
        nodes = "80 terms or types in one another, a term 64 deep, 2048 nodes, 256 types, or 32767 for what is put in"
        if self.word.kind == "number":
            return "a number is at most 255", ""
        if len(self.open) >= MOST_NESTED:
            return "more than %d terms or types in one another" % MOST_NESTED, ""
        if self.word.kind == "^" or self.word.kind in SIDES:
            return "this type passes a limit: 128 single bits, or 256 types in all", ""
        if self.counts_bits() or any(o.word.kind == "{" for o in self.open):
            return "this sum is above 255", ""
        if self.word.kind == "end":
            return "main passes a limit: what its definitions cost is at most 32767", ""
        if self.clause and self.clause.name.start == self.word.start:
            return "this definition passes a limit: 256 clauses, or 32767 for what is put in", ""
        if self.begins_list():
            return "a limit is passed here: 80 terms or types in one another (each list is taken apart in one of its own), 1024 names in scope, a term 64 deep, 2048 nodes, or 256 types", ""
        if self.word.kind in ("fun", "fix", "let"):
            return "a limit is passed here: 80 terms or types in one another, or 1024 names in scope", ""
        return "a limit is passed here: %s" % nodes, ""

    def sides(self) -> tuple[str, str]:
        return "a side of this type has the wrong sort", SIDES.get(self.word.kind, "")

    def twice(self) -> tuple[str, str]:
        is_type = bool(self.clause and self.clause.is_type)
        name = ("the type %s" if is_type else "%s") % self.word.text
        first = (self.words.named(self.word.text, is_type) or [None])[0]
        hint = "first at %s" % self.text.place_words(self.text.span(first.name.start, first.name.end)) if first else ""
        if first and not first.parameters and self.clause and not self.clause.parameters:
            return "%s is defined twice" % name, hint
        return "%s is defined above for these numbers, or with other parameters" % name, hint
