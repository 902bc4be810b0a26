"""Words of a text with their places, and the heads of its clauses. Nothing is refused here, and no term is read: what a text means, the call
`make` says; from its number or its places and from these words the desk finds names, and what to show."""
from __future__ import annotations

import re
from bisect import bisect_right
from dataclasses import dataclass
from typing import Iterator, Optional

from ..words import PARTS

RESERVED = {"fun", "fix", "let", "in", "type", "edition", "table"}
PART_NUMBERS = {name: number for number, (name, _) in enumerate(PARTS)}
#: signs that may be written in one character
SIGNS = {"×": "*", "→": "->", "⊸": "-o", "λ": "fun"}
WORD = re.compile(rb"(?P<gap>[\t-\r ]+|--[^\n\r]*)|(?P<run>[A-Za-z0-9_][A-Za-z0-9_']*)|(?P<sign>->|-o|[*()=,:.\[\]{}+^]|"
                  + "|".join(SIGNS).encode() + rb")|(?P<odd>[\xc0-\xff][\x80-\xbf]*|.)", re.DOTALL)
#: words that an item may end with, and `type`
ITEM_ENDS = ("type", "name", "part", "number", ")", "]", "}", "odd")
CLOSES = {")": "(", "]": "[", "}": "{"}
OPENS = {opens: closes for closes, opens in CLOSES.items()}


@dataclass(frozen=True)
class Word:
    """A name, a part, a number, a sign or reserved word (its kind is then itself), the end, or `odd`: what is no word."""

    kind: str
    text: str
    start: int
    end: int


@dataclass(frozen=True)
class Clause:
    """A definition of a term or of a type: its name, the words of its head and body by their numbers, and the bytes that it stands in."""

    name: Word
    is_type: bool
    first: int
    body: int
    last: int
    start: int
    end: int
    parameters: bool
    numbers: bool


def words_of(data: bytes) -> list[Word]:
    """All words of a text, and the end."""
    found = []
    for match in WORD.finditer(data):
        if match.lastgroup != "gap":
            text = match[0].decode(errors="replace")
            found.append(Word(_kind(str(match.lastgroup), text), text, match.start(), match.end()))
    return found + [Word("end", "the end of the text", len(data), len(data) + 1)]


def _kind(group: str, text: str) -> str:
    if group != "run":
        return SIGNS.get(text, text) if group == "sign" else "odd"
    if text[0].isdigit():
        return "number" if text.isdigit() else "odd"
    return text if text in RESERVED else "part" if text in PART_NUMBERS else "name"


class Words:
    """The words of a text by number and by offset, and its clauses in their order."""

    def __init__(self, data: bytes):
        self.all = words_of(data)
        self._starts = [word.start for word in self.all]
        self._closed = self._brackets()
        self.clauses = list(self._clauses())
        self._clause_starts = [clause.start for clause in self.clauses]

    def at(self, offset: int) -> int:
        """The number of the word that an offset stands in, or of the nearest before it."""
        return max(bisect_right(self._starts, offset) - 1, 0)

    def clause_at(self, offset: int) -> int:
        """The number of the clause that an offset stands in; -1 before the first."""
        return bisect_right(self._clause_starts, offset) - 1

    def behind_groups(self, number: int) -> int:
        """The first word behind the `[ ]` and `{ }` that follow a name."""
        while self.all[number].kind in ("[", "{"):
            number = self.behind_bracket(number)
        return number

    def behind_bracket(self, number: int) -> int:
        """The first word behind a bracket that is closed again, or the end."""
        return self._closed.get(number, len(self.all) - 1)

    def _brackets(self) -> dict[int, int]:
        """For each bracket that is closed again the word behind its end."""
        found, waiting = {}, []
        for number, word in enumerate(self.all):
            if word.kind in OPENS:
                waiting.append(number)
            elif word.kind in CLOSES and waiting:
                found[waiting.pop()] = number + 1
        return found

    def _heads(self) -> Iterator[tuple[int, int]]:
        """For each head the word that it begins with and its name: `NAME .. =`, where an item may have ended."""
        for number, word in enumerate(self.all):
            if word.kind == "name" and self.all[self.behind_groups(number + 1)].kind == "=":
                before = self.all[number - 1].kind if number else "type"
                if before in ITEM_ENDS:
                    yield (number - 1 if number and before == "type" else number), number

    def _clauses(self) -> Iterator[Clause]:
        heads = list(self._heads())
        tables = [number for number, word in enumerate(self.all) if word.kind == "table"]
        for (first, name), (behind, _) in zip(heads, heads[1:] + [(len(self.all) - 1, 0)]):
            table = bisect_right(tables, name)
            last = min(behind, tables[table]) if table < len(tables) else behind
            equals = self.behind_groups(name + 1)
            yield Clause(self.all[name], first < name, first, equals + 1, last, self.all[first].start, self.all[last].start, equals > name + 1,
                         any(word.kind == "{" for word in self.all[name:equals]))

    def named(self, name: str, is_type: bool) -> list[Clause]:
        return [clause for clause in self.clauses if clause.name.text == name and clause.is_type == is_type]

    def name_from(self, number: int) -> Optional[Word]:
        """The name that a term begins with, behind its parentheses; None where it begins with another word."""
        while self.all[number].kind == "(":
            number += 1
        return self.all[number] if self.all[number].kind == "name" else None

    def behind_atoms(self, number: int, count: int) -> int:
        """The word behind so many atoms: names with their groups, parts, and what stands in parentheses."""
        for _ in range(count):
            opens = self.all[number].kind == "("
            number = self.behind_bracket(number) if opens else self.behind_groups(min(number + 1, len(self.all) - 1))
        return number

    def atoms(self, number: int) -> int:
        """How many atoms follow one another from a word on."""
        count = 0
        while self.all[number].kind in ("(", "part") or self.all[number].kind == "name" and self.all[self.behind_groups(number + 1)].kind != "=":
            count, number = count + 1, self.behind_atoms(number, 1)
        return count

    def next_of(self, number: int, kind: str) -> int:
        """The first word of a kind behind a word, or the end."""
        while number < len(self.all) - 1 and self.all[number].kind != kind:
            number += 1
        return number

    def behind_in(self, number: int) -> int:
        """The word behind the `in` of the `let` that a word stands in."""
        depth = 1
        while number < len(self.all) - 1 and depth:
            depth += (self.all[number].kind == "let") - (self.all[number].kind == "in")
            number += 1
        return number

    def binder_of(self, number: int) -> str:
        """The word before the outermost list that a word stands in: `fun` or `let`."""
        while number > 0 and self.all[number].kind in ("name", "(", ")", ","):
            number -= 1
        return self.all[number].kind

    def before_comma(self, number: int) -> int:
        """The first word of the term that ends at a comma of a pair."""
        depth = 0
        while number > 0:
            kind = self.all[number - 1].kind
            if depth == 0 and kind in ("(", ","):
                break
            depth += (kind in CLOSES) - (kind in OPENS)
            number -= 1
        return number
