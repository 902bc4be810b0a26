"""Where each node of a sheet stands in its text: its word, the names that it binds, and the definitions that it was put in with. All of it comes
from the text's words, the sheet, and the places that `make` gives.

A definition that is put in is a subtree whose nodes' places lie in that clause. Such a subtree begins where a node's place lies in another clause than that
of the node above it; or, of a clause that knows itself, where the place is again that of the subtree's first node. Applications to several arguments
have one place, so there the arguments are counted.
"""
from __future__ import annotations

from dataclasses import dataclass

from ..sheet import Node, Sheet
from .text import Span, Text
from .words import Clause, Word, Words

APPLICATIONS = (0x14, 0x16)


@dataclass(frozen=True)
class Put:
    """A definition that was put in: its first node, its name, where it is defined, and where it is named, the outermost first."""

    node: int
    name: str
    head: int
    at: tuple[int, ...]


@dataclass
class Origin:
    """A node's word, by number; what it binds; and the definitions around it, the outermost first."""

    word: int
    binds: list[str]
    through: tuple[Put, ...]

    @property
    def path(self) -> tuple[int, ...]:
        """The first nodes of the definitions around it: no two of them have one path."""
        return tuple(put.node for put in self.through)


class Origins:
    """The origins of a sheet's nodes, by number."""

    def __init__(self, text: Text, words: Words, sheet: Sheet, places: list[int], root: str = "main"):
        self.text, self.words, self.places = text, words, places
        self.all: list[Origin] = []
        main = next(number for number, c in enumerate(words.clauses) if c.name.text == root and not c.is_type)
        for node in sheet.nodes:
            number = words.at(places[node.number])
            self.all.append(Origin(number, self._binds(node, number), self._through(node, main)))

    def span(self, number: int) -> Span:
        """The stretch of a word."""
        word = self.words.all[number]
        return self.text.span(word.start, word.end)

    # ---- names

    def _binds(self, node: Node, number: int) -> list[str]:
        """The names that a node binds. What a projection leaves for the next one has no name in the text, and is called rest; nor has the variable of
        `fun (x, y)`, which is called whole; nor that of a list in a list, which is called after the names in it."""
        if node.kind in (0x13, 0x15, 0x19, 0x1B):
            return ["whole" if self.words.all[number].kind == "(" else self.words.all[number].text]
        if node.kind == 0x18:
            second = self.words.behind_atoms(number, 1) + 1
            last = self.words.all[self.words.behind_atoms(second, 1)].kind == ")"
            return [self._member(number), self._member(second) if last else "rest"]
        return []

    def _member(self, number: int) -> str:
        """What is bound where a name or a list stands: (x, (y, z)) is called x_y_z."""
        return "_".join(word.text for word in self.words.all[number:self.words.behind_atoms(number, 1)] if word.kind == "name")

    # ---- definitions that are put in

    def _through(self, node: Node, main: int) -> tuple[Put, ...]:
        clause, above = self.words.clause_at(self.places[node.number]), node.parent
        if above is None:
            return () if clause == main else (self._put(node, clause, self._from(self.words.clauses[main].body, clause)),)
        around = self.all[above.number].through
        if clause == self.words.clause_at(self.places[above.number]) and not self._again(node, above, around):
            return around
        return around + (self._put(node, clause, self._from(self._stands(node, above), clause)),)

    def _put(self, node: Node, clause: int, at: tuple[int, ...]) -> Put:
        name = self.words.clauses[clause].name
        return Put(node.number, name.text, self.words.at(name.start), at)

    def _again(self, node: Node, above: Node, around: tuple[Put, ...]) -> bool:
        """Whether a clause that knows itself is put in once more. No definition begins with a variable, though that of a list may stand where the clause's
        first node does."""
        if node.is_variable:
            return False
        place, first = self.places[node.number], around[-1].node if around else 0
        if not self.words.clauses[self.words.clause_at(place)].numbers or place != self.places[first]:
            return False
        if not (above.kind in APPLICATIONS and node is above.subterms[0] and self.places[above.number] == place):
            return True
        return node.kind in APPLICATIONS and self._argument(above) == 1

    def _stands(self, node: Node, above: Node) -> int:
        """The word that the text of a node begins with, whose clause is that of the node above it."""
        words, number = self.words, self.words.at(self.places[above.number])
        last = node is above.subterms[-1]
        named_by_let = words.all[max(number - 1, 0)].kind == "let"
        if above.kind == 0x17:
            return number + 1 if last else words.before_comma(number)
        if above.kind == 0x18 and last and words.binder_of(number) == "fun":
            return words.next_of(words.next_of(number, ":"), ".") + 1
        if above.kind in (0x18, 0x1B):
            return words.behind_in(number) if last else words.next_of(number, "=") + 1
        if above.kind in (0x13, 0x15, 0x19):
            return words.behind_in(number) if named_by_let else words.next_of(number, ".") + 1
        if named_by_let:
            return words.next_of(number, "=") + 1
        return words.behind_atoms(number, self._argument(above)) if last else number

    def _argument(self, node: Node) -> int:
        """Which atom the argument of an application is, the function being atom 0: the outermost application has the last one."""
        place = self.places[node.number]
        found, at = self.words.atoms(self.words.at(place)) - 1, node
        while at.parent and at.parent.kind in APPLICATIONS and at.parent.subterms[0] is at and self.places[at.parent.number] == place:
            around = self.all[at.number].through
            if around and around[-1].node == at.number:
                break
            found, at = found - 1, at.parent
        return found

    def _from(self, number: int, target: int) -> tuple[int, ...]:
        """The names by which a definition is put in: the one at a word and, where that is but another name for it, those that lead on."""
        found: list[int] = []
        limit = len(self.words.clauses)
        while (name := self.words.name_from(min(number, len(self.words.all) - 1))) is not None and limit:
            found.append(self.words.at(name.start))
            step = self._step(name, target, limit)
            if step is None:
                break
            number, limit = self.words.clauses[step].body, step
        return tuple(found)

    def _step(self, name: Word, target: int, limit: int) -> int | None:
        """The clause above that a name stands for, if it is not the one that was put in."""
        if name.text == self.words.clauses[target].name.text:
            return None
        known: list[tuple[int, Clause]] = [(k, c) for k, c in enumerate(self.words.clauses[:limit]) if c.name.text == name.text and not c.is_type]
        return known[-1][0] if known else None
