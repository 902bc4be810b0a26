"""The answer word of a call, and the refusal that it may hold."""
from __future__ import annotations

from .words import FORM, RULES, place_word


class Refused(Exception):
    """A call's refusal: `number`, `place`, for 12 the type numbers `wanted` and `found`, and `sentence`, which says the rule."""

    def __init__(self, number: int, place: int, wanted: int = 0, found: int = 0):
        self.number, self.place, self.wanted, self.found = number, place, wanted, found
        self.sentence = RULES.get(number, "No rule has this number.")
        super().__init__(number, place, wanted, found)

    def __str__(self) -> str:
        word = place_word(self.number)
        where = " at %s %d" % (word, self.place) if word and word != "length" else ""
        needs = " %d bytes are needed." % self.place if word == "length" else ""
        return "refused %d%s: %s%s" % (self.number, where, self.sentence, needs)

    def as_json(self) -> dict:
        said = {"accepted": False, "number": self.number, "place": self.place, "sentence": self.sentence}
        if self.number == 12:
            said.update(wanted=self.wanted, form=self.wanted == FORM, found=self.found)
        return said


def unpack(word: int) -> int:
    """The value of an answer word; Refused where it holds a refusal.

    Bits 0 to 31 are the value or the place, 32 to 39 the number, 40 to 51 the type wanted, 52 to 63 the one found.
    """
    number = word >> 32 & 0xFF
    if number:
        raise Refused(number, word & 0xFFFFFFFF, word >> 40 & 0xFFF, word >> 52 & 0xFFF)
    return word & 0xFFFFFFFF
