"""The proved call `make`, as the desk asks it: the bytes of a text to the bytes of a sheet and, for each node, the offset of its word; or one
refusal, 30 to 36."""
from __future__ import annotations

from .. import calls
from ..answer import Refused


class Refusal(Exception):
    """A text that means no sheet: the number, and the offset in the text where it stands."""

    def __init__(self, number: int, place: int):
        super().__init__("refused %d at offset %d" % (number, place))
        self.number, self.place = number, place


def make(text: bytes) -> tuple[bytes, list[int]]:
    """The sheet's bytes, and for each of its nodes the place of its word. Refusal where the text means none."""
    try:
        return calls.make(text)
    except Refused as refused:
        raise Refusal(refused.number, refused.place) from None
