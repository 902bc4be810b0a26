"""`use "adders.dw"` at the head of a text: the files that it uses are joined before it, each once, into the one text that `make` is given.

`use` lines and all `edition` lines but the first are blanked, byte for byte, so that a place of the joined text is a place of one file.
"""
from __future__ import annotations

import os
import re
from dataclasses import dataclass, field
from typing import Optional

from ..files import WrongUse, need_text, raw
from .text import File, NotationError, Piece, Span, Text

#: files in one another
MOST_DEEP = 64
#: the call takes no more; what is longer is refused there (30)
MOST_BYTES = 65535
GAP = rb"(?:[\t-\r ]|--[^\n\r]*)*+"
ITEM = re.compile(GAP + rb"(?:(?P<edition>edition(?![A-Za-z0-9_'])" + GAP + rb"(?P<number>[0-9]+)(?![A-Za-z0-9_']))"
                  + rb'|(?P<use>use' + GAP + rb'"(?P<name>[^"\n\r]*)"))')


@dataclass
class Head:
    """What stands at the head of a file: the stretch of its edition, its number, and the stretches and names of the files that it uses."""

    edition: Optional[tuple[int, int]] = None
    number: bytes = b"1"
    uses: list[tuple[int, int, str]] = field(default_factory=list)

    @staticmethod
    def of(data: bytes) -> "Head":
        found, at = Head(), 0
        while (match := ITEM.match(data, at)) and not (match["edition"] and found.edition):
            if match["edition"]:
                found.edition, found.number = match.span("edition"), match["number"]
            else:
                found.uses.append((*match.span("use"), os.fsdecode(match["name"])))
            at = match.end()
        return found

    def blanked(self, data: bytes) -> bytes:
        """The file's bytes without its head; lines and offsets stay."""
        for start, end in [*([self.edition] if self.edition else []), *((a, b) for a, b, _ in self.uses)]:
            data = data[:start] + re.sub(rb"[^\n\r]", b" ", data[start:end]) + data[end:]
        return data


class Gathering:
    """Files, those that are used before those that use them."""

    def __init__(self) -> None:
        self.files: list[File] = []
        self.heads: list[Head] = []
        self.known: set[str] = set()

    def gather(self, file: File, around: tuple[str, ...]) -> None:
        head = Head.of(file.data)
        for start, end, name in head.uses:
            path = os.path.join(os.path.dirname(file.name) or ".", name)
            shown = path if os.path.dirname(file.name) else name
            real = os.path.realpath(path)
            if real in around:
                raise self.fault(file, (start, end), "%s uses itself%s" % (name, "" if real == around[-1] else ", through the files between"))
            if len(around) > MOST_DEEP:
                raise self.fault(file, (start, end), "more than %d files use one another" % MOST_DEEP)
            if real in self.known:
                continue
            self.known.add(real)
            used = File(shown, self.read(file, (start, end), name, path))
            if Head.of(used.data).number != head.number:
                raise self.fault(file, (start, end), "%s is written in edition %s, and this text in edition %s"
                                 % (name, Head.of(used.data).number.decode(), head.number.decode()))
            self.gather(used, around + (real,))
        self.files.append(file)
        self.heads.append(head)

    def read(self, file: File, stretch: tuple[int, int], name: str, path: str) -> bytes:
        try:
            return need_text(name, raw(path)).encode(errors="surrogatepass")
        except (WrongUse, ValueError) as error:
            raise self.fault(file, stretch, str(error).replace(path, name, 1)) from None

    @staticmethod
    def fault(file: File, stretch: tuple[int, int], what: str) -> NotationError:
        (line, column), (end_line, end_column) = map(file.place, stretch)
        return NotationError(Text(file.data, [file]), Span(line, column, end_line, end_column), what)


def joined(name: str, data: bytes) -> Text:
    """The text of a file, and of the files that it uses. NotationError where one is missing, or they go round in a circle."""
    given = File(name, data)
    if not Head.of(data).uses:
        return Text(data, [given])
    gathering = Gathering()
    gathering.known.add(os.path.realpath(name))
    gathering.gather(given, (os.path.realpath(name),))
    return _put_together(gathering.files, gathering.heads)


def _put_together(files: list[File], heads: list[Head]) -> Text:
    """The edition of the file that was given, then all files, each ended by a line."""
    whole, pieces, last = bytearray(), [], len(files) - 1
    edition = heads[last].edition
    if edition:
        pieces.append(Piece(0, last, edition[0]))
        whole += files[last].data[slice(*edition)] + b"\n"
    for number, (file, head) in enumerate(zip(files, heads)):
        pieces.append(Piece(len(whole), number, 0))
        whole += head.blanked(file.data) + (b"\n" if number < last else b"")
    if len(whole) > MOST_BYTES:
        raise WrongUse("%s: a text in the notation has at most %d bytes, and this one has %d with the files that it uses"
                       % (files[last].name, MOST_BYTES, len(whole)))
    return Text(bytes(whole), files, pieces)
