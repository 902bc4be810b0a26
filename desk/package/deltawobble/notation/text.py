"""A text with the files that it was joined from, stretches of it by line and column, and errors there."""
from __future__ import annotations

import re
from bisect import bisect_right
from dataclasses import dataclass, field
from typing import Optional

from ..files import WrongUse

LINE_END = re.compile(rb"\r\n|\n|\r")


@dataclass(frozen=True)
class Span:
    """A stretch of a file: the line and column where it begins, and those behind its end; all count from 1. `file` counts from 0."""

    line: int
    column: int
    end_line: int
    end_column: int
    file: int = 0


@dataclass
class File:
    """A file that a text was joined from."""

    name: str
    data: bytes
    lines: list[str] = field(init=False)
    starts: list[int] = field(init=False)
    ascii: bool = field(init=False)

    def __post_init__(self) -> None:
        self.ascii = self.data.isascii()
        ends = list(LINE_END.finditer(self.data))
        self.starts = [0, *(match.end() for match in ends)]
        stops = [*(match.start() for match in ends), len(self.data)]
        self.lines = [_decoded(self.data[a:b]) for a, b in zip(self.starts, stops)]
        if len(self.lines) > 1 and not self.lines[-1]:
            self.lines.pop()

    def place(self, offset: int) -> tuple[int, int]:
        """Line and column of an offset; the end of a text stands behind its last line."""
        line = min(bisect_right(self.starts, offset), len(self.lines))
        first = self.starts[line - 1]
        before = offset - first if self.ascii else len(_decoded(self.data[first:offset]))
        return line, min(before, len(self.lines[line - 1])) + 1


def _decoded(data: bytes) -> str:
    try:
        return data.decode(errors="surrogatepass")
    except UnicodeDecodeError:
        return data.decode(errors="replace")


@dataclass(frozen=True)
class Piece:
    """A stretch of the joined text that a file's bytes stand in, from `first` on."""

    start: int
    file: int
    first: int


class Text:
    """What the call `make` is given, and where its bytes come from. The last file is the one that was given; the others are those it uses."""

    def __init__(self, data: bytes, files: list[File], pieces: Optional[list[Piece]] = None):
        self.data, self.files = data, files
        self.pieces = pieces or [Piece(0, 0, 0)]
        self._starts = [piece.start for piece in self.pieces]

    @property
    def given(self) -> File:
        return self.files[-1]

    @property
    def name(self) -> str:
        return self.given.name

    @property
    def lines(self) -> list[str]:
        return self.given.lines

    def span(self, start: int, end: int) -> Span:
        """The stretch between two offsets of the joined text."""
        piece = self.pieces[bisect_right(self._starts, start) - 1]
        file = self.files[piece.file]
        line, column = file.place(start - piece.start + piece.first)
        end_line, end_column = file.place(end - piece.start + piece.first)
        return Span(line, column, end_line, max(end_column, column + 1) if end_line == line else end_column, piece.file)

    def shown(self, span: Span, head: str, word: str = "") -> list[str]:
        """A stretch under its head: the line, and carets below it with a word behind them."""
        file = self.files[span.file]
        line = file.lines[span.line - 1]
        end = span.end_column if span.end_line == span.line else len(line) + 1
        carets = "^" * max(end - span.column, 1)
        before = "".join("\t" if c == "\t" else " " for c in line[:span.column - 1])
        return ["%s:%d:%d: %s" % (file.name, span.line, span.column, head), "%4d | %s" % (span.line, line),
                ("     | %s%s %s" % (before.ljust(span.column - 1), carets, word)).rstrip()]

    def place_words(self, span: Span) -> str:
        """Line and column, and the file where there are several."""
        return ("%s:" % self.files[span.file].name if len(self.files) > 1 else "") + "%d:%d" % (span.line, span.column)


class NotationError(WrongUse):
    """A text that means no sheet: what is wrong, and where; `number` and `place` are the call's, where it refused the text."""

    def __init__(self, text: Text, span: Span, what: str, word: str = "", number: Optional[int] = None, place: Optional[int] = None):
        self.span, self.what, self.number, self.place = span, what, number, place
        super().__init__("\n".join(text.shown(span, what, word)))

    @classmethod
    def of(cls, lines: list[str]) -> "NotationError":
        """One whose lines are at hand: the first has the file's name, line and column."""
        error = cls.__new__(cls)
        Exception.__init__(error, "\n".join(lines))
        error.number = error.place = None
        return error

    def as_json(self) -> dict:
        """File, line and column, what is wrong there, and all lines that are said; the number and the offset of a text that the call refused."""
        lines = str(self).split("\n")
        found = re.fullmatch(r"(.*):(\d+):(\d+): (.*)", lines[0])
        where = {"file": found[1], "line": int(found[2]), "column": int(found[3]), "wrong": found[4]} if found else {"wrong": lines[0]}
        refusal = {"refusal": {"number": self.number, "offset": self.place}} if self.number is not None else {}
        return {"accepted": None, **where, **refusal, "lines": lines}
