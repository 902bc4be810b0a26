"""Traces as text: a line for each tick, a bit for each column, `011`, `0 1 1` or `0,1,1`. A first line of pin names says which column is which."""
from __future__ import annotations

import re
from collections import deque
from typing import IO, Iterator, Optional, Sequence

from .columns import SIGNS, VALUES, Columns
from .files import WrongUse

#: bytes that are read at once, and the most that a line has
BLOCK = 1 << 20
BLANKS, COMMAS = b" \t\r\f\v", b",;"
WORD = re.compile(r"[^\s,;]+")


class Rows(Columns):
    """A text of rows. `header` is the line of the names that were read in it, None where there are none."""

    def __init__(self, name: str, stream: IO[bytes], pins: Sequence[str], what: str, usual: Sequence[str], names: Optional[Sequence[str]] = None):
        """`pins` are the names that a first line may have, `usual` the columns of a file without names, `names` those said for it."""
        super().__init__()
        self.name, self.header = name, None
        self._stream, self._line = stream, 1
        self._lines: deque[tuple[int, Sequence[int]]] = deque(maxlen=8)
        self._ticks = 0
        self._rest = self._begin(pins, names)
        if self.header is None:
            self.names, self._said = list(names or usual), "columns named by --names" if names else what
            if not self.names:
                raise WrongUse("%s: there are no %s, and no first line names other columns" % (name, what))

    # ---- the first line

    def _begin(self, pins: Sequence[str], said: Optional[Sequence[str]]) -> bytes:
        """Reads a first line of names, if there is one, and gives what stands behind it in the first block."""
        block, at = self._block(b"").removeprefix(b"\xef\xbb\xbf"), 0
        while at < len(block):
            end = block.index(b"\n", at) + 1 if b"\n" in block[at:] else len(block)
            words = list(WORD.finditer(self._plain(block[at:end])))
            if words and not self._is_header(words, pins, said):
                break
            at, self._line = end, self._line + 1
            if words:
                break
        return block[at:]

    def _is_header(self, words: list[re.Match], pins: Sequence[str], said: Optional[Sequence[str]]) -> bool:
        odd = next((word for word in words if word[0] not in pins), None)
        if odd is None:
            self._take_names([word[0] for word in words], said)
            return True
        wrong = next((word for word in words if word[0] not in pins and word[0].encode().translate(None, SIGNS)), None)
        if wrong is None and all(not word[0].encode().translate(None, SIGNS) for word in words):
            return False
        bad = wrong or odd
        raise WrongUse("%s:%d:%d: %s is %s: a first line of names has pins alone, and they are %s"
                       % (self.name, self._line, bad.start() + 1, quoted(bad[0]), "no bits and no pin" if wrong else "no pin", ", ".join(pins)))

    def _take_names(self, names: list[str], said: Optional[Sequence[str]]) -> None:
        if said:
            raise WrongUse("%s:%d: it has names of its own, and --names is for a file that has none" % (self.name, self._line))
        self.names, self._said, self.header = names, "columns", self._line

    # ---- the rows

    def pieces(self) -> Iterator[list[bytes]]:
        """Lines of one length with bits at the same places, which is how programs write them, are cut into columns all at once."""
        block = self._rest
        while True:
            block = self._block(block)
            if not block:
                return
            cut = block.rfind(b"\n") + 1
            columns = even(block[:cut])
            if columns is None or len(columns) != len(self.names):
                columns = self._one_by_one(block[:cut])
            else:
                self._keep(range(self._line, self._line + len(columns[0])))
            self._line += block.count(b"\n")
            self._ticks += len(columns[0])
            yield columns
            block = block[cut:]

    def _block(self, kept: bytes) -> bytes:
        """What was kept and what comes next, with at least one whole line; nothing at the end."""
        data = kept + self._stream.read(BLOCK)
        if data and b"\n" not in data:
            if len(data) >= BLOCK:
                raise WrongUse("%s:%d: a line has more than %d bytes" % (self.name, self._line, BLOCK))
            more = self._stream.read(BLOCK)
            return self._block(data + more) if more else data + b"\n"
        return data

    def _one_by_one(self, block: bytes) -> list[bytes]:
        rows, lines = bytearray(), []
        for number, line in enumerate(block.split(b"\n")[:-1], self._line):
            row = self._row(number, line)
            if row:
                rows += row
                lines.append(number)
        self._keep(lines)
        return [bytes(rows[i::len(self.names)]) for i in range(len(self.names))]

    def _row(self, number: int, line: bytes) -> bytes:
        plain = self._plain(line, number)
        words = "".join(WORD.findall(plain)).encode()
        if not words:
            if plain.strip():
                raise WrongUse("%s:%d: no bit stands in it" % (self.name, number))
            return b""
        odd = next((c for c in words.decode() if c not in SIGNS.decode()), None)
        if odd is not None:
            raise WrongUse("%s:%d:%d: %s is no bit" % (self.name, number, plain.index(odd) + 1, ascii(odd)))
        cells = re.split("[,;]", plain)
        if any(not cell.strip() for cell in cells):
            raise WrongUse("%s:%d: column %d is empty" % (self.name, number, next(i for i, cell in enumerate(cells, 1) if not cell.strip())))
        if len(words) != len(self.names):
            count = "1 bit" if len(words) == 1 else "%d bits" % len(words)
            raise WrongUse("%s:%d: %s, and there are %d %s" % (self.name, number, count, len(self.names), self._said))
        return words.translate(VALUES)

    def _plain(self, line: bytes, number: Optional[int] = None) -> str:
        """A line without its comment."""
        try:
            return line.split(b"#")[0].decode()
        except UnicodeDecodeError:
            raise WrongUse("%s:%d: this is no text" % (self.name, number or self._line)) from None

    # ---- places

    def _keep(self, lines: Sequence[int]) -> None:
        self._lines.append((self._ticks, lines))

    def place(self, tick: int) -> str:
        for first, lines in self._lines:
            if first <= tick < first + len(lines):
                return "%s:%d" % (self.name, lines[tick - first])
        return super().place(tick)


def even(block: bytes) -> Optional[list[bytes]]:
    """The columns of a block whose lines all have their bits at the same places; None of any other block."""
    step = block.index(b"\n") + 1
    count, rest = divmod(len(block), step)
    if rest or block.count(b"\n") != count or block[step - 1::step].count(b"\n") != count:
        return None
    columns: list[bytes] = []
    cell = False
    for at in range(step - 1):
        column = block[at::step]
        if not column.translate(None, SIGNS):
            columns.append(column.translate(VALUES))
            cell = True
        elif not column.translate(None, COMMAS) and cell:
            cell = False
        elif column.translate(None, BLANKS):
            return None
    return columns if cell else None


def quoted(word: str) -> str:
    return ascii(word if len(word) <= 20 else word[:20] + "..")
