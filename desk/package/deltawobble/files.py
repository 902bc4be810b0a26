"""Files that people give: raw bytes, commented hex, or notation; `-` is standard input."""
from __future__ import annotations

import re
from dataclasses import dataclass
from pathlib import Path
from typing import TYPE_CHECKING, Optional

from .sheet import Own

if TYPE_CHECKING:
    from .notation import Made

#: more is read of no file; a trace of 65,535 ticks and 128 pins has a quarter of it
MOST = 1 << 26

RAW, HEX, NOTATION = "raw bytes", "commented hex", "notation"
#: names that say what a file is; elsewhere its content does
BY_NAME = {".sheet": RAW, ".net": RAW, ".bin": RAW, ".hex": HEX, ".dw": NOTATION}
#: what stands before the `=` of a definition
DEFINES = re.compile(r"(?<![A-Za-z0-9_'])[A-Za-z_][A-Za-z0-9_']*+\s*+=")
HEX_WORD = re.compile(r"(?:[0-9A-Fa-f]{2})+")
#: bytes of a text below the blank
BLANKS = b"\t\n\f\r"
#: the kinds of a netlist's records, as signs, that no commented hex begins with: 23 is `#`
KINDS = ("!", '"', "$", "%", "&")


class WrongUse(Exception):
    """What was given cannot be used; the message says what, and where."""


@dataclass
class Source:
    """A sheet or a netlist that was given: its name, its bytes, and the notation that it was made from."""

    name: str
    bytes: bytes
    made: Optional["Made"] = None

    @property
    def own(self) -> Optional[Own]:
        """The notation's own names, where it was made from one."""
        return self.made.own() if self.made else None

    @property
    def stem(self) -> str:
        """What a picture calls it; bytes of a name that are no text are spelt out."""
        return "sheet" if self.name == "-" else Path(self.name).stem.encode(errors="backslashreplace").decode()


def raw(name: str) -> bytes:
    """The bytes of a file, or of standard input for `-`."""
    try:
        if name == "-":
            data = _standard_input().read(MOST + 1)
        else:
            with open(name, "rb") as file:
                data = file.read(MOST + 1)
    except OSError as error:
        raise WrongUse("%s: %s" % (name, error.strerror)) from error
    if len(data) > MOST:
        raise WrongUse("%s: the desk reads no more than %d bytes of a file, and here are more" % (name, MOST))
    return data


def _standard_input():
    from .streams import given
    return given()


def text_of(data: bytes) -> Optional[str]:
    """The text, if these bytes are one. No accepted sheet is, as the record 01 stands in its first two bytes."""
    if any(b < 32 for b in set(data) - set(BLANKS)):
        return None
    try:
        return data.decode("utf-8-sig")
    except UnicodeDecodeError:
        return None


def need_text(name: str, data: bytes) -> str:
    """The text of a file that can be nothing else."""
    text = text_of(data)
    if text is None:
        raise WrongUse("%s: this is no text" % name)
    return text


def hex_bytes(name: str, text: str) -> bytes:
    """The bytes of commented hex: `#` starts a comment."""
    found = bytearray()
    for number, line in enumerate(text.splitlines(), 1):
        column = 0
        plain = line.split("#")[0]
        for word in plain.split():
            column = plain.index(word, column) + 1
            try:
                found += bytes.fromhex(word)
            except ValueError:
                raise WrongUse("%s:%d:%d: '%s' is no hex byte (a notation has 'main = ..', a raw sheet has the byte 01)"
                               % (name, number, column, word[:20])) from None
            column += len(word) - 1
    return bytes(found)


def has_hex(text: Optional[str]) -> bool:
    """Whether a hex byte stands in a text outside comments."""
    return any(HEX_WORD.fullmatch(word) for line in (text or "").splitlines() for word in line.split("#")[0].split())


def has_definition(text: Optional[str]) -> bool:
    """Whether a `NAME =` stands in a text outside comments, those of hex and those of the notation."""
    return bool(DEFINES.search("\n".join(line.split("#")[0].split("--")[0] for line in (text or "").splitlines())))


def read_net(name: str) -> Source:
    """A netlist: raw bytes or commented hex, by its name or else by what is in it."""
    data, form = raw(name), BY_NAME.get(Path(name).suffix)
    if form is NOTATION:
        raise WrongUse("%s: a netlist is raw bytes or commented hex, and no notation" % name)
    if form is None:
        text = text_of(data)
        form = HEX if has_hex(text) and not (text or "").startswith(KINDS) else RAW
    return Source(name, data if form is RAW else hex_bytes(name, need_text(name, data)))


def read(name: str) -> Source:
    """A sheet: raw bytes, commented hex or notation, by its name or else by what is in it."""
    data, form = raw(name), BY_NAME.get(Path(name).suffix)
    if form is None:
        # a text that is neither is raw bytes: these have an answer of their own
        text = text_of(data)
        form = NOTATION if has_definition(text) else HEX if has_hex(text) else RAW
    if form is RAW:
        return Source(name, data)
    if form is HEX:
        return Source(name, hex_bytes(name, need_text(name, data)))
    from .notation import check_unused, make
    made = make(need_text(name, data), name)
    check_unused(made)
    return Source(name, made.sheet, made)
