"""Texts of blocks to sheets: the desk's own `use` joins the files, and the proved call `make` makes the sheet.

What is behind a sheet's bytes comes from the proved calls too, through the desk's package. `by_second` is the second program, which `blocks/test`
holds every sheet of a block against.
"""
from __future__ import annotations

import shutil
import subprocess
import sys
from contextlib import contextmanager
from pathlib import Path
from tempfile import TemporaryDirectory
from typing import Iterator, Union

ROOT = Path(__file__).resolve().parent.parent
BLOCKS = ROOT / "blocks"
SECOND = ROOT / "second/target/release/second"
sys.path.insert(0, str(ROOT / "desk/package"))
from deltawobble.notation import Made, NotationError, make  # noqa: E402
from deltawobble.notation.made import made_of  # noqa: E402
from deltawobble.notation.text import Text  # noqa: E402
from deltawobble.notation.uses import joined  # noqa: E402
from deltawobble.pins import pin_names  # noqa: E402
from deltawobble.sheet import Sheet  # noqa: E402


def written(file: str, term: str) -> str:
    """A text whose main is a term over the blocks of a file: `written("bits.dw", "adder{3}")`."""
    return 'edition 2\nuse "%s"\nmain = %s\n' % (file, term)


def block_text(file: str, term: str, folder: Path = BLOCKS) -> Text:
    """That text with what it uses. `folder` has the blocks, or those of `changed`."""
    return joined(str(folder / "main.dw"), written(file, term).encode())


def block_sheet(file: str, term: str, folder: Path = BLOCKS) -> Made:
    """The sheet of a term over the blocks of a file. NotationError says what is wrong, with file, line and column."""
    return made_of(block_text(file, term, folder))


def file_sheet(path: Path) -> Made:
    """The sheet of a file."""
    return make(path.read_text(), str(path))


@contextmanager
def changed(file: str, text: str) -> Iterator[Path]:
    """A folder with the blocks and their properties, in which one file has another text."""
    with TemporaryDirectory() as name:
        folder = Path(name)
        shutil.copytree(BLOCKS / "properties", folder / "properties")
        for path in BLOCKS.glob("*.dw"):
            shutil.copy(path, folder)
        (folder / file).write_text(text)
        yield folder


def file_of(made: Made, node: int) -> Path:
    """The file that a node's word stands in."""
    place = made.places[node]
    return Path(made.text.files[made.text.span(place, place).file].name).resolve()


def pins(made: Made) -> list[str]:
    """The pins' names, in pin order."""
    return pin_names(Sheet.parse(made.sheet, made.own()))


def by_second(text: Text) -> Union[tuple[bytes, list[int]], tuple[int, int]]:
    """What the second program makes of a text: sheet and places, or the number and place of its refusal."""
    done = subprocess.run([SECOND, "make"], input=text.data, check=True, capture_output=True).stdout.decode()
    if not done.startswith("made"):
        _, number, place = done.split()
        return int(number), int(place)
    _, sheet, places = done.splitlines()
    return bytes.fromhex(sheet), [int(word) for word in places.split()]
