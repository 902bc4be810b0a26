"""Wrong blocks: an edit of a block's text that the block's property has to refuse, with a trace that the proved `run` shows."""
from __future__ import annotations

from dataclasses import dataclass
from pathlib import Path

import judge
import library
from deltawobble import calls
from deltawobble.trace import Run
from judge import Wrong


@dataclass(frozen=True)
class Edit:
    """What is wrong in words, the file, the old and the new text, and the property that refuses it."""

    name: str
    says: str
    file: str
    property: str
    old: str
    new: str


@dataclass(frozen=True)
class Refused:
    """The tick at which the property is 1, and the trace as waves."""

    edit: Edit
    tick: int
    starts: str
    waves: list[str]


def read(path: Path) -> Edit:
    lines = path.read_text().splitlines()
    fields = dict(line.split(": ", 1) for line in lines[1:])
    return Edit(path.stem, lines[0].removeprefix("# "), fields["file"], fields["property"], fields["old"].replace("⏎", "\n"), fields["new"].replace("⏎", "\n"))


def edits() -> list[Edit]:
    return [read(path) for path in sorted((library.BLOCKS / "wrong").glob("*.edit"))]


def refuse(edit: Edit) -> Refused:
    """The property of the edited block fails, and its trace, run by the proved call, shows the pin at 1 at that tick and at none before."""
    path = library.BLOCKS / edit.file
    text = path.read_text()
    if text.count(edit.old) != 1:
        raise Wrong("%s: what is to be edited stands in %s %d times" % (edit.name, edit.file, text.count(edit.old)))
    with library.changed(edit.file, text.replace(edit.old, edit.new)) as folder:
        made = library.block_sheet("properties/" + edit.file, edit.property, folder)
    lean, starts, found = judge.ask(made)
    if found.tick is None:
        raise Wrong("%s: %s holds of it, and should not" % (edit.name, edit.property))
    ticks, wide = found.tick + 1, len(lean.input_pins)
    shown = calls.run(made.sheet, found.inputs, found.starts, ticks)
    if list(shown) != [0] * found.tick + [1]:
        raise Wrong("%s: the proved run of the trace does not show the pin at 1 at tick %d first" % (edit.name, found.tick))
    run = Run(library.pins(made)[:wide], ["fails"], [found.inputs[k::wide] for k in range(wide)] + [shown], ticks, 0)
    return Refused(edit, found.tick, "".join(map(str, found.starts)), run.waves(100))
