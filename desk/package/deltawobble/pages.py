"""Report pages of failed jobs, by `deltawobble report` where this desk has it."""
from __future__ import annotations

import contextlib
import io
from pathlib import Path

from .jobs import random_bits
from .plan import Plan


def pages(bad: list[dict], plan: Plan, folder: Path, most: int) -> tuple[int, str]:
    """A page for each of the first jobs that failed: how many were made, and what is missing, in a sentence."""
    from . import cli
    asked = [result for result in bad if result["sheet"]][:most]
    if not asked:
        return 0, ""
    if "report" not in cli.COMMANDS:
        return 0, "(no report pages: this desk has no command report)"
    made = sum(page(result, plan, folder / "pages") for result in asked)
    return made, "" if made == len(asked) else "(%d report pages could not be made)" % (len(asked) - made)


def page(result: dict, plan: Plan, folder: Path) -> bool:
    """One page: the sheet, and the trace that failed."""
    from . import cli
    folder.mkdir(parents=True, exist_ok=True)
    name = result.get("job") or Path(result["sheet"]).stem
    words = ["report", plan.path(result["sheet"]), *trace_words(result, plan, folder / (name + ".trace")), "-o", str(folder / (name + ".html"))]
    silent = io.TextIOWrapper(io.BytesIO())
    with contextlib.redirect_stdout(silent), contextlib.redirect_stderr(silent):
        try:
            cli.main(words)
        except SystemExit:
            return False
    return (folder / (name + ".html")).exists()


def trace_words(result: dict, plan: Plan, path: Path) -> list[str]:
    """The trace's file, a random one written out, and the starts; nothing of a job that had no run."""
    from .campaign import circuit_of
    name = result.get("trace") or ""
    if not name or "ticks" not in result:
        return []
    circuit = circuit_of(plan.path(result["sheet"]), result["sheet"])
    starts = "".join(str(result["start"] >> i & 1) for i in range(circuit.registers))
    said = ["--starts", starts] if result["start"] else []
    if not name.startswith("random "):
        return [plan.path(name), *said]
    wide = len(circuit.inputs)
    bits = random_bits(int(name.split()[1]), result["ticks"] * wide)
    path.write_text("".join("".join(map(str, bits[t * wide:(t + 1) * wide])) + "\n" for t in range(result["ticks"])))
    return [str(path), *said]
