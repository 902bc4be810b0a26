"""Which deltawobble this is: its version, and what desk/build wrote down of the library that it calls."""
from __future__ import annotations

import argparse
import hashlib
import json
from dataclasses import dataclass, field
from pathlib import Path
from typing import Optional

from . import engine

__version__ = "1.0"


def record() -> dict:
    """Commit, toolchain, and the hashes of sources, archive and library; `gate` has those that the gate wrote. {} where none is known."""
    try:
        return json.loads((engine.place() / "built.json").read_text())
    except (OSError, ValueError):
        return {}


def archive_hash() -> str:
    """The hash of the proved archive that the library in use was linked from, as the build wrote it down."""
    return record().get("archive", "unknown")


def lines() -> list[str]:
    known = record()
    said = ["deltawobble %s" % __version__]
    said += ["%-9s  %s" % (word, known[key]) for word, key in (("commit", "commit"), ("archive", "archive"), ("toolchain", "toolchain")) if key in known]
    return said if known else said + ["the proved library has not been built: run desk/build"]


class Version(argparse.Action):
    """--version: prints what is known, and ends."""

    def __init__(self, option_strings, dest, help=None):
        super().__init__(option_strings, dest=argparse.SUPPRESS, default=argparse.SUPPRESS, nargs=0, help=help)

    def __call__(self, parser, namespace, values, option_string=None):
        print("\n".join(lines()))
        parser.exit()


@dataclass
class Verdict:
    """Whether what is called is what the gate proved, and a line for each thing that was looked at."""

    good: bool = True
    lines: list[str] = field(default_factory=list)

    def held(self, what: str, found: Optional[str], wanted: Optional[str], by: str) -> None:
        same = found == wanted
        self.good = self.good and same
        self.lines.append("%s %s: %s" % (what, found, "the same as %s" % by if same else "%s has %s" % (by, wanted or "none")))


def sha256(path: Path) -> str:
    return hashlib.sha256(path.read_bytes()).hexdigest()


def verify() -> Verdict:
    """The files that are called, hashed again, against what the build wrote down, and that against what the gate wrote."""
    known, folder, verdict = record(), engine.place(), Verdict()
    made = engine.how()
    called = folder / (made["library"] if "library" in made else made["host"][-1])
    verdict.held("library", sha256(called), known.get("library"), "the build")
    archive = next((p for p in (folder / "libdeltawobble.a", folder.parents[1] / "crates" / "deltawobble" / "out" / "libdeltawobble.a") if p.exists()), None)
    if archive is None:
        verdict.good = False
        verdict.lines.append("archive: there is none beside the library")
    else:
        verdict.held("archive", sha256(archive), known.get("archive"), "the build")
    gate = known.get("gate", {})
    for key in ("toolchain", "sources", "archive"):
        verdict.held(key, known.get(key), gate.get(key), "the gate")
    return verdict
