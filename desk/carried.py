"""What an installation carries: the files of the package with the built library, and what stands below share/.

`desk/install` puts them below a prefix, the backend of `pip install desk/package` into a wheel.
"""
from __future__ import annotations

import json
import os
import subprocess
import sys
from pathlib import Path

ROOT = Path(__file__).resolve().parents[1]
PACKAGE = ROOT / "desk" / "package"
MADE = ROOT / "target" / "desk"
ARCHIVE = ROOT / "crates" / "deltawobble" / "out" / "libdeltawobble.a"

NOT_BUILT = ("the proved library has not been built here: run desk/build once (it proves the translator, some minutes; it needs the Rattle "
             "toolchain), or take a wheel from somebody who has")


class NotBuilt(Exception):
    """There is nothing to carry yet."""


def package_files() -> dict[str, bytes]:
    """The package's own files, by their place below the folder that Python imports from."""
    names = sorted(p for p in (PACKAGE / "deltawobble").rglob("*") if p.suffix == ".py" or p.name == "py.typed")
    return {p.relative_to(PACKAGE).as_posix(): p.read_bytes() for p in names}


def built_files() -> dict[str, bytes]:
    """The library, the archive that it was linked from, and what is known of both; no name in them leads back here."""
    try:
        how = json.loads((MADE / "how.json").read_text())
        called = Path(how["library"] if "library" in how else how["host"][-1])
        found = {called.name: called.read_bytes(), ARCHIVE.name: ARCHIVE.read_bytes(), "built.json": (MADE / "built.json").read_bytes()}
    except (OSError, ValueError, KeyError):
        raise NotBuilt(NOT_BUILT) from None
    words = {"library": called.name} if "library" in how else {"host": [*how["host"][:-1], called.name]}
    found["how.json"] = json.dumps({**how, **words}).encode() + b"\n"
    return {"deltawobble/built/" + name: data for name, data in found.items()}


def is_program(place: str) -> bool:
    """Whether a file is run: the host process of another processor."""
    return place.endswith("/built/host")


def made_texts() -> dict[str, bytes]:
    """The manual page and the completions, by their place below a prefix; made by the package itself."""
    env = dict(os.environ, PYTHONPATH=str(PACKAGE), PYTHONDONTWRITEBYTECODE="1", PYTHONIOENCODING="utf-8", COLUMNS="80")
    made = subprocess.run([sys.executable, "-m", "deltawobble.manual", "all"], env=env, stdout=subprocess.PIPE, check=True).stdout
    return {place: text.encode() for place, text in json.loads(made).items()}


def folder(source: Path, place: str, *suffixes: str) -> dict[str, bytes]:
    """The files of a folder with these suffixes, below a place; all files where no suffix is said."""
    return {"%s/%s" % (place, p.relative_to(source).as_posix()): p.read_bytes()
            for p in sorted(source.rglob("*")) if p.is_file() and (not suffixes or p.suffix in suffixes)}


def shared_files() -> dict[str, bytes]:
    """Manual page, completions, editor modes, examples and the pages about them, by their place below a prefix."""
    examples = folder(ROOT / "examples", "share/doc/deltawobble/examples", ".dw", ".hex", ".trace", ".run", ".toml")
    pages = {"share/doc/deltawobble/" + p.name: p.read_bytes() for p in [
        ROOT / "docs" / "NOTATION.md", ROOT / "docs" / "DESK.md", ROOT / "docs" / "CAMPAIGNS.md", ROOT / "LICENSE"]}
    return {**made_texts(), **folder(ROOT / "desk" / "editors", "share/deltawobble"), **examples, **pages}
