#!/usr/bin/env python3
"""Takes away exactly what desk/install wrote below a prefix, by the manifest that stands beside this file once it is installed.

A file that has been changed since is not what was written: it stays, and is named. So does a folder that something else stands in.
"""
from __future__ import annotations

import hashlib
import sys
from pathlib import Path

MANIFEST = "share/deltawobble/manifest"


def entries(prefix: Path) -> list[tuple[str, str]]:
    """The manifest: hash and place of each file, or `folder` and the place of each folder that was made."""
    lines = (prefix / MANIFEST).read_text().splitlines()
    return [(line.split("  ", 1)[0], line.split("  ", 1)[1]) for line in lines]


def remove(prefix: Path) -> list[str]:
    """Removes what is listed, and gives a line for each file that stays."""
    kept, listed = [], entries(prefix)
    for word, place in listed:
        path = prefix / place
        if word == "folder" or not (path.exists() or path.is_symlink()):
            continue
        if hashlib.sha256(path.read_bytes()).hexdigest() == word:
            path.unlink()
        else:
            kept.append("%s stays: it has been changed since it was installed" % path)
    drop_compiled(prefix, [place for word, place in listed if place.endswith(".py")])
    (prefix / MANIFEST).unlink()
    for _, place in reversed([entry for entry in listed if entry[0] == "folder"]):
        drop_empty(prefix / place)
    return kept


def drop_compiled(prefix: Path, modules: list[str]) -> None:
    """What Python has compiled of our modules, beside them."""
    for module in map(Path, modules):
        cache = prefix / module.parent / "__pycache__"
        for compiled in cache.glob(module.stem + ".*.pyc"):
            compiled.unlink()
        drop_empty(cache)


def drop_empty(folder: Path) -> None:
    try:
        folder.rmdir()
    except OSError:
        pass


if __name__ == "__main__":
    here = Path(__file__).resolve().parents[2]
    if len(sys.argv) > 1:
        sys.exit("this takes away what stands below %s, and takes no words" % here)
    print(*remove(here), "deltawobble is gone from %s" % here, sep="\n")
