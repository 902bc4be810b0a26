#!/usr/bin/env python3
"""What was built, and what the gate has proved, as hashes that anyone can work out again.

    desk/record.py built LIBRARY     writes target/desk/built.json: commit, toolchain, and the hashes of sources, archive and library
    desk/record.py gate              writes desk/proved.json, where sources or toolchain are new: hashes, and the seconds by crate, the
                                     most that desk/proving.py has seen. The same sources with another archive: status 1

The archive depends on the sources and the toolchain alone, not on where it is built: that is why a hash can be compared. The shared
library is linked by the machine's own linker, and may differ where that is another one.
"""
from __future__ import annotations

import hashlib
import json
import subprocess
import sys
from pathlib import Path

from proving import PROVED, ROOT, TAKEN, closure, dependencies, longest, seconds_in

ARCHIVE = ROOT / "crates" / "deltawobble" / "out" / "libdeltawobble.a"
BUILT = ROOT / "target" / "desk" / "built.json"


def sha256(path: Path) -> str:
    return hashlib.sha256(path.read_bytes()).hexdigest()


def sources() -> str:
    """One hash over the proved sources: of each crate below `deltawobble` its name, what it names, and its files."""
    whole, crates = hashlib.sha256(), dependencies()
    for name in sorted(closure("deltawobble", crates)):
        whole.update(("%s: %s\n" % (name, " ".join(crates[name]))).encode())
        for folder in ("src", "specs", "proofs"):
            for path in sorted((ROOT / "crates" / name / folder).rglob("*")):
                if path.is_file():
                    whole.update(("%s %s\n" % (path.relative_to(ROOT).as_posix(), sha256(path))).encode())
    return whole.hexdigest()


def said(*words: str) -> str:
    """What a command prints, or nothing where it cannot be run."""
    try:
        return subprocess.run(words, cwd=ROOT, capture_output=True, text=True).stdout.strip()
    except OSError:
        return ""


def commit() -> str:
    """The commit, and a word where the sources are not its own."""
    changed = said("git", "status", "--porcelain", "--", "crates", "crates.txt")
    return (said("git", "rev-parse", "HEAD") or "unknown") + (", changed" if changed else "")


def now() -> dict:
    return {"toolchain": said("rt", "version"), "sources": sources(), "archive": sha256(ARCHIVE)}


def built(library: Path) -> int:
    """Where what is stored is of this very build, it stays: hashing takes a moment, and desk/build is asked often."""
    record = dict(commit=commit(), **now(), library=sha256(library))
    if PROVED.exists():
        record["gate"] = json.loads(PROVED.read_text())
        record["gate"].pop("seconds", None)
    BUILT.write_text(json.dumps(record, indent=1) + "\n")
    return 0


def gate() -> int:
    record = dict(now(), library=sha256(ROOT / "target" / "desk" / "libdeltawobble.so")) if (
        ROOT / "target" / "desk" / "libdeltawobble.so").exists() else now()
    stored = json.loads(PROVED.read_text()) if PROVED.exists() else {}
    if all(stored.get(key) == record[key] for key in ("toolchain", "sources")):
        if stored["archive"] != record["archive"]:
            print("the same sources and toolchain gave another archive: %s, and desk/proved.json has %s" % (record["archive"], stored["archive"]))
            return 1
        print("the archive is the one that desk/proved.json names: %s" % record["archive"])
        return 0
    record["seconds"] = longest(stored.get("seconds", {}), seconds_in(TAKEN))
    PROVED.write_text(json.dumps(record, indent=1) + "\n")
    print("desk/proved.json is new, and goes with the commit: archive %s" % record["archive"])
    return 0


if __name__ == "__main__":
    if len(sys.argv) == 3 and sys.argv[1] == "built":
        sys.exit(built(Path(sys.argv[2])))
    if sys.argv[1:] == ["gate"]:
        sys.exit(gate())
    sys.exit(__doc__)
