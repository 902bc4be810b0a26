#!/usr/bin/env python3
"""Proves a crate and what it stands on, and says where it is: 'crate 17 of 35, wiring, about 4 min left'.

    desk/proving.py deltawobble      proves the library's crates, then writes the archive (rt lib)
    desk/proving.py listing          proves and builds a program (rt run, on the crate's own stdin)

rt takes the crates one after the other, each behind those that it needs, and a crate that has not changed costs nothing. It says of each
that it has to prove with how many jobs it does so: by these lines the crate at work is known. Seconds by crate are those of
desk/proved.json, or of target/desk/seconds.json where more was taken here: what is proved over the work of an earlier check takes less.
"""
from __future__ import annotations

import json
import re
import subprocess
import sys
import time
from pathlib import Path

ROOT = Path(__file__).resolve().parents[1]
PROVED = ROOT / "desk" / "proved.json"
TAKEN = ROOT / "target" / "desk" / "seconds.json"
#: a line is due after so many seconds at the most
EVERY = 10
#: seconds of a crate that no file knows of yet
UNKNOWN = 15
#: stored seconds that count as taken before anything was proved here: the first small crates say little of this machine
BEFORE = 30


def dependencies() -> dict[str, list[str]]:
    """The crates of crates.txt, each with those that it names, the kit's own left out."""
    found: dict[str, list[str]] = {}
    for line in (ROOT / "crates.txt").read_text().splitlines():
        # behind the name may stand what kind of crate it is
        said, colon, others = line.split("#")[0].partition(":")
        if colon:
            found[said.split()[0]] = others.split()
    return {name: [d for d in others if d in found] for name, others in found.items()}


def closure(name: str, crates: dict[str, list[str]]) -> list[str]:
    """What a crate stands on, and itself last."""
    found: dict[str, None] = {}

    def visit(crate: str) -> None:
        for d in crates[crate]:
            visit(d)
        found[crate] = None

    visit(name)
    return list(found)


def seconds_in(path: Path) -> dict[str, float]:
    try:
        read = json.loads(path.read_text())
        return read.get("seconds", {}) if path == PROVED else read
    except (OSError, ValueError, AttributeError):
        return {}


def longest(*tables: dict[str, float]) -> dict[str, float]:
    """By crate the most that any of these tables has."""
    return {name: max(table[name] for table in tables if name in table) for name in dict.fromkeys(n for table in tables for n in table)}


class Watch:
    """What is proved, what is being proved, and how long the rest may take, by what rt has said so far."""

    def __init__(self, plan: list[str], seconds: dict[str, float]):
        self.plan, self.seconds = plan, seconds
        #: the crate at work, by its place in the plan, since when, and how many of rt's words have been looked at
        self.at, self.since, self.heard = -1, time.monotonic(), 0
        #: seconds taken, by crate
        self.took: dict[str, float] = {}

    def busy(self) -> bool:
        """Whether something is being proved."""
        return 0 <= self.at < len(self.plan)

    def expects(self, name: str) -> float:
        return self.seconds.get(name, UNKNOWN)

    def look(self, said: str, ended: bool = False) -> None:
        """Reads what rt has said: a crate has ended where the next one begins."""
        begun = [name for name in re.findall(r"^rt: chose --jobs \d+ for (\w+)$", said, re.M) if name in self.plan]
        for name in begun[self.heard:]:
            self.leave(self.plan.index(name))
        self.heard = len(begun)
        if ended:
            self.leave(len(self.plan))

    def leave(self, to: int) -> None:
        now = time.monotonic()
        if self.busy():
            self.took[self.plan[self.at]] = self.took.get(self.plan[self.at], 0) + now - self.since
        self.at, self.since = to, now

    def left(self) -> float:
        """Stored seconds of what is to come, stretched as what has been proved here was."""
        rest = [self.expects(name) for name in self.plan[max(self.at, 0):]]
        if not rest:
            return 0.0
        done = [name for name in self.took if name != self.plan[max(self.at, 0)]]
        stretch = (sum(self.took[name] for name in done) + BEFORE) / (sum(map(self.expects, done)) + BEFORE)
        return max(rest[0] * stretch - (time.monotonic() - self.since), 1) + sum(rest[1:]) * stretch

    def line(self) -> str:
        at = min(max(self.at, 0), len(self.plan) - 1)
        return "crate %d of %d, %s, about %s left" % (at + 1, len(self.plan), self.plan[at], about(self.left()))


def about(seconds: float) -> str:
    return "%d min" % round(seconds / 60) if seconds >= 90 else "%d s" % max(round(seconds), 1)


class Teller:
    """On a terminal one line that is written over; elsewhere a line for each step, and every ten seconds at the least."""

    def __init__(self) -> None:
        self.over, self.said, self.when = sys.stderr.isatty(), "", 0.0

    def say(self, line: str) -> None:
        now = time.monotonic()
        step = line.split(", about")[0] != self.said.split(", about")[0]
        if self.over:
            print("\r\033[K" + line, end="", file=sys.stderr, flush=True)
        elif step or now - self.when >= EVERY:
            print(line, file=sys.stderr, flush=True)
        else:
            return
        self.said, self.when = line, now

    def close(self) -> None:
        if self.over:
            print("\r\033[K", end="", file=sys.stderr, flush=True)


def watched(name: str, program: bool, watch: Watch, teller: Teller, said: Path) -> int:
    """Runs rt in the crate's folder; what it prints goes to a file, and its end is shown where it fails."""
    folder = ROOT / "crates" / name
    given = folder / "stdin" if program and (folder / "stdin").exists() else Path("/dev/null")
    said.parent.mkdir(parents=True, exist_ok=True)
    heard = said.with_suffix(".heard")
    # what a program writes is nobody's; rt's own words then come on standard error
    with open(said, "w") as file, open(given) as stdin, open(heard, "w") as out, subprocess.Popen(
            ["rt", "run" if program else "lib"], cwd=folder, stdin=stdin, stdout=out if program else file, stderr=file if program else subprocess.STDOUT) as run:
        try:
            while True:
                watch.look(said.read_text(errors="replace"))
                if watch.busy():
                    teller.say(watch.line())
                try:
                    run.wait(0.5)
                    break
                except subprocess.TimeoutExpired:
                    pass
        except KeyboardInterrupt:
            run.wait()
            raise
    heard.unlink()
    watch.look(said.read_text(errors="replace"), run.returncode == 0)
    if run.returncode:
        teller.close()
        print("\n".join(said.read_text(errors="replace").splitlines()[-40:]), file=sys.stderr)
        print("the proofs did not go through; all that rt said is in %s" % said.relative_to(ROOT), file=sys.stderr)
    return run.returncode


def main(name: str) -> int:
    crates = dependencies()
    if name not in crates:
        print("crates.txt has no crate %s" % name, file=sys.stderr)
        return 2
    program = (ROOT / "crates" / name / "src" / "main.rt").exists()
    stored = longest(seconds_in(PROVED), seconds_in(TAKEN))
    watch, teller = Watch(closure(name, crates), stored), Teller()
    status = watched(name, program, watch, teller, ROOT / "target" / (name + ".said"))
    teller.close()
    TAKEN.parent.mkdir(parents=True, exist_ok=True)
    TAKEN.write_text(json.dumps(longest(seconds_in(TAKEN), {crate: round(took) for crate, took in watch.took.items()}), indent=1) + "\n")
    return status


if __name__ == "__main__":
    if len(sys.argv) != 2:
        sys.exit(__doc__)
    try:
        sys.exit(main(sys.argv[1]))
    except KeyboardInterrupt:
        print("\nstopped; what was proved stays proved", file=sys.stderr)
        sys.exit(130)
