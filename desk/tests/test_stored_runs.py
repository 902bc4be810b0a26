"""The stored runs of the examples (examples/*.run), worked out by the second program.

A .run file has commands and what they say. test_run holds the command to the file; here the file is held to the second program, which
shares no code with the command: it reads the sheet's stored bytes (NAME.hex), and is given the trace's bits and the starts. Compared are,
tick after tick, the input bits and the output bits of a table or of waves; of a dump, the recorded outputs with what the second program
shows; of a period, that the starts come back after so many ticks and at no tick before.
"""
from __future__ import annotations

import re
import shlex
import shutil
import subprocess
import unittest
from typing import NamedTuple

from .support import EXAMPLES, ROOT

SECOND = ROOT / "second" / "target" / "release" / "second"


class Went(NamedTuple):
    """What the second program shows: the output pins' bits of each tick, and what the registers would show next."""

    rows: list[str]
    held: str


def second(*words: str, given: bytes) -> bytes:
    return subprocess.run([str(SECOND), *words], input=given, stdout=subprocess.PIPE, check=True).stdout


def went(name: str, starts: str, inputs: list[str], ticks: int) -> Went:
    sheet = second("hex", given=(EXAMPLES / (name + ".hex")).read_bytes())
    *rows, held = second("run", str(ticks), starts or "-", "".join(inputs) or "-", given=sheet).decode().splitlines()
    return Went(rows, held.split()[1])


def trace_rows(text: str) -> list[str]:
    """The bits of each tick: a line that is no comment and no line of names."""
    bits = (re.sub(r"[\s,]", "", line.split("#")[0]) for line in text.splitlines())
    return [row for row in bits if row and set(row) <= {"0", "1"}]


def table_rows(lines: list[str]) -> list[tuple[str, str]]:
    """The input bits and the output bits of each line of a table, whose ticks are counted from 0."""
    found = []
    for tick, line in enumerate(lines[1:]):
        before, after = line.split("|")
        number, *inputs = before.split()
        assert int(number) == tick, line
        found.append(("".join(inputs), "".join(after.split())))
    return found


def wave_rows(lines: list[str], outputs: int) -> list[tuple[str, str]]:
    """The same of waves: a line a pin, the output pins last."""
    waves = [line.split()[-1].replace("▔", "1").replace("▁", "0") for line in lines[1:]]
    columns = ["".join(column) for column in zip(*waves, strict=True)]
    return [(column[:-outputs], column[-outputs:]) for column in columns]


def sampled(text: str, clock: str, names: list[str]) -> list[dict[str, str]]:
    """What a dump's signals are directly before each rising edge of the clock."""
    head, body = text.split("$enddefinitions $end")
    codes = {code: (name, int(size)) for size, code, name in re.findall(r"\$var \w+ (\d+) (\S+) (\w+)", head)}
    now: dict[str, str] = {}
    found = []
    for word, code in re.findall(r"^(b[01]+ |[01])(\S+)$", body, re.M):
        name, size = codes[code]
        value = word.strip("b ").zfill(size)
        if name == clock and value == "1" and now[clock] == "0":
            found.append({known: now[known] for known in names})
        now[name] = value
    return found


@unittest.skipUnless(shutil.which("cargo"), "NOT RUN: there is no cargo to build the second program")
class StoredRuns(unittest.TestCase):
    @classmethod
    def setUpClass(cls):
        subprocess.run(["cargo", "build", "--release", "--offline", "--quiet"], cwd=ROOT / "second", check=True)

    def test_every_stored_run(self):
        tried = 0
        for path in sorted(EXAMPLES.glob("*.run")):
            for block in path.read_text().split("$ desk/deltawobble run ")[1:]:
                line, *said = block.rstrip("\n").split("\n")
                with self.subTest(line):
                    self.held(shlex.split(line), said)
                tried += 1
        self.assertGreaterEqual(tried, 8)

    def held(self, words: list[str], said: list[str]) -> None:
        """One stored command and what stands below it."""
        name = re.fullmatch(r"examples/([\w-]+)\.dw", words[0])[1]
        files = [word for word in words[1:] if word.startswith("examples/")]
        starts = words[words.index("--starts") + 1] if "--starts" in words else ""
        if "--clock" in words:
            self.dump(name, files[0], words[words.index("--clock") + 1], said)
        elif "--period" in words:
            self.period(name, starts, said)
        else:
            inputs = trace_rows((ROOT / files[0]).read_text()) if files else []
            ticks = len(inputs) if files else int(words[words.index("--ticks") + 1])
            shown = went(name, starts, inputs, ticks).rows
            rows = wave_rows(said, len(shown[0])) if "--waves" in words else table_rows(said)
            self.assertEqual(rows, list(zip(inputs or [""] * ticks, shown, strict=True)))

    def dump(self, name: str, file: str, clock: str, said: list[str]) -> None:
        """The example's input pins are x and y, its output pins out, bit 0 first; all registers start with 0."""
        ticks = sampled((ROOT / file).read_text(), clock, ["x", "y", "out"])
        shown = went(name, "00", [tick["x"] + tick["y"] for tick in ticks], len(ticks)).rows
        self.assertEqual([tick["out"][::-1] for tick in ticks], shown)
        pins = len(shown[0])
        self.assertEqual(said, ["alike: %d output pins at %d ticks, %d recorded bits, no difference" % (pins, len(ticks), pins * len(ticks))])

    def period(self, name: str, starts: str, said: list[str]) -> None:
        """The example's output pins show its registers, in their order."""
        ticks = int(re.match(r"period (\d+): ", said[0])[1])
        ran = went(name, starts, [], ticks)
        self.assertEqual([tick for tick, row in enumerate(ran.rows) if row == starts], [0])
        self.assertEqual(ran.held, starts)
        self.assertEqual(said, ["period %d: at tick %d all %d registers show their starts again, and not before" % (ticks, ticks, len(starts))])
