"""Each command in README.md, docs/NOTATION.md and docs/DESK.md runs as printed, and prints what stands below it; README counts the lines to believe."""
from __future__ import annotations

import os
import re
import subprocess
import unittest
from pathlib import Path

from .support import ROOT


def transcripts(path: Path) -> list[tuple[str, str]]:
    """The commands of a page that begin with `$`, each with the indented lines below it."""
    found: list[tuple[str, list[str]]] = []
    inside = False
    for line in path.read_text().splitlines():
        if line.startswith("    $ "):
            found.append((line[6:], []))
            inside = True
        elif inside and line.startswith("    "):
            found[-1][1].append(line[4:])
        else:
            inside = False
    return [(command, "\n".join(lines).rstrip() + "\n") for command, lines in found]


class Pages(unittest.TestCase):
    def held(self, name: str, least: int) -> None:
        cases = transcripts(ROOT / name)
        self.assertGreaterEqual(len(cases), least)
        for command, wanted in cases:
            run = subprocess.run(["bash", "-c", command], cwd=ROOT, env=dict(os.environ, PYTHONIOENCODING="utf-8"), stdout=subprocess.PIPE, stderr=subprocess.STDOUT, text=True)
            self.assertEqual(run.stdout, wanted, command)

    def test_readme(self):
        self.held("README.md", 3)

    def test_notation(self):
        self.held("docs/NOTATION.md", 6)

    def test_desk(self):
        self.held("docs/DESK.md", 6)

    def test_the_notation_in_the_readme_is_the_example(self):
        text = (ROOT / "examples" / "sticky.dw").read_text()
        for page in ("README.md", "docs/NOTATION.md"):
            self.assertIn("".join("    " + line + "\n" for line in text.splitlines()), (ROOT / page).read_text())


class Lines(unittest.TestCase):
    def test_the_readme_has_the_lines_to_believe(self):
        """README's table has the numbers of docs/lines in their order, and the rows behind it: each within a tenth."""
        said = subprocess.run([str(ROOT / "docs" / "lines")], check=True, stdout=subprocess.PIPE, text=True).stdout
        wanted = [int(line.split()[0]) for line in said.splitlines()]
        page = (ROOT / "README.md").read_text()
        table, after = page[page.index("| lines, about |"):].split("Beside them stand some ", 1)
        found = re.findall(r"^\| ([\d,]+) \| ", table, re.M) + [after.split()[0]]
        self.assertEqual(len(found), len(wanted))
        for number, true in zip((int(word.replace(",", "")) for word in found), wanted):
            self.assertAlmostEqual(number, true, delta=true / 10)
