"""The notation's definitions in Python, and the call that the desk asks, give every known result that the definitions are proved to give, and the
answers of the second program."""
from __future__ import annotations

import ast
import re
import shutil
import subprocess
import sys
import unittest

from deltawobble.notation.call import Refusal, make

from .definitions import make_by_definition
from .support import ROOT

TEXT = r'"((?:[^"\\]|\\.)*)"'
MAKES = re.compile(r"makes " + TEXT + r"\s*\(([^)]*)\[\]\)")
REFUSES = re.compile(r"refuses " + TEXT + r" (\d+) (\d+)")
SAMPLES = "crates/notation_calculus/specs/Samples.antt"
LARGER = ("crates/notation_samples/specs/Limits.antt", "crates/notation_samples/specs/Examples.antt")


def written(quoted: str) -> bytes:
    """The bytes of a text as the definitions' files quote it."""
    return ast.literal_eval('"' + quoted + '"').encode()


def listed(bytes_shown: str) -> bytes:
    """0x01 ∷ 0x1A ∷ .."""
    return bytes(int(word, 16) for word in re.findall(r"0x[0-9A-F]{2}", bytes_shown))


def make_by_call(text: bytes) -> tuple:
    """The call's answer in the form of the definitions'."""
    try:
        return ("made", *make(text))
    except Refusal as refusal:
        return "refused", refusal.number, refusal.place


class KnownResults(unittest.TestCase):
    def made(self, name: str) -> int:
        rows = MAKES.findall((ROOT / name).read_text())
        for text, sheet in rows:
            answer = make_by_definition(written(text))
            self.assertEqual(answer[:2], ("made", listed(sheet)), text)
            self.assertEqual(make_by_call(written(text)), answer, text)
            self.assertTrue(all(place < len(written(text)) for place in answer[2]), text)
        return len(rows)

    def refused(self, name: str) -> int:
        rows = REFUSES.findall((ROOT / name).read_text())
        for text, number, place in rows:
            for asked in (make_by_definition, make_by_call):
                self.assertEqual(asked(written(text)), ("refused", int(number), int(place)), text)
        return len(rows)

    def test_short_texts(self) -> None:
        self.assertGreaterEqual(self.made(SAMPLES), 14)
        self.assertGreaterEqual(self.refused(SAMPLES), 29)

    def test_larger_texts(self) -> None:
        self.assertGreaterEqual(sum(map(self.made, LARGER)), 32)
        self.assertGreaterEqual(sum(map(self.refused, LARGER)), 3)


class OfTheTestsAlone(unittest.TestCase):
    def test_the_package_has_no_maker(self) -> None:
        for path in (ROOT / "desk" / "package").rglob("*.py"):
            self.assertNotIn("make_by_definition", path.read_text(), path)
            self.assertNotEqual(path.name, "definitions.py")


@unittest.skipUnless(shutil.which("cargo"), "NOT RUN: there is no cargo to build the second program")
class AgainstSecond(unittest.TestCase):
    def test_generated_texts(self) -> None:
        """bench/texts on fewer texts, by all three: number, place, sheet and places, and each answer occurs."""
        subprocess.run(["cargo", "build", "--release", "--offline", "--quiet"], cwd=ROOT / "second", check=True)
        done = subprocess.run([sys.executable, str(ROOT / "bench" / "texts.py"), "1500", "37"], stdout=subprocess.PIPE, text=True)
        self.assertEqual(done.returncode, 0, done.stdout)
        self.assertRegex(done.stdout, r"1500 of them generated, by second, the definitions and the call: 0 different\n$")


if __name__ == "__main__":
    unittest.main()
