"""draw: pictures are made and well formed; without Graphviz the command says what is missing."""
from __future__ import annotations

import json
import shutil
import tempfile
import unittest
import xml.etree.ElementTree as ElementTree
from pathlib import Path
from unittest import mock

from deltawobble import shapes

from .support import EXAMPLES, ROOT, command

SVG = "{http://www.w3.org/2000/svg}"


class Drawing(unittest.TestCase):
    def setUp(self):
        self.made = tempfile.TemporaryDirectory()
        self.addCleanup(self.made.cleanup)

    def path(self, name: str) -> str:
        return str(Path(self.made.name) / name)

    def drawn(self, *words: str) -> ElementTree.Element:
        status, _, err = command("draw", *words, "-o", self.path("x.svg"))
        self.assertEqual(status, 0, err)
        return ElementTree.parse(self.path("x.svg")).getroot()

    def test_dot_and_svg_need_no_graphviz(self):
        with mock.patch("shutil.which", return_value=None):
            status, out, _ = command("draw", str(EXAMPLES / "full-adder.dw"))
            self.assertEqual(status, 0)
            self.assertTrue(out.startswith("digraph circuit {") and out.endswith("}\n"))
            self.assertEqual(command("draw", str(EXAMPLES / "P3.hex"), "-o", self.path("p3.dot"))[0], 0)
            self.assertEqual(command("draw", str(EXAMPLES / "P3.hex"), "-o", self.path("p3.svg"))[0], 0)
            for name in ("P3", "P8"):
                status, _, err = command("draw", str(EXAMPLES / (name + ".hex")), "-o", self.path("p3.png"))
                self.assertEqual(status, 2)
                self.assertIn("Debian package graphviz", err)
                self.assertIn(".dot", err)

    def test_wrong_use(self):
        sheet = str(EXAMPLES / "sticky.dw")
        trace = str(EXAMPLES / "sticky.trace")
        for words in (["-o", self.path("p3.jpg")], ["--full", "--lean"], ["--depth", "0"], ["--tick", "1"], ["--trace", trace], ["--starts", "1"],
                      ["--trace", trace, "--tick", "1"], ["--trace", trace, "--tick", "1", "--full", "-o", self.path("x.svg")],
                      ["--trace", trace, "--tick", "8", "-o", self.path("x.svg")], ["--trace", trace, "--tick", "-1", "-o", self.path("x.svg")]):
            self.assertEqual(command("draw", sheet, *words)[0], 2, words)

    def test_stored_pictures_are_what_make_draws(self):
        """docs/pictures/make says which; here two of them are drawn again."""
        for name in ("sticky", "bitonic-sorter-8"):
            self.drawn(str(EXAMPLES / (name + ".dw")))
            self.assertEqual(Path(self.path("x.svg")).read_text(), (ROOT / "docs" / "pictures" / (name + ".svg")).read_text(), name)

    def test_each_part_has_its_shape(self):
        for name, gates in (("full-adder", 5), ("comparator-divergence", 8), ("chain-open", 0), ("P7", 0)):
            for words in ([], ["--full"], ["--lean"]):
                root = self.drawn(*words, str(EXAMPLES / (name + ".dw")))
                drawn = [g for g in root.iter(SVG + "g") if (g.get("class") or "").startswith("gate ") and g.get("class").split()[1] in shapes.SHAPES]
                self.assertEqual(len(drawn), gates, name)
                self.assertEqual(list(root.iter(SVG + "image")), [])

    def test_lean_unless_asked_for_full(self):
        # three inputs and three names are functions of one bit each
        points = [sum(g.get("class") == "gate point" for g in self.drawn(str(EXAMPLES / "full-adder.dw"), *w).iter(SVG + "g")) for w in ([], ["--full"])]
        self.assertEqual(points, [0, 6])

    @unittest.skipUnless(shutil.which("dot"), "NOT RUN: Graphviz is not installed (Debian package graphviz)")
    def test_png(self):
        for name in ("sticky.dw", "bitonic-sorter-8.dw", "P8.hex"):
            self.assertIn(command("draw", str(EXAMPLES / name), "-o", self.path("x.png"))[0], (0, 1))
            self.assertEqual(Path(self.path("x.png")).read_bytes()[:8], b"\x89PNG\r\n\x1a\n")

    def test_a_refused_term_has_its_node_marked(self):
        status, out, err = command("draw", str(EXAMPLES / "P8.hex"))
        self.assertEqual(status, 1)
        self.assertRegex(out, r'n4 \[label="4  f" color=red')
        self.assertIn("refused 13", err)
        self.assertEqual(command("draw", str(EXAMPLES / "fault-cut.hex"))[:2], (1, ""))
        self.assertEqual(command("draw", str(EXAMPLES / "fault-terminals.hex"))[0], 1)

    def test_json_of_a_refused_drawing_has_number_and_place(self):
        for name, number, place in (("fault-cut", 3, 16), ("P8", 13, 4), ("fault-terminals", 16, 0)):
            for words in ([], ["-o", self.path("x.dot")]):
                status, out, _ = command("draw", "--json", str(EXAMPLES / (name + ".hex")), *words)
                said = json.loads(out)
                self.assertEqual((status, said["accepted"], said["number"], said["place"]), (1, False, number, place), name)
        status, out, _ = command("draw", "--json", "-", given=b"\x01")
        self.assertEqual((status, json.loads(out)["number"]), (1, 3))

    def test_json_of_a_drawing(self):
        name = str(EXAMPLES / "P3.hex")
        said = json.loads(command("draw", "--json", name)[1])
        self.assertEqual((said["accepted"], said["file"], said["output"], said["dot"]), (True, name, None, command("draw", name)[1]))
        said = json.loads(command("draw", "--json", name, "-o", self.path("x.dot"))[1])
        self.assertEqual((said["output"], said["bytes"]), (self.path("x.dot"), Path(self.path("x.dot")).stat().st_size))
