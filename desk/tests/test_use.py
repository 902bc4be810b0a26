"""`use "FILE"` at the head of a text: files are joined, each once, and what is said stands in the file that it is about."""
from __future__ import annotations

import json
import os
import tempfile
import unittest
from pathlib import Path

from deltawobble import NotationError, make, translate
from deltawobble.files import read

from .support import command

HALF = "edition 2\nhalf = fun a b : 1. (xor (a, b), and (a, b))\n"
FULL = 'edition 2\nuse "half.dw"\nfull = fun a b c : 1.\n  let (s, k) = half a b in let (t, l) = half s c in (t, or (k, l))\n'
MAIN = '-- three bits\nuse "lib/full.dw"\nedition 2\nuse "lib/half.dw"\nmain = fun x y z : 1. let (s, k) = full x y z in half s (reg k)\n'


class Used(unittest.TestCase):
    def setUp(self):
        folder = tempfile.TemporaryDirectory()
        self.addCleanup(folder.cleanup)
        self.addCleanup(os.chdir, os.getcwd())
        os.chdir(folder.name)
        os.mkdir("lib")
        for name, text in (("lib/half.dw", HALF), ("lib/full.dw", FULL), ("main.dw", MAIN)):
            Path(name).write_text(text)

    def fault(self, text: str, name: str = "main.dw") -> list[str]:
        Path(name).write_text(text)
        status, out, err = command("make", name)
        self.assertEqual((status, out), (2, ""))
        return err.splitlines()

    def test_files_are_joined_each_once(self):
        alone = HALF + FULL.split("\n", 2)[2] + MAIN.splitlines()[-1]
        self.assertEqual(read("main.dw").bytes, make(alone).sheet)
        self.assertEqual(make(Path("main.dw")).sheet, make(alone).sheet)
        self.assertEqual([file.name for file in read("main.dw").made.text.files], ["lib/half.dw", "lib/full.dw", "main.dw"])

    def test_relative_to_the_using_file(self):
        os.chdir("lib")
        self.assertEqual(read("../main.dw").bytes, read(os.path.join(os.pardir, "main.dw")).bytes)
        Path("top.dw").write_text(FULL + "main = full one one one\n")
        self.assertEqual([file.name for file in read("top.dw").made.text.files], ["half.dw", "top.dw"])
        self.assertEqual([file.name for file in read(os.path.abspath("top.dw")).made.text.files], [os.path.abspath("half.dw"), os.path.abspath("top.dw")])

    def test_standard_input_and_texts_use_files_from_here(self):
        wanted = read("main.dw").bytes
        self.assertEqual(make(MAIN).sheet, wanted)
        self.assertEqual(json.loads(command("make", "--json", "-", given=MAIN.encode())[1])["sheet"], wanted.hex())

    def test_faults_stand_in_their_file(self):
        Path("lib/half.dw").write_text("edition 2\n\nhalf = fun a b : 1. (xor (a, b), nad (a, b))\n")
        self.assertEqual(self.fault(MAIN), ["lib/half.dw:3:34: nad is not defined", "   3 | half = fun a b : 1. (xor (a, b), nad (a, b))",
                                            "     |                                  ^^^ did you mean and?"])
        status, out, _ = command("make", "--json", "main.dw")
        said = json.loads(out)
        self.assertEqual((status, said["file"], said["line"], said["column"], said["refusal"]["number"]), (2, "lib/half.dw", 3, 34, 33))

    def test_refusals_of_the_sheet_stand_in_their_file(self):
        Path("lib/half.dw").write_text("edition 2\nhalf = fun a b : 1. (xor a b, and (a, b))\n")
        status, _, err = command("translate", "main.dw")
        self.assertEqual(status, 1)
        lines = err.splitlines()
        self.assertEqual(lines[0].split(" ")[0], "lib/half.dw:2:22:")
        self.assertEqual(lines[-1], "     | put in at lib/full.dw:4:16, itself put in at main.dw:5:36")

    def test_registers_where_and_report(self):
        Path("lib/half.dw").write_text("edition 2\nhalf = fun a b : 1. (reg (xor (a, b)), and (a, b))\n")
        rows = json.loads(command("registers", "--json", "main.dw")[1])["registers"]
        self.assertEqual({(row["file"], row["line"], row["column"]) for row in rows}, {("lib/half.dw", 2, 22), ("main.dw", 5, 58)})
        self.assertIn("lib/half.dw:2:22", command("registers", "main.dw")[1])
        self.assertEqual(command("report", "main.dw", "-o", "page.html")[0], 0)
        page = Path("page.html").read_text()
        self.assertIn('["-- lib/full.dw"]', page)
        self.assertEqual(command("draw", "main.dw", "--depth", "1", "-o", "main.svg")[0], 0)
        self.assertIn('data-name="full"', Path("main.svg").read_text())

    def test_missing(self):
        self.assertEqual(self.fault('use "halves.dw"\nmain = zero\n'), ["main.dw:1:1: halves.dw: No such file or directory", '   1 | use "halves.dw"', "     | " + "^" * 15])
        self.assertIn("Is a directory", self.fault('use "lib"\nmain = zero\n')[0])
        self.assertIn("is no text", self.fault('use "odd.dw"\nmain = zero\n' if Path("odd.dw").write_bytes(b"\0") else "")[0])
        self.assertEqual(self.fault('use "-"\nmain = zero\n')[0], "main.dw:1:1: -: No such file or directory")

    def test_circles(self):
        Path("lib/half.dw").write_text('edition 2\nuse "full.dw"\n' + HALF[10:])
        self.assertEqual(self.fault(MAIN)[0], "lib/half.dw:2:1: full.dw uses itself, through the files between")
        self.assertEqual(self.fault('-- me\nuse "main.dw"\nmain = zero\n')[0], "main.dw:2:1: main.dw uses itself")
        os.symlink("main.dw", "other.dw")
        self.assertEqual(self.fault('use "other.dw"\nmain = zero\n')[0], "main.dw:1:1: other.dw uses itself")

    def test_too_deep_and_too_long(self):
        for k in range(80):
            Path("f%d.dw" % k).write_text('use "f%d.dw"\n' % (k + 1) if k < 79 else "a = one\n")
        self.assertIn("more than 64 files use one another", self.fault('use "f0.dw"\nmain = a\n')[0])
        Path("long.dw").write_text("-- " + "x" * 65000 + "\n")
        self.assertIn("with the files that it uses", self.fault('use "long.dw"\nmain = zero\n' + "-- " + "x" * 1000)[0])

    def test_not_at_the_head(self):
        self.assertEqual(self.fault('main = zero\nuse "lib/half.dw"\n')[:2], ['main.dw:2:5: use "FILE" stands at the head of a text, before all definitions', '   2 | use "lib/half.dw"'])

    def test_a_definition_may_be_called_use(self):
        self.assertEqual(make("use = fun x : 1. x\nmain = use one").sheet, make("d = fun x : 1. x\nmain = d one").sheet)

    def test_editions_have_to_agree(self):
        self.assertEqual(self.fault('use "lib/half.dw"\nmain = half\n')[0], "main.dw:1:1: lib/half.dw is written in edition 2, and this text in edition 1")
        self.assertEqual(self.fault('edition 3\nuse "three.dw"\nmain = zero\n' if Path("three.dw").write_text("edition 3\n") else "")[0], "main.dw:1:9: there are editions 1 and 2")

    def test_a_name_of_two_files(self):
        lines = self.fault('edition 2\nuse "lib/half.dw"\nhalf = one\nmain = half\n')
        self.assertEqual((lines[0], lines[2].split("^ ")[1]), ("main.dw:3:1: half is defined twice", "first at lib/half.dw:2:1"))

    def test_lines_of_windows_and_comments(self):
        Path("lib/half.dw").write_bytes(HALF.replace("\n", "\r\n").encode())
        Path("main.dw").write_bytes(MAIN.replace("\n", " -- so\r\n").encode())
        self.assertEqual(translate("main.dw"), translate(make(MAIN)))


if __name__ == "__main__":
    unittest.main()
