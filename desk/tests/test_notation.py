"""The notation: show then make gives the same bytes; errors and refusals stand at their line and column."""
from __future__ import annotations

import json
import random
import tempfile
import unittest
from pathlib import Path

import deltawobble
from deltawobble import NotationError, Refused, make, show

from . import generate
from .support import EXAMPLES, command, examples

STICKY = """-- two streams, and a bit that stays once they have differed
edition 2
type state = 1 * 1
sticky = fun set : 1. fix s : 1. or (set, reg s)
main = fun x : 1. fun y : 1. sticky (xor (x, y))
"""


def written(text: str) -> str:
    return make(text).sheet.hex(" ").upper()


class RoundTrip(unittest.TestCase):
    def test_two_thousand_generated_sheets_of_both_editions(self):
        for seed in range(2000):
            sheet = generate.sheet(seed)
            self.assertEqual(make(show(sheet)).sheet, sheet, seed)

    def test_examples(self):
        for name, sheet, listing in examples():
            if listing.startswith("full"):
                self.assertEqual(make(show(sheet)).sheet, sheet, name)

    def test_large_sheets(self):
        from .fault_reports import edges
        for name in ("depth-64", "nodes-2048", "names-63", "terminals-8192", "wide-enough"):
            self.assertEqual(make(show(edges()[name])).sheet, edges()[name], name)

    def wide(self, record: str, around: int) -> bytes:
        """A type of 126 bits, each record a side of the next, in so many terms in one another."""
        types = "01" + "".join(record % k for k in range(125)) + " 03 7D 00 03 00 00"
        sheet = bytes.fromhex(types + " 14 1A 05 7F" * around + " 14 13 7E 1A 06 00 19 7D 11 00")
        deltawobble.translate(sheet)
        return sheet

    def test_wide_types_in_deep_terms(self):
        """A text has 80 levels, a sheet's term 64: a row of bits is written by doubling."""
        for around in (0, 20, 60):
            sheet = self.wide(" 02 00 %02X", around)
            self.assertEqual(make(show(sheet)).sheet, sheet, around)

    def test_a_sheet_whose_text_would_pass_a_limit(self):
        """((1 * 1) * 1) * .. is no row: in 60 terms in one another its text passes the 80 levels, and that is said."""
        self.assertEqual(make(show(self.wide(" 02 %02X 00", 0))).sheet, self.wide(" 02 %02X 00", 0))
        with self.assertRaises(deltawobble.WrongUse) as caught:
            show(self.wide(" 02 %02X 00", 60))
        self.assertIn("would pass a limit of the notation", str(caught.exception))

    def test_table_in_another_order_and_with_types_that_nobody_needs(self):
        sheet = bytes.fromhex("01 02 00 00 03 00 00 04 02 01 13 02 11 00")
        self.assertIn("table 1, 1 * 1, 1 -> 1, (1 -> 1) -o 1 * 1", show(sheet))
        self.assertEqual(make(show(sheet)).sheet, sheet)

    def test_what_is_refused_has_no_text(self):
        with self.assertRaises(Refused):
            show(bytes.fromhex("01 14 1A 00 00 1A 00 00"))


class Making(unittest.TestCase):
    def test_by_hand(self):
        self.assertEqual(written("main = zero"), "01 1A 00 00")
        self.assertEqual(written("main = fun x : 1. x"), "01 03 00 00 13 01 11 00")
        self.assertEqual(written("main = (fun f : 1 -> 1. f zero) reg"), "01 03 00 00 04 01 00 16 15 02 14 12 00 1A 00 00 1A 01 01")
        self.assertEqual(written("main = fix x : 1. and zero (reg x)"), "01 03 00 00 03 00 01 19 00 14 14 1A 02 02 1A 00 00 14 1A 01 01 11 00")
        self.assertEqual(written("main = fix p : 1 * 1. let (x, y) = p in (y, x)"), "01 02 00 00 19 01 18 11 00 17 01 11 00 11 01")

    def test_let_is_a_function_in_the_first_edition_and_1B_in_the_second(self):
        self.assertEqual(written("main = let x = zero in x"), "01 03 00 00 14 13 01 11 00 1A 00 00")
        self.assertEqual(written("edition 2 main = let x = zero in x"), "31 01 1B 1A 00 00 11 00")
        self.assertEqual(written("edition 2 main = let f = reg in f zero"), "31 01 03 00 00 04 01 00 16 15 02 14 12 00 1A 00 00 1A 01 01")

    def test_short_forms(self):
        self.assertEqual(written("main = fun x y : 1. (x, y, x)"), written("main = fun x : 1. fun y : 1. (x, (y, x))"))
        self.assertEqual(written("main = fun p : 1 * 1 * 1. let (x, y, z) = p in z"),
                         written("main = fun p : 1 * (1 * 1). let (x, r) = p in let (y, z) = r in z"))
        self.assertEqual(written("main = fun f : (1 → 1) ⊸ 1 × 1. f inv"), written("main = fun f : (1 -> 1) -o (1 * 1). f inv"))

    def test_definitions_are_put_in(self):
        self.assertEqual(written("a = fun x : 1. inv (inv x)\nmain = a (a one)"), written("main = (fun x : 1. inv (inv x)) ((fun y : 1. inv (inv y)) one)"))
        self.assertEqual(written("x = one\nmain = fun y : 1. and x y"), written("main = fun y : 1. and one y"))

    def test_a_definition_is_not_caught_by_a_variable(self):
        self.assertEqual(written("d = fun x : 1. x\nmain = fun x : 1. d x"), written("main = fun y : 1. (fun x : 1. x) y"))

    def test_a_pair_is_taken_apart_where_it_is_bound(self):
        self.assertEqual(written("main = fun (a, b, c) : 1^3. (c, a)"), written("main = fun p : 1^3. let (a, b, c) = p in (c, a)"))

    def test_lists_in_lists(self):
        for short, long in [
                ("let ((a, b), c) = v in (c, b)", "let (p, c) = v in let (a, b) = p in (c, b)"),
                ("let (a, (b, c)) = v in (c, a)", "let (a, p) = v in let (b, c) = p in (c, a)"),
                ("let ((a, (b, c)), (d, e)) = v in (e, b, a)", "let (p, r) = v in let (a, q) = p in let (b, c) = q in let (d, e) = r in (e, b, a)"),
                ("let ((a, b), a) = v in a", "let (p, c) = v in let (a, b) = p in a"), ("let ((_, x), (_, _)) = v in x", "let (p, q) = v in let (a, x) = p in let (b, c) = q in x"),
                ("fun ((a, b), c) : 1 * 1. a", "fun w : 1 * 1. let (p, c) = w in let (a, b) = p in a")]:
            self.assertEqual(written("main = fun v : (1 * 1^2) * 1^2. " + short), written("main = fun v : (1 * 1^2) * 1^2. " + long), short)

    def test_names_of_what_lists_bind(self):
        """A list's variable has no name in the text; `show` takes the text's own where they mean what they did."""
        made = make("main = fun ((a, b), (c, (d, e)), f) : 1^2 * 1^3 * 1. f")
        self.assertEqual([origin.binds for origin in made.origins if origin.binds], [["whole"], ["a_b", "rest"], ["c_d_e", "f"], ["a", "b"], ["c", "d_e"], ["d", "e"]])
        twice = make("d{0} = fun (a, b) : 1 * 1. (b, a)\nd{n + 1} = fun ((a, b), c) : (1 * 1) * 1. d{n} (c, a)\nmain = d{1}")
        self.assertEqual([[put.node for put in origin.through] for origin in twice.origins][:6], [[0]] * 6)
        self.assertEqual(max(len(origin.through) for origin in twice.origins), 2)
        inside = make("d = fun x : 1. x\nmain = fun (y, (z, u)) : 1^3. d")
        self.assertEqual([[inside.words.all[at].start for at in put.at] for origin in inside.origins for put in origin.through], [[47]] * 2)

    def test_bits_in_a_row(self):
        self.assertEqual(written("main = fun x : 1^3. x"), written("main = fun x : 1 * 1 * 1. x"))
        self.assertEqual(written("type bus{n} = 1^n + 1\nmain = fun x : bus{1} * 1 ^ 1. x"), written("main = fun x : (1 * 1) * 1. x"))

    def test_tokens(self):
        self.assertEqual(written("main=fun x:1.x--end"), written("main = fun x : 1. x"))
        self.assertEqual(written("main = fun x' : 1.\r\n x'\r\n"), written("main = fun x : 1. x"))
        self.assertEqual(make(STICKY).sheet, make(STICKY.replace("\n", "\r\n")).sheet)


class Errors(unittest.TestCase):
    def place(self, text: str) -> tuple[int, int, str]:
        with self.assertRaises(NotationError) as caught:
            make(text, "mine.dw")
        said = caught.exception
        self.assertTrue(str(said).startswith("mine.dw:%d:%d: " % (said.span.line, said.span.column)))
        return said.span.line, said.span.column, said.what

    def test_line_and_column(self):
        for text, line, column, words in [
                ("", 1, 1, "no definition of main"), ("main", 1, 5, "'=' is due"), ("main = ", 1, 8, "a term is due"),
                ("main = (zero", 1, 13, "')' is due"), ("main = fun x. x", 1, 13, "':' is due"), ("main = fun x : 1 x", 1, 18, "'.' is due"),
                ("main = y", 1, 8, "y is not defined"), ("main = fun x : t. x", 1, 16, "no type t"), ("main = zero\nmain = one", 2, 1, "defined twice"),
                ("main = a\na = zero", 1, 8, "above"), ("a = a\nmain = a", 1, 5, "above"), ("main = zero ?", 1, 13, "'?'"), ("main = zé", 1, 9, "\\xe9"),
                ("main = fun and : 1. zero", 1, 12, "is a part"), ("main = let (x) = zero in x", 1, 14, "one name"),
                ("main = reg fun x : 1. x", 1, 12, "parentheses"), ("edition 3\nmain = zero", 1, 9, "editions"), ("main = 1", 1, 8, "a term is due"),
                ("main = zero\nedition 2", 2, 1, "before all else"), ("type t = 1\ntype t = 1\nmain = zero", 2, 6, "twice"),
                ("main = fix x : . x", 1, 16, "a type is due"), ("main = let x = zero", 1, 20, "'in' is due")]:
            found = self.place(text)
            self.assertEqual(found[:2], (line, column), text)
            self.assertIn(words, found[2], text)

    def test_the_line_is_shown_with_the_word_marked(self):
        with self.assertRaises(NotationError) as caught:
            make("main = fun first : 1.\n  inv frist", "mine.dw")
        self.assertEqual(str(caught.exception), "mine.dw:2:7: frist is not defined\n   2 |   inv frist\n     |       ^^^^^ did you mean first?")

    def test_cut_anywhere_and_any_character(self):
        rng = random.Random(3)
        texts = [STICKY[:n] for n in range(len(STICKY))]
        signs = "()*=.,:- \n\t'\"#\\0129ao\u00e9\u03bb\u2192\U0001F600\x7f"
        for _ in range(1500):
            at = rng.randrange(len(STICKY))
            texts.append(STICKY[:at] + rng.choice(signs) + STICKY[at + rng.randrange(2):])
        for text in texts:
            try:
                make(text)
            except NotationError:
                pass

    def test_too_much_ends(self):
        double = "a0 = inv one\n" + "".join("a%d = and a%d a%d\n" % (n, n - 1, n - 1) for n in range(1, 40))
        self.assertIn("nodes", self.place(double + "main = a39")[2])
        self.assertIn("in one another", self.place("main = " + "(" * 5000)[2])
        self.assertIn("deep", self.place("main = " + "zero " * 3000)[2])
        types = "type t0 = 1\n" + "".join("type t%d = t%d * t%d\n" % (n, n - 1, n - 1) for n in range(1, 60))
        self.assertIn("single bits", self.place(types + "main = zero")[2])


    def test_each_number_with_its_place(self):
        """30 to 36: what the call says to a text, worked out by hand from docs/NOTATION.md, and where the desk shows it."""
        too_wide = "type t0 = 1\n" + "".join("type t%d = t%d * t%d\n" % (n, n - 1, n - 1) for n in range(1, 9))
        for text, number, place, line, column, words in [
                ("main = zero $", 31, 12, 1, 13, "'$'"), ("main = 1x", 31, 7, 1, 8, "no number"), ("-- \u03bb\nmain = \u00e9", 31, 13, 2, 8, "\\xe9"),
                ("main = (zero", 32, 12, 1, 13, "the '(' at 1:8 is open"), ("main = let (x, y = zero in x", 32, 17, 1, 18, "the '(' at 1:12 is open"),
                ("main = f[1", 32, 10, 1, 11, "the '[' at 1:9 is open"), ("f{n +} = one main = f{1}", 32, 5, 1, 6, "a number is due"),
                ("main = fun (a) : 1. a", 32, 13, 1, 14, "fun (x, y) : .. takes a pair apart, and here is one name"), ("main = fun () : 1. zero", 32, 12, 1, 13, "a name or a list is due"),
                ("main = fun ((a), b) : 1. a", 32, 14, 1, 15, "a list in a list takes a pair apart, and here is one name"),
                ("main = let ((a, b)) = zero in a", 32, 18, 1, 19, "let (x, y) = .. takes a pair apart, and here is one list"),
                ("main = fun (a, (b, one)) : 1. a", 32, 19, 1, 20, "one is a part"), ("main = fun (a, (b,)) : 1. a", 32, 18, 1, 19, "a name or a list is due"),
                ("main = fun ((a, b) c) : 1. a", 32, 19, 1, 20, "',' or ')' is due"), ("main = let (x, (y, z) = zero in x", 32, 22, 1, 23, "the '(' at 1:12 is open"),
                ("main = let ((first, a), b) = zero in frist", 33, 37, 1, 38, "did you mean first?"),
                ("main = " + "(" * 40 + "let " + "(" * 40 + "x, y)" + ", z)" * 39 + " = zero in x" + ")" * 40, 34, 90, 1, 91, "80 terms"),
                ("main = " + "(" * 40 + "let (" + "(x, y), " * 39 + "z) = zero in x" + ")" * 40, 34, 356, 1, 357, "each list"),
                ("main = fun (a, b) c : 1. a", 32, 18, 1, 19, "':' is due"), ("main = fun (a, reg) : 1. a", 32, 15, 1, 16, "reg is a part"),
                ("main = fun x : 1^. x", 32, 17, 1, 18, "a number or the name of one is due"), ("f{n} = fun x : 1^n +. x main = f{1}", 32, 20, 1, 21, "a number is due"),
                ("main = fun x : 1^0. x", 33, 17, 1, 18, "zero bits"), ("f{n} = fun x : 1^n. x\nmain = f{0}", 33, 17, 1, 18, "zero bits"),
                ("main = fun x : 1^n. x", 33, 17, 1, 18, "no number is called n"), ("table 1^129\nmain = zero", 34, 7, 1, 8, "single bits"),
                ("f{n} = fun x : 1^n + 255. x\nmain = f{1}", 34, 17, 1, 18, "this sum"),
                ("main = fun first : 1. frist", 33, 22, 1, 23, "did you mean first?"), ("type row{0} = 1\nmain = fun x : rwo{0}. x", 33, 31, 2, 16, "did you mean row?"),
                ("f{0} = one\nmain = f{1}", 33, 18, 2, 8, "no clause of f above fits"), ("f{0} = one\nmain = f", 33, 18, 2, 8, "here are none"),
                ("f = one\nmain = f{0}", 33, 15, 2, 8, "f has no parameters"), ("f{n} = f{m}\nmain = f{1}", 33, 9, 1, 10, "no number is called m"),
                ("a = one", 33, 7, 1, 8, "no definition of main"), ("type t = 1", 33, 10, 1, 11, "no definition of main"),
                ("main = zero\nf = fun x : 1. y", 33, 27, 2, 16, "y is not defined"),
                ("f{n} = one\nmain = f{256}", 34, 20, 2, 10, "at most 255"), ("f{n} = f{n + 255}\nmain = f{1}", 34, 9, 1, 10, "this sum"),
                (too_wide + "main = zero", 34, too_wide.index("t7 * t7") + 3, 9, 14, "single bits"),
                ("main = " + "inv (" * 64 + "one" + ")" * 64, 34, 7, 1, 8, "64 deep"), ("main = " + "(" * 80 + "one" + ")" * 80, 34, 87, 1, 88, "80 terms"),
                ("main = fun x : 1 -o 1. x one", 35, 17, 1, 18, "no circuit"), ("main = fun x : (1 -> 1) * 1. one", 35, 24, 1, 25, "a pair holds"),
                ("main = fun f : (1 -> 1) -> 1. f reg", 35, 24, 1, 25, "-o takes one"),
                ("a = one\na = zero\nmain = a", 36, 8, 2, 1, "first at 1:1"), ("f{n} = one\nf{3} = zero\nmain = f{3}", 36, 11, 2, 1, "for these numbers"),
                ("f{n} = one\nf = zero\nmain = f", 36, 11, 2, 1, "other parameters")]:
            with self.assertRaises(NotationError, msg=text) as caught:
                make(text, "mine.dw")
            said = caught.exception
            self.assertEqual((said.number, said.place, said.span.line, said.span.column), (number, place, line, column), text)
            self.assertIn(words, str(said), text)
        with self.assertRaises(deltawobble.WrongUse) as caught:
            make("main = zero" + " " * 65525)
        self.assertIn("at most 65535 bytes", str(caught.exception))
        self.assertEqual(written("main = zero" + " " * 65524), "01 1A 00 00")

    def test_lines_end_by_10_or_13(self):
        """As a comment does; a form feed ends none."""
        for text, line, column in (("-- a\r\nmain = \r\n ?", 3, 2), ("-- a\rmain = \r\r?", 4, 1), ("-- a\n\rmain = ?", 3, 8), ("main =\f\v ?", 1, 10)):
            self.assertEqual(self.place(text)[:2], (line, column), ascii(text))

    def test_json_has_the_number_and_the_offset(self):
        status, out, _ = command("make", "--json", "-", given=b"main = fun x : 1 -o 1. x one")
        said = json.loads(out)
        self.assertEqual((status, said["line"], said["column"], said["refusal"]), (2, 1, 18, {"number": 35, "offset": 17}))


class Refusals(unittest.TestCase):
    def lines(self, text: str) -> list[str]:
        made = make(text, "mine.dw")
        with self.assertRaises(Refused) as caught:
            deltawobble.translate(made.sheet)
        return made.place_lines(made.sheet, caught.exception)

    def test_the_issue_s_own(self):
        self.assertEqual(self.lines(STICKY.replace("xor (x, y)", "x, y")), [
            "mine.dw:5:30: refused 12 at node 2: the types do not fit",
            "   5 | main = fun x : 1. fun y : 1. sticky (x, y)",
            "     |                              ^^^^^^ wants 1, and gets 1 * 1"])

    def test_each_that_a_text_can_have(self):
        for text, first, word in [
                ("main = zero zero", "mine.dw:1:8: refused 12 at node 0", "^^^^ has type 1, and is no function"),
                ("main = reg reg", "mine.dw:1:8: refused 12 at node 0", "^^^ wants 1, and gets 1 -> 1"),
                ("main = let (x, y) = one in x", "mine.dw:1:13: refused 12 at node 0", "^ what is taken apart has type 1, and is no pair"),
                ("main = fix x : 1. reg", "mine.dw:1:12: refused 12 at node 0", "^ is of type 1, and its body has 1 -> 1"),
                ("main = fix f : 1 -> 1. f", "mine.dw:1:12: refused 12 at node 0", "a fixed point is over a sharable type"),
                ("main = fun f : 1 -> 1. and (f one) (f one)", "mine.dw:1:37: refused 13 at node 8", "^ f is linear, and is used here again"),
                ("main = fun f : 1 -> 1. one", "mine.dw:1:12: refused 14 at node 0", "^ f is linear, and is used nowhere"),
                ("main = (reg, one)", "mine.dw:1:12: refused 12 at node 0", "^ a pair holds bits and pairs alone: its first half has type 1 -> 1")]:
            lines = self.lines(text)
            self.assertTrue(lines[0].startswith(first), (text, lines))
            self.assertIn(word, lines[2], text)

    def test_a_definition_tells_where_it_was_put_in(self):
        lines = self.lines("bad = fun x : 1. x x\ntwice = bad\nmain = fun y : 1. twice y")
        self.assertEqual((lines[0].split(":")[1:3], lines[3]), (["1", "18"], "     | put in at 2:9, itself put in at 3:19"))

    def test_long_types_go_by_their_names(self):
        word = "type word = 1 * 1 * 1 * 1\nmain = fun x : word -> 1. fun y : 1. x y"
        self.assertIn("^ wants word, and gets 1", self.lines(word)[2])

    def test_which_half_of_a_pair_is_a_circuit(self):
        self.assertIn("its second half has type 1 -> 1", self.lines("main = (one, reg)")[2])

    def test_gates_of_the_other_edition(self):
        self.assertEqual(self.lines("edition 2 main = fun x y : 1. and x y")[3], "     | in the second edition and takes a pair: and (x, y)")
        self.assertEqual(self.lines("main = fun x y : 1. or (x, y)")[3], "     | in the first edition or takes one bit after the other: or x y; a pair in the second, 'edition 2'")
        self.assertEqual(len(self.lines("main = inv (one, one)")), 3)


class Commands(unittest.TestCase):
    def test_make_and_show(self):
        with tempfile.TemporaryDirectory() as folder:
            text, sheet, as_hex = (str(Path(folder) / name) for name in ("mine.dw", "mine.sheet", "mine.hex"))
            Path(text).write_text(STICKY)
            self.assertEqual(command("make", text, "-o", sheet), (0, "", ""))
            self.assertEqual(command("make", text, "-o", as_hex), (0, "", ""))
            self.assertEqual(Path(sheet).read_bytes(), make(STICKY).sheet)
            self.assertEqual(Path(as_hex).read_text(), command("make", text)[1])
            shown = {command("show", name)[1] for name in (sheet, as_hex)}
            self.assertEqual(shown, {"edition 2\nmain = fun x y : 1. (fun z : 1. fix u : 1. or (z, reg u)) (xor (x, y))\n"})
            self.assertEqual(command("show", text)[1], "edition 2\nmain = fun x y : 1. (fun set : 1. fix s : 1. or (set, reg s)) (xor (x, y))\n")

    def test_refused_and_wrong(self):
        self.assertEqual(command("show", str(EXAMPLES / "P8.hex"))[0], 1)
        status, out, err = command("make", "-", given=b"main = zero zero\n")
        self.assertEqual((status, out), (1, ""))
        self.assertTrue(err.startswith("-:1:8: refused 12 at node 0: the types do not fit\n"), err)
        self.assertEqual(command("make", "-", given=b"main = \n")[0], 2)
        self.assertEqual(command("make", "-", given=b"")[0], 2)
        self.assertEqual(command("make", "-", given=bytes(range(256)))[0], 2)

    def test_explain_shows_the_line(self):
        status, out, _ = command("explain", "-", given=b"main = zero zero\n")
        self.assertEqual(status, 1)
        self.assertIn("-:1:8: refused 12", out)
