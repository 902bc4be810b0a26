"""What the desk works out from a text, its sheet and its places: names, the definitions that were put in, and where they are named."""
from __future__ import annotations

import unittest

from deltawobble import make
from deltawobble.notation import Made


def put_in(text: str) -> list[tuple[str, list[str]]]:
    """For each definition that was put in its name, and the names from it outwards that it stands for, as NAME@COLUMN of its line."""
    made, found = make(text), {}
    for origin in made.origins:
        for depth, put in enumerate(origin.through):
            found.setdefault(put.node, (put.name, [word(made, at) for one in reversed(origin.through[:depth + 1]) for at in reversed(one.at)]))
    return [found[node] for node in sorted(found)]


def word(made: Made, number: int) -> str:
    found = made.words.all[number]
    span = made.text.span(found.start, found.end)
    return "%s@%d:%d" % (found.text, span.line, span.column)


class PutIn(unittest.TestCase):
    D = "d = fun a : 1. inv a\n"

    def test_where_a_definition_is_named(self):
        """A definition in each place that a term can have; the columns are counted by hand."""
        for main, columns in [
                ("main = d one", [8]), ("main = (d) one", [9]), ("main = d", [8]), ("main = ((d))", [10]), ("main = fun x : 1. d x", [19]),
                ("main = reg (d one)", [13]), ("main = (d one, one)", [9]), ("main = (one, d one)", [14]), ("main = (one, (d one, d zero), one)", [15, 22]),
                ("main = fun f : 1 -> 1. and (f one) (d (one))", [37]), ("main = fix x : 1. d (reg x)", [19]),
                ("main = let x = d one in d x", [25, 16]), ("edition 2 main = let x = d one in d x", [26, 35]),
                ("main = let (x, y) = (d one, one) in d x", [22, 37]), ("main = (fun f : 1 -> 1. f one) d", [32]),
                ("main = (fun f g : 1 -> 1. f (g one)) d (d)", [38, 41]), ("main = let f = d in f one", [16]),
                ("main = let x = let y = one in d y in d x", [38, 31])]:
            edition = "edition 2 " if main.startswith("edition") else ""
            text = edition + self.D + main.replace("edition 2 ", "          ")
            self.assertEqual(put_in(text), [("d", ["d@2:%d" % column]) for column in columns], main)

    def test_definitions_in_one_another(self):
        self.assertEqual(put_in("a = inv one\nb = and a a\nmain = b"), [
            ("b", ["b@3:8"]), ("a", ["a@2:9", "b@3:8"]), ("a", ["a@2:11", "b@3:8"])])

    def test_a_definition_that_is_another_name(self):
        self.assertEqual(put_in("a = inv one\nb = a\nc = (b)\nmain = reg c"), [("a", ["a@2:5", "b@3:6", "c@4:12"])])

    def test_recursion(self):
        text = "d{0} = fun x : 1. x\nd{n + 1} = fun x : 1. reg (d{n} x)\nmain = d{3}"
        self.assertEqual(put_in(text), [("d", ["d@2:28"] * k + ["d@3:8"]) for k in range(4)])
        made = make(text)
        self.assertEqual([len(o.through) for o, n in zip(made.origins, made.parsed.nodes) if n.kind == 0x1A], [1, 2, 3])

    def test_recursion_at_each_place_where_a_subterm_begins(self):
        """The second clause is put in three times, the first once, wherever the recursion stands."""
        for clause in ("fun x : 1. f{n} x", "inv f{n}", "(f{n}, one)", "(one, f{n})", "let x = f{n} in inv one", "let x = one in f{n}",
                       "let (x, y) = (f{n}, one) in one", "fix x : 1. f{n}", "reg (f{n})"):
            for edition in ("edition 1", "edition 2"):
                found = put_in("%s f{0} = one f{n + 1} = %s main = f{3}" % (edition, clause))
                self.assertEqual([name for name, _ in found], ["f"] * 4, (edition, clause))

    def test_a_definition_that_begins_with_itself(self):
        """f{2} is f{1} a b, and f{1} is f{0} a b: four applications of one place, two in each."""
        text = "f{0} = fun x y z w : 1. x\nf{n + 1} = f{n} one zero\nmain = f{2}"
        self.assertEqual(put_in(text), [("f", ["f@3:8"]), ("f", ["f@2:12", "f@3:8"]), ("f", ["f@2:12", "f@2:12", "f@3:8"])])
        self.assertEqual([len(o.through) for o in make(text).origins], [1, 1, 2, 2, 3, 3, 3, 3, 3, 2, 2, 1, 1])
        self.assertEqual(put_in("d{0} = zero\nd{n + 1} = d{n} d{n}\nmain = fix x : 1. d{1}"),
                         [("d", ["d@3:19"]), ("d", ["d@2:12", "d@3:19"]), ("d", ["d@2:17", "d@3:19"])])

    def test_a_type_and_a_definition_of_one_name(self):
        self.assertEqual(put_in("type d = 1\nd = fun x : d. inv x\nmain = fun d' : d. d d'"), [("d", ["d@3:20"])])


class Names(unittest.TestCase):
    def bound(self, text: str) -> list[list[str]]:
        return [origin.binds for origin in make(text).origins if origin.binds]

    def test_what_nodes_bind(self):
        self.assertEqual(self.bound("main = fun a b : 1. fix c : 1. let d = a in and b c"), [["a"], ["b"], ["c"], ["d"]])
        self.assertEqual(self.bound("edition 2 main = fun a : 1. let d = a in d"), [["a"], ["d"]])
        self.assertEqual(self.bound("main = fun p : 1 * 1 * 1. let (x, y, z) = p in z"), [["p"], ["x", "rest"], ["y", "z"]])
        self.assertEqual(self.bound("main = fun p : 1 * 1. let (x, rest) = p in rest"), [["p"], ["x", "rest"]])

    def test_long_types_by_name(self):
        made = make("type bit = 1\ntype word = 1 * 1 * 1 * 1\ntype two[a] = a * a\ntype pair = two[word]\nmain = fun x : pair. x")
        self.assertEqual(sorted(made.type_names.values()), ["pair", "word"])


if __name__ == "__main__":
    unittest.main()
