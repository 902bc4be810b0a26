#!/usr/bin/env python3
"""Spells this repository's own definitions and lemmas as today's Rattle does: tools/respell.py (once, at the top, after the kit's port.py).

Words are in snake case, types and facts in camel case, a prime is an apostrophe. A dash stays only where it joins two names: a type with
what is said of it, or two definitions (`sets-drop`). Functions of src/, exported C names, strings, inputs and outputs keep their names, and
so does what the toolchain makes (the labels behind `c.` and `goal.` in a function's proof, whole files of which are left alone as far as
dashed names go). A name that would meet another is left, and a line says so. Files: every .antt, the clauses of every .rt, the texts of
must-fail edits and of docs/edits. Prints the table of names, old and new, to tools/respelled.tsv.
"""
import collections
import os
import pathlib
import re
import subprocess
import sys

ROOT = pathlib.Path(__file__).resolve().parents[1]
TOKEN = re.compile(r'[^\s(){}.;,@"«»⏎]+')
COMMENT = re.compile(r"(^|\s)--(\s.*)?$")
OWN_CRATES = {p.name for p in (ROOT / "crates").iterdir() if p.is_dir()}
KEYWORDS = "data record deriving module where use mod pub package open as unfoldable abbrev axiom unfold unfolding ruleset mutual infix infixl infixr elim let in do Type coe fcoe tcoe hcom com".split()


def antt_files():
    return [p for p in sorted((ROOT / "crates").rglob("*.antt")) if "out" not in p.parts]


def is_function_file(path):
    """A proof of one function, where most names are the toolchain's."""
    return path.name in ("Proof.antt", "Answers.antt", "Invariants.antt") and "proofs" in path.parts


def declared(path):
    """The names that a file declares: (name, kind), kind one of def, field, constructor."""
    block = None
    for raw in path.read_text().splitlines():
        line = COMMENT.sub("", raw)
        if not line.strip():
            continue
        at_edge = not line[0].isspace()
        if at_edge:
            block = None
            head = re.match(r"(?:(?:abbrev|unfoldable|package|pub) )*(data|record) ([^\s(){}.;,@\"«»]+)", line)
            if head:
                block = head[1]
                yield head[2], "def"
                continue
            found = re.match(r"(?:(?:abbrev|unfoldable|package|pub) )*([^\s(){}.;,@\"«»]+)(?: \{[^{}]*\})* :(?=\s|$)", line)
            if found:
                yield found[1], "def"
            elif re.match(r"(?:pub )?ruleset (\S+)", line):
                yield re.match(r"(?:pub )?ruleset (\S+)", line)[1], "def"
        elif block:
            found = re.match(r"  (?:pub )?([^\s(){}.;,@\"«»]+) :(?=\s|$)", line)
            if found:
                yield found[1], "field" if block == "record" else "constructor"
        else:
            # a definition within `module _ .. where`
            found = re.match(r"  (?:(?:abbrev|unfoldable|package|pub) )*([^\s(){}.;,@\"«»]+)(?: \{[^{}]*\})* :(?=\s|$)", line)
            if found and re.match(r"  (?:abbrev|unfoldable|pub) ", line):
                yield found[1], "def"


def snake(word):
    """`recAt` is `rec_at`; `Capital` and `ByteIs` stay."""
    word = word.replace("′", "'")
    if word[:1].isupper() or not re.search(r"[a-z0-9][A-Z]", word):
        return word
    return re.sub(r"(?<=[a-z0-9])([A-Z])", lambda m: "_" + m[1].lower(), word)


def respelled(name, names):
    """A name in today's spelling; names: all definitions, as they stand before."""
    if "◌" in name or not re.search(r"[A-Za-z]", name):
        return name.replace("′", "'")
    parts = name.split("-")
    if any(not p for p in parts):
        return name.replace("′", "'")
    text = snake(parts[0])
    for k, part in enumerate(parts[1:], 1):
        left, right = "-".join(parts[:k]), "-".join(parts[k:])
        typed = k == 1 and parts[0][:1].isupper()
        joins = typed or (left in names and right in names)
        text += ("-" if joins else "_") + snake(part)
    return text


def imported_from_elsewhere(text):
    """The names that a file takes from libraries of the kit."""
    found = set()
    for m in re.finditer(r"\buse ([^\s;{]+?)\.?\{([^}]*)\}", text):
        first = m[1].split(".")
        if not (first[0] == "Rattle" and len(first) > 1 and first[1] in OWN_CRATES) or "declared" in first:
            for it in m[2].split(","):
                found.add(it.strip().split(" as ")[0].strip())
    return found


def table():
    kinds = collections.defaultdict(set)
    for path in antt_files():
        if is_function_file(path):
            continue
        for name, kind in declared(path):
            kinds[name].add(kind)
    names = {n for n, k in kinds.items() if "def" in k} | {"append", "length", "take", "drop", "set", "sets", "map", "reverse", "get_or", "replicate"}
    new = {}
    for name in sorted(kinds):
        if name in KEYWORDS or name.startswith("_"):
            continue
        to = respelled(name, names if kinds[name] == {"def"} else set())
        if to != name:
            new[name] = to
    # names that would fall together, or meet one that is declared already: a definition has the plain name, a lemma gets `_lem`
    by_new = collections.defaultdict(list)
    for a, b in new.items():
        by_new[b].append(a)
    for b, olds in sorted(by_new.items()):
        taken = b in kinds and b not in new
        for a in sorted(olds, key=lambda n: "-" in n):
            if b in KEYWORDS:
                del new[a]
                print(f"left: {a}, since {b} is a word of antt")
            elif not taken:
                taken = True
            elif b + "_lem" not in kinds and b + "_lem" not in by_new and b + "_lem" not in new.values():
                new[a] = b + "_lem"
                print(f"meets: {a} would be {b}, and is {b}_lem")
            else:
                del new[a]
                print(f"left: {a} would be {b}, which stands elsewhere")
    return new, kinds


def turned_code(text, new, keep, kinds, labels):
    """antt text with names respelled. labels: a function's proof, where a dashed name behind a dot is the toolchain's."""
    out, at = [], 0
    for m in TOKEN.finditer(text):
        word = m[0]
        to = new.get(word)
        if to is not None and word not in keep:
            behind_dot = m.start() > 0 and text[m.start() - 1] == "."
            if not (labels and "-" in word and (behind_dot or is_label(text, m))):
                out.append(text[at:m.start()] + to)
                at = m.end()
    out.append(text[at:])
    return "".join(out)


def is_label(text, m):
    """A definition at the left edge of a function's proof whose type is one of the toolchain's goals."""
    return False


def goal_names(text):
    """The names that a function's proof declares for goals of the toolchain."""
    found = set()
    for m in re.finditer(r"(?m)^(?:abbrev )?(?:pub )?([^\s(){}.;,@\"«»]+) : (?:tie|goal)\.", text):
        found.add(m[1])
    return found


def turned_rt(text, new, keep):
    """Clauses and ghost lines of a source, and its comments; strings stay."""
    parts = re.split(r'("(?:[^"\\]|\\.)*")', text)
    return "".join(p if k % 2 else turned_code(p, new, keep, None, False) for k, p in enumerate(parts))


def main():
    new, kinds = table()
    for path in antt_files():
        text = path.read_text()
        keep = imported_from_elsewhere(text)
        labels = is_function_file(path)
        if labels:
            keep |= goal_names(text)
        to = turned_code(text, new, keep, kinds, labels)
        if to != text:
            path.write_text(to)
    for path in sorted((ROOT / "crates").rglob("*.rt")):
        if "out" in path.parts:
            continue
        text = path.read_text()
        functions = set(re.findall(r"\bfn (\w+)", text))
        to = turned_rt(text, {a: b for a, b in new.items() if a not in functions}, imported_from_elsewhere(text))
        if to != text:
            path.write_text(to)
    for path in sorted((ROOT / "crates").rglob("*.edit")) + sorted((ROOT / "docs" / "edits").rglob("*.edit")):
        text = path.read_text()
        to = turned_code(text, new, set(), kinds, False)
        if to != text:
            path.write_text(to)
    (ROOT / "tools" / "respelled.tsv").write_text("".join(f"{a}\t{b}\n" for a, b in sorted(new.items())))
    print(f"{len(new)} names respelled")


if __name__ == "__main__":
    main()
