#!/usr/bin/env python3
"""The places that docs/DESIGN-PASS.md speaks of: tools/design_count.py [--at COMMIT] [POINT..]

Reads crates/*/src/*.rt of this checkout, or of a commit. It prints one line for each place, with the point, the
file and line, and what was found; the last line counts the places of each point. It searches the text and proves
nothing. A place in the list may be right as it is.

1a  an enum that has the shape of Option or Result: two variants, or a variant Refused, Unknown, Misfit or Broken
1b  a struct with a flag or a number that says whether its other fields mean anything
1c  a number in place of a reason: a refusal made from digits
1d  a number in place of a kind: a field or a parameter named kind, stage, phase, form, flag, sort or shape, of an unsigned type
2   functions that are the same but for names, numbers and types (30 tokens or more)
3   a `while` whose test reads a variable that the body moves by one
4   a conversion, a comparison or a copy written by hand: a function that only casts, or only maps variants to constants
5   three or more parameters, of the same names and types, that at least three functions of a crate take
6   an array with a count beside it, in a struct or in a parameter list
7   a `match` or a chain of `if` on a number that says which step comes next
"""
import argparse
import collections
import pathlib
import re
import subprocess

TOKEN = re.compile(r"0x[0-9A-Fa-f]+|\d+|b'.'|[A-Za-z_]\w*|[^\s\w]")
KEYWORDS = set("as break const continue else enum false fn for if impl in let loop match mut pub ref return self struct true while".split())
KIND = re.compile(r"\b(kind|stage|phase|form|flag|sort|shape)\b: u(8|16|32|64|size)\b")


def sources(commit):
    """Each source: its path below the checkout, and its text without comments, specifications and imports."""
    if commit:
        names = subprocess.run(["git", "ls-tree", "-r", "--name-only", commit, "crates"], check=True, text=True, capture_output=True).stdout.split("\n")
        texts = ((n, subprocess.run(["git", "show", f"{commit}:{n}"], check=True, text=True, capture_output=True).stdout)
                 for n in names if re.fullmatch(r"crates/\w+/src/.*\.rt", n))
    else:
        texts = ((str(p), p.read_text()) for p in sorted(pathlib.Path("crates").glob("*/src/**/*.rt")))
    for name, text in texts:
        yield name, re.sub(r"//.*|^ghost use .*", "", text, flags=re.M)


def block(text, start):
    """The end of the braces that open at or behind `start`."""
    deep, at = 0, text.index("{", start)
    while True:
        deep += {"{": 1, "}": -1}.get(text[at], 0)
        at += 1
        if deep == 0:
            return at


def functions(text):
    """Each function: name, place, parameters, body (without its contract)."""
    for found in re.finditer(r"^ *(?:pub )?(?:extern \"C\" )?fn (\w+)(?:<[^>]*>)?\(", text, re.M):
        end, deep = found.end(), 1
        while deep:
            deep += {"(": 1, ")": -1}.get(text[end], 0)
            end += 1
        at = end
        while True:
            clause = re.compile(r"\s*(?:->[^{;]*?)?\s*(?:requires|ensures)\b[^{]*").match(text, at)
            if not clause:
                break
            at = block(text, clause.end())
        if "{" in text[at:]:
            yield found[1], found.start(), text[found.end():end - 1], text[at:block(text, at)]


def items(text, word):
    for found in re.finditer(rf"^ *(?:pub )?{word} (\w+)[^;{{(]*{{", text, re.M):
        yield found[1], found.start(), text[found.end():block(text, found.start()) - 1]


def parameters(text):
    return [" ".join(p.split()) for p in re.split(r",(?![^\[(]*[\])])", text) if ":" in p]


def skeleton(body):
    return tuple("n" if t[0].isalnum() and t not in KEYWORDS or t[0] == "_" else t for t in TOKEN.findall(body))


def arms(body):
    """The right sides of a function that is one `match`."""
    whole = re.fullmatch(r"\s*{\s*match [^{]*{(.*)}\s*}\s*", body, re.S)
    return re.findall(r"=>\s*([^,{}]*),", whole[1]) if whole else []


def places(files):
    twins = collections.defaultdict(list)
    shared = collections.defaultdict(dict)
    for name, text in files:
        def place(at, what):
            return f"{name}:{text.count(chr(10), 0, at) + 1 + (text[at] == chr(10))}", " ".join(what.split())
        for enum, at, body in items(text, "enum"):
            variants = re.findall(r"^ *(\w+)((?:\([^)]*\)| {[^}]*})?)(?: = \d+)?,$", body, re.M)
            if len(variants) == 2 or {"Refused", "Unknown", "Misfit", "Broken"} & {v for v, _ in variants}:
                yield "1a", *place(at, f"enum {enum}: {', '.join(v for v, _ in variants)}")
        for struct, at, body in items(text, "struct"):
            fields = parameters(body)
            flags = [f for f in fields if re.match(r"(pub )?(number|found|fits|named): (u8|bool)", f)]
            if flags and len(fields) > 1:
                yield "1b", *place(at, f"struct {struct}: {flags[0]}")
            if any(re.search(r": \[", f) for f in fields) and any(re.match(r"(pub )?(count|size|len): ", f) for f in fields):
                yield "6", *place(at, f"struct {struct}")
        for found in re.finditer(r"\b(?:Refused|refused|not_made|no_sheet|no_types|clash)\(\s*\d+|\bnumber: [1-9]\d*", text):
            yield "1c", *place(found.start(), found[0])
        for found in KIND.finditer(text):
            yield "1d", *place(found.start(), found[0])
        for function, at, takes, body in functions(text):
            said = skeleton(body)
            if len(said) >= 30:
                twins[said].append(place(at, function))
            right = arms(body)
            if re.fullmatch(r"\s*{\s*\w+ as \w+\s*}\s*", body) or len(right) > 1 and all(re.fullmatch(r"\d+|true|false|[A-Z]\w*::\w+", a.strip()) for a in right):
                yield "4", *place(at, function)
            named = parameters(takes)
            for p in named:
                shared[name.split("/")[1], p][function] = place(at, function)
            if any(re.search(r": &(mut )?\[", p) for p in named) and any(re.match(r"(count|n|len|size): usize", p) for p in named):
                yield "6", *place(at, function)
            steps = re.findall(r"\b(?:if|match) (?:\w+\.)?(?:stage|phase|form|kind)\b", body)
            if len(steps) > 2 or re.search(r"match (?:\w+\.)?(?:stage|phase|form|kind) {", body):
                yield "7", *place(at, function)
        for found in re.finditer(r"^ *while ([^{]*){", text, re.M):
            body = text[found.start():block(text, found.start())]
            counter = [v for v in re.findall(r"[a-z_]\w*", found[1]) if re.search(rf"\b{v} (?:= {v} [+-]|[+-]=) 1;", body)]
            if counter:
                yield "3", *place(found.start(), f"while {found[1]}")
    for alike in twins.values():
        if len(alike) > 1:
            for where, function in alike:
                yield "2", where, f"{function}, as {', '.join(f for w, f in alike if w != where)}"
    groups = collections.defaultdict(set)
    for (crate, p), takers in shared.items():
        for function in takers:
            groups[crate, function].add(p)
    sets = collections.Counter()
    for (crate, function), mine in groups.items():
        for (other, g), theirs in groups.items():
            if other == crate and g > function and len(mine & theirs) > 2:
                sets[crate, frozenset(mine & theirs)] += 0
    for crate, together in list(sets):
        takers = [f for (c, f), mine in groups.items() if c == crate and together <= mine]
        if len(takers) > 2 and not any(c == crate and together < t and len([1 for (d, f), m in groups.items() if d == c and t <= m]) >= len(takers) for c, t in sets):
            yield "5", f"crates/{crate}", f"{'; '.join(sorted(together))}: {', '.join(sorted(takers))}"


def main():
    options = argparse.ArgumentParser(description="Counts the places that docs/DESIGN-PASS.md speaks of.")
    options.add_argument("--at", metavar="COMMIT")
    options.add_argument("points", nargs="*", metavar="POINT")
    chosen = options.parse_args()
    found = sorted(p for p in places(list(sources(chosen.at))) if not chosen.points or p[0] in chosen.points)
    for point, where, what in found:
        print(f"{point:3} {where}  {what}")
    counts = collections.Counter(point for point, _, _ in found)
    print("places:", ", ".join(f"{point} {counts[point]}" for point in sorted(counts)))


if __name__ == "__main__":
    main()
