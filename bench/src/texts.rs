//! Texts in the notation that take the most stack or the most time, and ordinary ones of 200 lines.

use second::notation_make::make;

pub struct Text {
    pub name: &'static str,
    pub text: String,
}

/// A call takes so many bytes of text.
const MOST_BYTES: usize = 65_535;

/// Texts in which one thing stands in another so many times.
#[rustfmt::skip]
const NESTED: [(&str, fn(usize) -> String); 22] = [
    ("parentheses", |n| format!("main = {}zero{}", "(".repeat(n), ")".repeat(n))),
    ("functions", |n| format!("main = {}zero", "fun x : 1. ".repeat(n))),
    ("fixed points", |n| format!("main = {}x", "fix x : 1. ".repeat(n))),
    ("let, in its body", |n| format!("edition 2 main = {}x", "let x = zero in ".repeat(n))),
    ("let, in its value", |n| format!("edition 2 main = {}zero{}", "let x = ".repeat(n), " in x".repeat(n))),
    ("let of two, in its value", |n| format!("main = {}(zero, zero){}", "let (x, y) = ".repeat(n), " in (x, y)".repeat(n))),
    ("lists of let", |n| format!("main = let {}x, y){} = zero in x", "(".repeat(n + 1), ", z)".repeat(n))),
    ("lists of fun", |n| format!("main = fun {}x, y){} : 1. x", "(".repeat(n + 1), ", z)".repeat(n))),
    ("lists beside one another", |n| format!("main = let ({}x, y) = zero in x", "(x, y), ".repeat(n))),
    ("lists that are read, not made", |n| format!("d{{n}} = let {}x, y){} = zero in x main = zero", "(".repeat(n + 1), ", z)".repeat(n))),
    ("applications", |n| format!("main = {}zero{}", "inv (".repeat(n), ")".repeat(n))),
    ("pairs", |n| format!("main = {}zero{}", "(zero, ".repeat(n), ")".repeat(n))),
    ("types in parentheses", |n| format!("main = fun x : {}1{}. x", "(".repeat(n), ")".repeat(n))),
    ("products", |n| format!("type t = {}1 main = zero", "1 * ".repeat(n))),
    ("arrows", |n| format!("type t = {}1 main = zero", "1 -> ".repeat(n))),
    ("arrows to the left", |n| format!("main = fun x : {}1{}. x", "(".repeat(n), " -> 1) -o 1".repeat(n))),
    ("type arguments", |n| format!("type k[a] = a main = fun x : {}1{}. x", "k[".repeat(n), "]".repeat(n))),
    ("definitions put in", |n| format!("d{{0}} = zero d{{n + 1}} = d{{n}} main = d{{{n}}}")),
    ("definitions in parentheses", |n| format!("d{{0}} = zero d{{n + 1}} = (d{{n}}) main = d{{{n}}}")),
    ("definitions, with let", |n| format!("edition 2 d{{0}} = zero d{{n + 1}} = let x = d{{n}} in x main = d{{{n}}}")),
    ("types put in", |n| format!("type t{{0}} = 1 type t{{n + 1}} = t{{n}} main = fun x : t{{{n}}}. x")),
    ("types put in, as arguments", |n| format!("type k[a] = a type t{{0}} = 1 type t{{n + 1}} = k[t{{n}}] main = fun x : t{{{n}}}. x")),
];

/// One thing in another: as deep as it is taken, and one deeper.
pub struct Nested {
    pub name: &'static str,
    pub levels: usize,
    pub taken: String,
    pub refused: String,
}

pub fn nested() -> Vec<Nested> {
    let deepest = |(name, shape): (&'static str, fn(usize) -> String)| {
        let levels = (1..=100).rev().find(|&levels| make(shape(levels).as_bytes()).is_ok());
        let levels = levels.expect("one of each is taken");
        Nested { name, levels, taken: shape(levels), refused: shape(levels + 1) }
    };
    NESTED.into_iter().map(deepest).collect()
}

fn row(times: usize, one: &str, between: &str) -> String {
    vec![one; times].join(between)
}

/// So many names of one length, the first bytes of which are the same.
fn alike(count: usize, length: usize) -> Vec<String> {
    let digit = |number: usize| char::from(b"0123456789abcdefghijklmnopqrstuvwxyz"[number % 36]);
    let name = |number: usize| {
        format!("{}{}{}", "n".repeat(length - 2), digit(number / 36), digit(number))
    };
    (0..count).map(name).collect()
}

/// The text with as much of a thing as it may have.
fn most(text: impl Fn(usize) -> String) -> String {
    let taken = |much: usize| {
        let text = text(much);
        text.len() <= MOST_BYTES && make(text.as_bytes()).is_ok()
    };
    let once = make(text(1).as_bytes());
    assert!(taken(1), "{} bytes, {:?}", text(1).len(), once.err());
    let steps = (0..12).rev().map(|step| 1 << step);
    text(steps.fold(1, |found, step| if taken(found + step) { found + step } else { found }))
}

/// A comment with so many bytes between its dashes and its end.
fn comment(bytes: usize) -> String {
    format!("--{}\n", "-".repeat(bytes))
}

/// A type that is put in as often as it may be. `z` has 100 parameters, and throws them away.
fn over_and_over(clauses: &str, one: &str) -> String {
    let z = row(100, "a", ",");
    most(|times| {
        let lines = row(times, "w", ",");
        format!("type z[{z}] = 1\n{clauses}\ntype w = {one}\ntable {lines}\nmain = zero")
    })
}

/// A type family that doubles, below other clauses: f{n} puts in 2 to the n and more, and is 1.
fn doubling(above: &str, name: &str, comment: &str) -> String {
    let clauses = format!(
        "{above}type k[a] = 1 type {name}{{0}} = 1\ntype {name}{{n + 1}} = k[{comment}{name}{{n}} * {name}{{n}}]"
    );
    let text = |lines: &str| format!("{clauses}\ntable {lines}\nmain = zero");
    let once = |depth: usize| format!("{name}{{{depth}}}");
    let taken = |depth: &usize| make(text(&once(*depth)).as_bytes()).is_ok();
    let deepest = (1..16).rev().find(taken).expect("a depth that is taken");
    let rest = deepest.saturating_sub(3);
    most(|times| text(&format!("{},{}", once(deepest), row(times, &once(rest), ","))))
}

/// 250 clauses with long names that differ in their last bytes, above a family that doubles.
fn long_names(length: usize) -> String {
    let names = alike(250, length);
    let above: Vec<String> = names[1..].iter().map(|name| format!("type {name} = 1\n")).collect();
    doubling(&above.concat(), &names[0], "")
}

/// The same above a family with a short name: what is compared is the clauses' names, and what is paid for the short one.
fn passed_names(length: usize) -> String {
    let above =
        alike(250, length).iter().map(|name| format!("type {name} = 1\n")).collect::<String>();
    doubling(&above, "f", "")
}

/// Rows of 100 arguments in `z`, so many.
fn rows(times: usize, argument: &str) -> String {
    row(times, &format!("z[{}]", row(100, argument, ",")), "->")
}

/// 900 type parameters, of which the body names the last, and nothing else.
fn parameters(length: usize, times: usize) -> String {
    let names = alike(900, length);
    let clause = format!("type f[{}] = {}", names.join(","), rows(times, &names[899]));
    over_and_over(&clause, &format!("f[{}]", row(900, "1", ",")))
}

/// Type parameters with names of a length, and behind them one with a short name, which the body names and nothing else.
fn passed_parameters(length: usize, times: usize, argument: &str) -> String {
    let clause = format!("type f[{},x] = {}", alike(899, length).join(","), rows(times, argument));
    over_and_over(&clause, &format!("f[{}]", row(900, "1", ",")))
}

/// 900 numbers, of which the body names the last, and nothing else but `d`, which takes 24.
fn passed_numbers(times: usize, argument: &str) -> String {
    let clause = format!("type f{{{},x}} = {}", row(899, "n", ","), rows(times, argument));
    let taker = format!("type d{{{}}} = 1\n", row(24, "n", ","));
    over_and_over(&format!("{taker}{clause}"), &format!("f{{{}}}", row(900, "1", ",")))
}

/// Clauses that differ in their last number, so many and one more, which is meant: in the others numbers are written in these ways, so many in each.
fn numbers(passed: usize, written: &[(usize, &str)], before_last: &str) -> String {
    let count = written.iter().map(|(times, _)| times).sum();
    let others: String =
        written.iter().map(|(times, one)| format!("{one},").repeat(*times)).collect();
    let clause = |last: usize| format!("type d{{{others}{before_last}{last}}}=1\n");
    let meant = |one: &str| format!("d{{{}{passed}}}", one.repeat(count));
    let clauses: String = (0..passed).map(clause).collect();
    over_and_over(&format!("{clauses}type {}=1", meant("n,")), &rows(1, &meant("0,")))
}

/// A table of 240 products, from 2 to 16 bits on the left and 1 to 16 on the right.
fn products() -> String {
    let bits = |count: usize| row(count, "1", "*");
    let all = (2..=16).flat_map(|left| (1..=16).map(move |right| (left, right)));
    let line = |(left, right): (usize, usize)| format!("table ({})*{}\n", bits(left), bits(right));
    all.take(238).map(line).collect()
}

/// A full table, in which the type that is asked for stands last.
fn last_types() -> String {
    let full = rows(1, "1->1");
    let nested = format!("z[{},{}]", row(40, &full, ","), row(60, "1", ","));
    over_and_over(&format!("{}table 1->1->1", products()), &nested)
}

/// Rows of 128 bits, worked out as often as costs allow: five for each 32 bytes of a clause.
fn rows_of_bits(lines: &str) -> String {
    over_and_over(lines, &rows(40, "1^128"))
}

/// .. where another type stands behind each of the first products of the row, as many as the table of 256 types has room for.
fn rows_in_pieces() -> String {
    let line = |bits: usize| format!("table 1^{bits}->1\n");
    rows_of_bits(&(2..=90).map(line).collect::<String>())
}

/// A term that is judged as often as it may be.
fn judged(clauses: &str, one: &str) -> String {
    most(|times| {
        let uses: String =
            (0..times.min(250)).map(|number| format!("e{number} = {one}\n")).collect();
        format!("{clauses}\n{uses}main = zero")
    })
}

/// 250 definitions of 720 atoms.
fn atoms(clauses: &str, atom: &str) -> String {
    let all = row(16, &format!("({})", row(45, atom, " ")), ",");
    judged(&format!("{clauses}\nd{{n}} = ({all})"), "d{0}")
}

/// .. which are gates, whose types stand last in a full table.
fn last_gates() -> String {
    atoms(&format!("{}table 1->1->1", products()), "or")
}

/// .. which are names of a definition that is put in, before another one with this head, by which it ends.
fn term_before(head: &str) -> String {
    atoms(&format!("a = zero {head} = zero"), "a")
}

/// A type that is put in as often as it may be, before a definition with this name, by which it ends.
fn type_before(name: &str) -> String {
    over_and_over(&format!("type k=1 {name} = zero"), &rows(1, "k"))
}

/// Definitions in which a term is put in 2 to the n times, judged one after the other.
fn doubled(term: &str, depth: usize) -> String {
    judged(&format!("d{{0}} = {term} d{{n + 1}} = d{{n}} d{{n}}"), &format!("d{{{depth}}}"))
}

/// A term that takes apart lists in one another, so many.
fn lists_in_lists(count: usize) -> String {
    format!("let {}x,y){} = zero in zero", "(z,".repeat(count - 1) + "(", ")".repeat(count - 1))
}

/// One word and another behind a comment as long as a text may be, put in as often as it may be.
fn comments() -> String {
    over_and_over(&format!("type f[a] = 1 * {} a", comment(60_000)), "f[1]")
}

/// Lists in one another around something, which each of them passes over, put in as often as they may be.
fn lists_around(inside: &str) -> String {
    let list = format!("{}{inside}x, y){}", "(".repeat(61), ", z)".repeat(60));
    judged(&format!("d{{n}} = let {list} = zero in zero"), "d{0}")
}

/// The texts that took longest of those that were tried.
#[rustfmt::skip]
pub fn slow() -> Vec<Text> {
    let text = |name, text| Text { name, text };
    vec![
        text("a type family that doubles", doubling("", "f", "")),
        text("with a comment of 300 bytes", doubling("", "f", &comment(300))),
        text("a comment of 60,000 bytes", comments()),
        text("60 lists around a comment", lists_around(&comment(60_000))),
        text("60 lists around blanks", lists_around(&"\t".repeat(60_000))),
        text("56 lists in one another", doubled(&lists_in_lists(56), 4)),
        text("a type before a long name", type_before(&"n".repeat(60_000))),
        text("a term before a long name", term_before(&"n".repeat(60_000))),
        text("a term before 29,000 parameters", term_before(&format!("b[{}]", row(29_000, "x", ",")))),
        text("a term before 29,000 numbers", term_before(&format!("b{{{}}}", row(29_000, "n", ",")))),
        text("250 clauses, names of 20 bytes", long_names(20)),
        text("250 clauses, names of 60 bytes", long_names(60)),
        text("250 clauses, names of 220 bytes", long_names(220)),
        text("250 names of 220 bytes passed", passed_names(220)),
        text("899 parameters of 55 bytes passed", passed_parameters(55, 40, "x")),
        text("240 clauses of a number", numbers(239, &[], "")),
        text("240 clauses of 50 numbers", numbers(239, &[(49, "n")], "")),
        text("240 clauses of 50 numbers n+0", numbers(239, &[(49, "n+0")], "")),
        text("240 clauses of 80 numbers", numbers(239, &[(79, "n")], "")),
        text("240 clauses of a number, blanks", numbers(239, &[], &"\t".repeat(240))),
        text("240 clauses of a number, comment", numbers(239, &[], &comment(240))),
        text("240 clauses of a number, zeros", numbers(239, &[], &"0".repeat(240))),
        text("240 clauses, names of 220 bytes", numbers(239, &[(1, &"n".repeat(220))], "")),
        text("240 clauses of ten, blanks", numbers(239, &[(9, &format!("{}n", "\t".repeat(20)))], &"\t".repeat(20))),
        text("blanks before the 28th number", numbers(239, &[(27, "n")], &"\t".repeat(170))),
        text("a comment before the 28th number", numbers(239, &[(27, "n")], &comment(170))),
        text("zeros before the 28th number", numbers(239, &[(27, "n")], &"0".repeat(170))),
        text("a 28th number of 170 bytes", numbers(239, &[(27, "n"), (1, &"n".repeat(170))], "")),
        text("n+0 from the 28th number on", numbers(239, &[(27, "n"), (36, "n+0")], "")),
        text("blanks before one 28th number", numbers(1, &[(27, "n")], &"\t".repeat(57_000))),
        text("zeros before one 28th number", numbers(1, &[(27, "n")], &"0".repeat(57_000))),
        text("899 parameters passed in products", passed_parameters(3, 5, &row(58, "x", "*"))),
        text("899 numbers passed in products", passed_numbers(2, &row(60, "1^x", "*"))),
        text("899 numbers passed in arguments", passed_numbers(10, &format!("d{{{}}}", row(24, "x", ",")))),
        text("900 type arguments of 3 bytes", parameters(3, 70)),
        text("900 type arguments of 30 bytes", parameters(30, 9)),
        text("256 types, the last one meant", last_types()),
        text("256 types, the gates' are last", last_gates()),
        text("rows of 128 bits", rows_of_bits("")),
        text("rows of 128 bits in pieces", rows_in_pieces()),
        text("2,047 nodes over and over", doubled("zero", 10)),
        text("65,535 bytes, one name", format!("main = {}", "x".repeat(MOST_BYTES - 7))),
        text("65,535 bytes, one comment", format!("main = zero --{}", "-".repeat(MOST_BYTES - 14))),
        text("65,535 bytes of parentheses", format!("main = {}", "(".repeat(MOST_BYTES - 7))),
        text("65,535 bytes of brackets", format!("main = zero x{}", "[".repeat(MOST_BYTES - 13))),
        text("65,535 bytes of names", format!("main = zero{}", " x".repeat((MOST_BYTES - 11) / 2))),
    ]
}

/// The blocks' files as one text, without the lines that say which files they use.
fn blocks(main: &str) -> String {
    let files = [
        include_str!("../../blocks/functions.dw"),
        include_str!("../../blocks/bits.dw"),
        include_str!("../../blocks/decisions.dw"),
    ];
    let lines = files.iter().flat_map(|file| file.lines());
    let own = lines.filter(|line| !line.starts_with("edition") && !line.starts_with("use "));
    format!("edition 2\n{}\n{main}", own.collect::<Vec<&str>>().join("\n"))
}

/// Definitions of one line, each put in once: rows of 21 in one another.
fn short_definitions() -> String {
    let one =
        |number: usize| format!("step{number} = fun x : 1. xor x (reg x) -- does x change?\n");
    let chain = |row: usize| {
        let names: Vec<String> = (0..21).map(|k| format!("step{}", 21 * row + k)).collect();
        format!("{} x{}", names.join(" ("), ")".repeat(20))
    };
    let rows: Vec<String> = (0..9).map(chain).collect();
    let all: Vec<String> = (0..189).map(one).collect();
    format!("{}main = fun x : 1. (\n  {})\n", all.concat(), rows.join(",\n  "))
}

/// Definitions of five lines, each put in once.
fn long_definitions() -> String {
    let one = |number: usize| {
        format!(
            "-- a full adder, number {number}\nadd{number} = fun p : 1 * 1. fun c : 1.\n  let (a, b) = p in\n  let s = xor (a, b) in\n  (xor (s, c), or (and (a, b), and (s, c)))\n"
        )
    };
    let all: Vec<String> = (0..39).map(one).collect();
    let uses: Vec<String> = (0..39).map(|number| format!("add{number} (x, y) z")).collect();
    format!("edition 2\n{}main = fun x y z : 1. (\n  {})\n", all.concat(), uses.join(", "))
}

fn named<const COUNT: usize>(texts: [(&'static str, String); COUNT]) -> Vec<Text> {
    texts.into_iter().map(|(name, text)| Text { name, text }).collect()
}

/// Texts of about 200 lines, as people write them: each definition is put in.
pub fn ordinary() -> Vec<Text> {
    named([
        ("189 definitions of a line", short_definitions()),
        ("39 definitions of five lines", long_definitions()),
    ])
}

/// Texts over the 231 lines of the blocks: few of them are put in, and families of every size down to the smallest, at each use anew.
pub fn families() -> Vec<Text> {
    named([
        ("blocks: an adder of 32 bits", blocks("main = adder{5}")),
        ("blocks: a sorter of 16", blocks("main = bitonic{0, 4}")),
    ])
}
