//! docs/NOTATION.md: named texts, with the sheet and the places, or the refusal, worked out by hand.

use crate::write::{hex, Bytes};

pub struct TextEdge {
    pub name: String,
    pub text: Bytes,
    /// The sheet and the places, or the refusal with its place.
    pub answer: Result<(Bytes, Vec<usize>), (usize, usize)>,
}

/// Name, text, sheet, places.
#[rustfmt::skip]
const MADE: &[(&str, &str, &str, &[usize])] = &[
    ("P1", "main = zero", "01 1A0000", &[7]),
    ("P2", "main = fun x : 1. x", "01 030000 1301 1100", &[11, 18]),
    ("P3: an application stands at the first word of its function", "main = (fun f : 1 -> 1. f zero) reg",
      "01 030000 040100 16 1502 14 1200 1A0000 1A0101", &[7, 12, 24, 24, 26, 32]),
    ("signs in UTF-8", "main = λx:1×1→1.x", "01 020000 030100 040202 1503 1200", &[9, 20]),
    ("the second edition's gate", "edition 2 main = and", "31 01 020000 030100 1A0202", &[17]),
    ("the first edition's gate", "edition 1 main = and", "01 030000 030001 1A0202", &[17]),
    ("a circuit that is a fixed point", "main = fix f : 1 -> 1. f", "01 030000 1901 1200", &[11, 23]),
    ("let, first edition", "main = let x = zero in inv x", "01 030000 14 1301 14 1A0501 1100 1A0000", &[11, 11, 23, 23, 27, 15]),
    ("let, second edition", "edition 2 main = let x = zero in inv x", "31 01 030000 1B 1A0000 14 1A0501 1100", &[21, 25, 33, 33, 37]),
    ("let of a circuit, second edition", "edition 2 main = let f = inv in f one",
      "31 01 030000 040100 16 1502 14 1200 1A0600 1A0501", &[21, 21, 32, 32, 34, 25]),
    ("three names: the rest stands at the second", "main = fun p : 1 * 1 * 1. let (a, b, c) = p in b",
      "01 020000 020001 030200 1303 18 1100 18 1100 1101", &[11, 31, 42, 34, 34, 47]),
    ("a variable that is taken apart stands at the parenthesis", "main = fun (a, b) : 1 * 1. a",
      "01 020000 030100 1302 18 1100 1101", &[11, 12, 11, 27]),
    ("three names, taken apart", "main = fun (a, b, c) : 1 * 1 * 1. b",
      "01 020000 020001 030200 1303 18 1100 18 1100 1101", &[11, 12, 11, 15, 15, 34]),
    ("a circuit, taken apart", "main = fun (a, b) : 1 -> 1. a", "01 030000 040100 1502 18 1200 1101", &[11, 12, 11, 28]),
    ("a list in a list, first: its variable is bound one before the last", "main = fun ((a, b), c) : (1 * 1) * 1. b",
      "01 020000 020100 030200 1303 18 1100 18 1101 1100", &[11, 12, 11, 13, 12, 38]),
    ("a list in a list, last", "main = fun p : 1 * 1 * 1. let (a, (b, c)) = p in a",
      "01 020000 020001 030200 1303 18 1100 18 1100 1103", &[11, 31, 44, 35, 34, 49]),
    ("two lists in a list, in the order of the text", "main = fun ((a, b), (c, d)) : (1 * 1) * 1 * 1. (a, d)",
      "01 020000 020101 030201 1303 18 1100 18 1101 18 1102 1701 1103 1100", &[11, 12, 11, 13, 12, 21, 20, 49, 48, 51]),
    ("a list in a list in a list of three: the rest stands at a parenthesis", "main = fun (a, (b, (c, d)), e) : 1 * (1 * 1 * 1) * 1. d",
      "01 020000 020001 020200 020003 030400 1305 18 1100 18 1100 18 1101 18 1100 1100", &[11, 12, 11, 15, 15, 16, 15, 20, 19, 54]),
    ("a list that opens later hides names", "main = fun ((a, b), a) : (1 * 1) * 1. a",
      "01 020000 020100 030200 1303 18 1100 18 1101 1101", &[11, 12, 11, 13, 12, 38]),
    ("one name in several lists", "main = fun ((_, x), (_, _)) : (1 * 1) * 1 * 1. x",
      "01 020000 020101 030200 1303 18 1100 18 1101 18 1102 1102", &[11, 12, 11, 13, 12, 21, 20, 47]),
    ("no pair, taken apart into a list in a list", "main = let ((a, b), c) = one in a", "01 18 1A0600 18 1101 1101", &[12, 25, 13, 12, 32]),
    ("a circuit, taken apart into a list in a list", "main = fun ((a, b), c) : 1 -> 1. a",
      "01 030000 040100 1502 18 1200 18 1101 1101", &[11, 12, 11, 13, 12, 33]),
    ("three in a row: pairs stand at the commas", "main = (one, zero, one)",
      "01 020000 020001 1702 1A0600 1701 1A0000 1A0600", &[11, 8, 17, 13, 19]),
    ("a pair with a circuit: 1 is taken for it", "main = (inv, one)", "01 030000 020000 1702 1A0501 1A0600", &[11, 8, 13]),
    ("no function, applied to a circuit", "main = zero reg", "01 030000 16 1A0000 1A0101", &[7, 7, 12]),
    ("no function, applied to a bit", "main = zero one", "01 14 1A0000 1A0600", &[7, 7, 12]),
    ("no pair, taken apart", "main = let (x, y) = one in y", "01 18 1A0600 1100", &[12, 20, 27]),
    ("a type parameter", "id[a] = fun x : a. x main = id[1 * 1]", "01 020000 030101 1302 1100", &[12, 19]),
    ("of two parameters of one name the first", "d[a, a] = fun x : a. x main = d[1, 1 * 1]", "01 020000 030000 1302 1100", &[14, 21]),
    ("clauses by number", "d{0} = fun x : 1. x d{n + 1} = fun x : 1. reg (d{n} x) main = d{1}",
      "01 030000 1301 14 1A0101 14 1301 1100 1100", &[35, 42, 42, 47, 11, 18, 52]),
    ("a type by number", "type row{0} = 1 type row{n + 1} = row{n} * row{n} main = fun x : row{1}. x",
      "01 020000 030101 1302 1100", &[61, 73]),
    ("the first clause that fits", "d{n + 1} = one d{n} = zero main = d{0}", "01 1A0000", &[22]),
    ("the first clause that fits, not the nearest", "d{n + 1} = one d{n} = zero main = d{2}", "01 1A0600", &[11]),
    ("a clause with numbers knows those below of its name", "d{n + 1} = d{n} d{0} = one main = d{3}", "01 1A0600", &[23]),
    ("no variable of the place is caught", "d[a] = fun x : a. x main = fun x : 1. d[1] x", "01 030000 1301 14 1301 1100 1100", &[31, 38, 11, 18, 43]),
    ("a definition that is judged leaves no type", "d = and main = zero", "01 1A0000", &[15]),
    ("a clause with parameters is not judged", "d{n} = nobody main = zero", "01 1A0000", &[21]),
    ("table lines", "table 1 * 1, 1 -> 1 main = zero", "01 020000 030000 1A0000", &[27]),
    ("table lines, wherever they stand", "main = reg table 1 * 1", "01 020000 030000 1A0102", &[7]),
    ("a type and a term of one name", "type t = 1 t = zero main = t", "01 1A0000", &[15]),
    ("main is known to what stands below", "main = zero d = main", "01 1A0000", &[7]),
    ("a number is its value", "edition 02 main = fun x : 001. x", "31 01 030000 1301 1100", &[22, 31]),
    ("bits in a row nest to the right", "main = fun x : 1^3. x", "01 020000 020001 030202 1303 1100", &[11, 20]),
    ("one bit in a row", "main = fun x : 1 ^ 1. x", "01 030000 1301 1100", &[11, 22]),
    ("a row binds closer than a product", "main = fun x : 1^2 * 1. x", "01 020000 020100 030202 1303 1100", &[11, 24]),
    ("a row behind a product, listed once", "table 1 * 1^2 * 1, 1^2 main = zero", "01 020000 020100 020002 1A0000", &[30]),
    ("a row by a parameter", "type b{n} = 1^n + 1 main = fun x : b{1}. x", "01 020000 030101 1302 1100", &[31, 41]),
    ("comments to byte 13 and to the end", "-- a\rmain = zero -- b", "01 1A0000", &[12]),
];

/// Name, number, text; `@` stands before the place and is no part of the text.
#[rustfmt::skip]
const REFUSED: &[(&str, usize, &str)] = &[
    ("no word begins so", 31, "main = @$"), ("a run that is no number", 31, "main = @1a"), ("a mark first", 31, "@'a = zero"),
    ("a dash alone", 31, "main = zero @- 1"), ("another letter of UTF-8", 31, "main = zero @é"), ("half a sign", 31, "main = @- > zero"),
    ("31 before 32", 31, "main = = @#"), ("a number above 255", 34, "f{@256} = zero"), ("a number before a byte", 34, "f{@256} = $"),
    ("a byte before a number", 31, "f{@$} = 256"), ("a long number", 34, "d = @99999999999999999999999999"),
    ("nothing behind =", 32, "main = @"), ("no head", 32, "@= zero"), ("no =", 32, "main @zero"), ("open", 32, "main = (zero@"),
    ("no name", 32, "main = fun @: 1. zero"), ("no type", 32, "main = fun x @. x"), ("2 is no type", 32, "main = fun x : @2. x"),
    ("a part's name", 32, "main = fun @and : 1. and"), ("one name in parentheses", 32, "main = let (x@) = zero in x"),
    ("one name of a function in parentheses", 32, "main = fun (x@) : 1. x"), ("a name behind a list", 32, "main = fun (x, y) @z : 1. x"),
    ("a name before a list", 32, "main = fun z @(x, y) : 1. x"), ("a list of no names", 32, "main = fun (@) : 1. zero"),
    ("a second list", 32, "main = fun (x, y) @(z, w) : 1. x"), ("a list of a fixed point", 32, "main = fix @(x, y) : 1. x"),
    ("one name in a list in a list", 32, "main = fun ((x@), y) : 1. x"), ("a list alone in a list", 32, "main = let ((x, y)@) = zero in x"),
    ("a list of nothing in a list", 32, "main = let (x, (@)) = zero in x"), ("a part in a list in a list", 32, "main = fun (x, (y, @and)) : 1. x"),
    ("a list that is not closed", 32, "main = fun (x, (y, z) @: 1. x"), ("no comma behind a list in a list", 32, "main = fun ((x, y) @z) : 1. x"),
    ("a comma behind the last of a list", 32, "main = let ((x, y,@), z) = zero in x"), ("one parenthesis too many", 32, "main = let ((x, y), z)@) = zero in x"),
    ("lists first, then what is not known", 33, "main = fun ((x, y), z) : 1. @w"), ("a list's names end with the body", 33, "main = (let ((x, y), z) = zero in x) @y"),
    ("2,049 nodes by a list's variable", 34, "d{0} = zero d{n + 1} = d{n} d{n} main = let (@(x, y), z) = fix w : 1. d{10} in x"),
    ("edition 3", 32, "edition @3 main = zero"), ("edition behind", 32, "main = zero @edition 2"), ("a type's =", 32, "type t @zero"),
    ("no parameter", 32, "f[@] = zero"), ("no number", 32, "f{@} = zero"), ("a sum of names", 32, "f{n + @n} = zero"),
    ("two = in a row", 32, "d = e @= zero"), ("a head in parentheses", 32, "main = (zero @d{n} = one)"),
    ("numbers before types", 32, "d{n}@[a] = zero"), ("a number as a term", 32, "main = zero @1"),
    ("no number of bits", 32, "main = fun x : 1^@. x"), ("a row of pairs", 32, "main = fun x : (1 * 1)@^2. x"),
    ("a row of a type's name", 32, "type t = 1 main = fun x : t@^2. x"), ("a row of rows", 32, "main = fun x : 1^2@^2. x"),
    ("2 in a row", 32, "main = fun x : @2^2. x"), ("a number of bits in parentheses", 32, "main = fun x : 1^@(2). x"),
    ("a row is no term", 32, "main = zero @^ 2"),
    ("no bits", 33, "main = fun x : 1^@0. x"), ("no bits by a parameter", 33, "d{n} = fun x : 1^@n. x main = d{0}"),
    ("no such number of bits", 33, "main = fun x : 1^@n. x"), ("a type is no number of bits", 33, "d[a] = fun x : 1^@a. x main = d[1]"),
    ("a sum of bits above 255", 34, "d{n} = fun x : 1^@n + 255. x main = d{1}"),
    ("129 bits in a row", 34, "table 1@^129 main = zero"), ("more than 255 in a row", 34, "table 1^@256 main = zero"),
    ("unknown", 33, "main = @x"), ("no main", 33, "d = zero@"), ("no text", 33, "@"), ("main with a parameter", 33, "main[a] = zero@"),
    ("no number given", 33, "d{n} = zero main = @d"), ("no clause fits", 33, "d{1} = zero main = @d{0}"),
    ("one type too many", 33, "d[a] = zero main = @d[1, 1]"), ("no such type", 33, "main = fun x : @t. x"),
    ("a term is no type", 33, "t = zero main = fun x : @t. x"), ("arguments first", 33, "d{n} = e{@m} main = d{1}"),
    ("below", 33, "d = @e e = zero main = zero"), ("itself", 33, "main = @main"), ("itself, by type", 33, "d[a] = @d[a] main = d[1]"),
    ("judged before main", 33, "d = @x main = y"), ("table lines first", 33, "d = y table @t main = zero"),
    ("a table line knows what is above it", 33, "table @t type t = 1 main = zero"),
    ("a variable of the place", 33, "d[a] = @x main = fun x : 1. d[1]"), ("a variable takes no arguments", 33, "main = fun x : 1. @x[1]"),
    ("a number is no variable", 33, "d{n} = @n main = d{1}"),
    ("a circuit in a product", 35, "main = fun x : (1 -> 1) @* 1. x"), ("on its right", 35, "main = fun x : 1 @* (1 -> 1). x"),
    ("a bit left of -o", 35, "main = fun x : 1 @-o 1. x"), ("a circuit left of ->", 35, "main = fun x : (1 -> 1) @-> 1. x"),
    ("in a type that nobody names", 35, "type t = (1 -> 1) @* 1 main = zero"),
    ("by a parameter", 35, "type k[a] = a @* a main = fun x : k[1 -> 1]. x"),
    ("defined above", 36, "d = zero @d = one"), ("covered by n", 36, "d{n} = zero @d{3} = one"),
    ("covered by n + 1", 36, "d{n + 1} = zero @d{n + 2} = one"), ("the same number", 36, "d{1} = zero d{2} = one @d{1} = one"),
    ("covered in both", 36, "d{n, 1} = zero @d{2, 1} = one"), ("other parameters", 36, "d[a] = zero @d = one"),
    ("a type defined above", 36, "type t = 1 type @t = 1"), ("36 when the clause is read", 32, "d = zero d = @= one"),
    ("a sum above 255", 34, "e{n} = zero d{n} = e{@n + 1} main = d{255}"),
    ("81 levels by definitions", 34, "d{0} = @zero d{n + 1} = d{n} main = d{79}"),
    ("2,049 nodes", 34, "d{0} = zero d{n + 1} = d{n} d{n} main = fix @x : 1. fix y : 1. d{10}"),
    ("129 bits written", 34, "type r{0} = 1 type r{n + 1} = r{n} @* r{n} main = fun x : r{8}. x"),
    ("256 bits of a function", 34, "type r{0} = 1 type r{n + 1} = r{n} * r{n} main = fun @x : r{7}. x"),
];

/// Texts that are made; what is asked of them is that they are.
pub fn within_the_limits() -> Vec<(&'static str, String)> {
    vec![
        ("80 levels by definitions", "d{0} = zero d{n + 1} = d{n} main = d{78}".into()),
        ("80 levels of parentheses", parentheses(79)),
        ("80 levels of a type", sides(80, "")),
        ("64 deep", deep(63)),
        ("2,048 nodes", "d{0} = zero d{n + 1} = d{n} d{n} main = fix x : 1. d{10}".into()),
        ("128 bits", "type r{0} = 1 type r{n + 1} = r{n} * r{n} main = fun x : r{6}. x".into()),
        ("128 bits in a row", "table 1^128 main = zero".into()),
        ("256 types", types("")),
        ("256 clauses", clauses(255)),
        ("1,024 arguments", arguments(1_024, "zero")),
        ("1,024 names", arguments(1_022, "fun x y : 1. x")),
        ("1,024 names with a pair's", arguments(1_020, "let (x, y) = zero in x")),
        ("80 levels of lists that are read", unmade(79).into()),
        ("80 levels by the lists of let", lists(40, "let ", 38, " = zero in zero")),
        ("80 levels by the lists of fun", lists(40, "fun ", 37, " : 1. zero")),
        ("1,024 names with those of lists in let", arguments(1_018, "let ((x, y), z) = zero in x")),
        ("1,024 names with those of lists in fun", arguments(1_017, "fun ((x, y), z) : 1. x")),
        ("a cost of 32,767", costs("", 11)),
        ("a clause of 31 bytes", costs("", 31)),
        ("a number of 255", "e{n} = zero d{n} = e{n + 1} main = d{254}".into()),
        ("65,535 bytes", format!("main = zero{}", " ".repeat(65_535 - 11))),
    ]
}

fn passed() -> Vec<(&'static str, usize, String)> {
    vec![
        ("81 levels of parentheses", 34, parentheses(80).replace("zero", "@zero")),
        ("81 levels of a type", 34, sides(81, "@")),
        ("65 deep: at the outermost", 34, deep(64).replacen('x', "@x", 1)),
        ("257 types", 34, types(&format!("table 1 @* {} ", bits(16)))),
        ("257 types by a row", 34, types("table 1@^17 ")),
        ("257 clauses", 34, clauses(256).replace("main", "@main")),
        ("1,025 arguments", 34, arguments(1_025, "zero").replace("main = f", "main = @f")),
        ("1,025 names", 34, arguments(1_022, "@fun x y z : 1. x")),
        ("1,025 names with a pair's", 34, arguments(1_021, "@let (x, y) = zero in x")),
        ("81 levels of lists that are read", 34, marked(unmade(80), 81)),
        ("81 levels by the lists of let", 34, marked(lists(40, "let ", 39, " = zero in zero"), 80)),
        ("81 levels by the lists of fun", 34, marked(lists(40, "fun ", 38, " : 1. zero"), 79)),
        ("81 levels by the only list of fun", 34, marked(lists(78, "fun ", 0, " : 1. zero"), 79)),
        (
            "1,025 names with those of a list in let",
            34,
            arguments(1_019, "let (@(x, y), z) = zero in x"),
        ),
        (
            "1,025 names with those of the list of let",
            34,
            arguments(1_021, "@let ((x, y), z) = zero in x"),
        ),
        (
            "1,025 names with those of a list in fun",
            34,
            arguments(1_018, "fun (@(x, y), z) : 1. x"),
        ),
        (
            "1,025 names with those of the list of fun",
            34,
            arguments(1_020, "fun @((x, y), z) : 1. x"),
        ),
        ("a cost of 32,768", 34, costs(", f{0}", 11) + "@"),
        ("a clause of 32 bytes", 34, costs("", 32) + "@"),
        ("65,536 bytes", 30, format!("@main = zero{}", " ".repeat(65_536 - 11))),
    ]
}

fn parentheses(times: usize) -> String {
    format!("main = {}zero{}", "(".repeat(times), ")".repeat(times))
}

/// So many lists in one another, in a list.
fn in_a_list(inner: usize) -> String {
    format!("{}x, y){}", "(".repeat(inner + 1), ", z)".repeat(inner))
}

/// A term in so many parentheses that takes so many lists in a list apart. In p parentheses it stands at level p + 1; of `let` the list
/// number n within its list is taken apart at level p + 1 + n, and its variable stands one below; of `fun` one more.
fn lists(parentheses: usize, open: &str, inner: usize, behind: &str) -> String {
    let (before, after) = ("(".repeat(parentheses), ")".repeat(parentheses));
    format!("main = {before}{open}{}{behind}{after}", in_a_list(inner))
}

/// A clause that is read, and not made.
fn unmade(inner: usize) -> String {
    format!("d{{n}} = let {} = zero in zero main = zero", in_a_list(inner))
}

/// A mark before an opening parenthesis, by its number from 1 on.
fn marked(text: String, number: usize) -> String {
    let (at, _) = text.match_indices('(').nth(number - 1).expect("so many parentheses");
    format!("{}@{}", &text[..at], &text[at..])
}

fn bits(count: usize) -> String {
    vec!["1"; count].join(" * ")
}

/// A clause's type is at level 1, and each right side one below; a mark before the last 1.
fn sides(levels: usize, mark: &str) -> String {
    format!("type t = {} * {mark}1 main = zero", bits(levels - 1))
}

fn deep(functions: usize) -> String {
    format!("main = {}zero", "fun x : 1. ".repeat(functions))
}

/// 16 rows of bits, and the 240 products of a row of two or more with any: 256 types; then more lines.
fn types(more: &str) -> String {
    let mut text = String::new();
    for left in 2..=16 {
        for right in 1..=16 {
            text += &format!("table ({}) * {} ", bits(left), bits(right));
        }
    }
    text + more + "main = zero"
}

fn clauses(before_main: usize) -> String {
    let types: Vec<String> =
        (0..before_main).map(|number| format!("type t{number} = 1 ")).collect();
    types.concat() + "main = zero"
}

fn arguments(count: usize, body: &str) -> String {
    let names: Vec<String> = (0..count).map(|number| format!("a{number}")).collect();
    format!("f[{}] = {body} main = f[{}]", names.join(","), vec!["1"; count].join(","))
}

/// f{n} costs 3 times 2 to the n, less 2: 24,574 + 6,142 + 1,534 + 382 + 94 + 22 + 10 + 4 + 4 = 32,766. `main` costs 1
/// more, and 2 if its clause has 32 bytes.
fn costs(more: &str, bytes_of_main: usize) -> String {
    let rows = "f{13}, f{11}, f{9}, f{7}, f{5}, f{3}, f{2}, f{1}, f{1}";
    let main = format!("{:bytes_of_main$}", "main = zero");
    format!("type z[a] = 1 type f{{0}} = 1 type f{{n + 1}} = z[f{{n}} * f{{n}}] table {rows}{more} {main}")
}

pub fn edges() -> Vec<TextEdge> {
    let made = MADE.iter().map(|&(name, text, sheet, places)| TextEdge {
        name: name.to_string(),
        text: text.into(),
        answer: Ok((hex(sheet), places.to_vec())),
    });
    let short = REFUSED.iter().map(|&(name, number, text)| (name, number, text.to_string()));
    let all = made.chain(short.chain(passed()).map(refused));
    all.chain(by_one_number()).chain(by_one_letter()).collect()
}

/// Two clauses of 40 numbers that differ in one of them, wherever it stands: the second is meant, or none.
fn by_one_number() -> Vec<TextEdge> {
    let list = |others: &str, at: usize, one: &str| {
        let one_of = |number: usize| if number == at { one } else { others }.to_string();
        (0..40).map(one_of).collect::<Vec<String>>().join(", ")
    };
    let text = |at: usize, given: &str| {
        let [first, second] = ["5", "m + 7"].map(|one| list("n", at, one));
        format!("d{{{first}}} = zero d{{{second}}} = one main = @d{{{}}}", list("0", at, given))
    };
    let meant = |at: usize| {
        let text = text(at, "7").replacen('@', "", 1);
        let place = text.find("one").expect("the second body");
        let answer = Ok((hex("01 1A0600"), vec![place]));
        TextEdge { name: format!("number {at} of 40 tells"), text: text.into(), answer }
    };
    let places = [0, 1, 25, 26, 27, 28, 39];
    let none = |&at: &usize| refused((&format!("number {at} of 40 fits none"), 33, text(at, "6")));
    places.iter().map(|&at| meant(at)).chain(places.iter().map(none)).collect()
}

/// Parameters that differ from the last one in one letter, or go on behind it: the last one is meant.
fn by_one_letter() -> Vec<TextEdge> {
    let tells = |long: usize| {
        let last = "b".repeat(long);
        let mut names: Vec<String> = (0..long)
            .map(|at| format!("{}a{}", "b".repeat(at), "b".repeat(long - at - 1)))
            .collect();
        names.extend([format!("{last}b"), format!("{last}'"), format!("{last}0"), last.clone()]);
        let types = "1, ".repeat(names.len() - 1);
        let head = format!("type f[{}] = {last} main = fun ", names.join(", "));
        let text = format!("{head}x : f[{types}1 * 1]. x");
        let places = vec![head.len(), text.len() - 1];
        let answer = Ok((hex("01 020000 030101 1302 1100"), places));
        TextEdge { name: format!("a name of {long} letters"), text: text.into(), answer }
    };
    (1..=20).map(tells).collect()
}

fn refused((name, number, marked): (&str, usize, String)) -> TextEdge {
    let place = marked.find('@').expect("a mark at the place");
    let text = marked.replacen('@', "", 1).into_bytes();
    TextEdge { name: name.to_string(), text, answer: Err((number, place)) }
}
