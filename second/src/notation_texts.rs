//! Texts in the notation with parameters, generated: whole ones from shapes, ones near a limit, and damaged ones.
//! No sentence of a document says what they shall be; they are for comparing programs.

use crate::random::Random;

const PARTS: [&str; 7] = ["zero", "reg", "and", "or", "xor", "inv", "one"];
const VARIABLES: [&str; 7] = ["x", "y", "z", "p", "n", "f", "_"];

/// Clauses that a text may begin with, and uses of what they define.
#[rustfmt::skip]
const SHAPES: [(&str, &[&str], &[&str]); 13] = [
    ("type row{0} = 1\ntype row{n + 1} = row{n} * row{n}", &[], &["row{0}", "row{1}", "row{3}", "row{7}", "row{8}", "row{n}"]),
    ("type k[a] = a * a\ntype two[a, b] = (a * b)", &[], &["k[1]", "k[k[1]]", "two[1, k[1]]", "two[1, 1 -> 1]", "k", "two[1]"]),
    ("type bus{n + 2} = 1 * bus{n + 1}\ntype bus{1} = 1", &[], &["bus{1}", "bus{4}", "bus{0}", "bus{127}", "bus{90}"]),
    ("type bits{n} = 1^n\nwires{n} = fun x : 1^n + 1. x", &["wires{0}", "wires{3}", "wires{63}", "wires{64}", "wires{255}"], &["bits{1}", "bits{5}", "bits{0}", "bits{128}", "1^n", "1^2 * bits{2}"]),
    ("delay{0} = fun x : 1. x\ndelay{n + 1} = fun x : 1. reg (delay{n} x)", &["delay{0}", "delay{2}", "delay{16}", "delay{n}", "delay"], &[]),
    ("both[a, b] = fun f g : a -> b. fun p : a * a. let (x, y) = p in (f x, g y)", &["both[1, 1] inv reg", "both[1, 1]", "both[1 * 1, 1]", "both[1 -> 1, 1]", "both[1]"], &[]),
    ("id[a] = fun x : a. x", &["id[1]", "id[1 -> 1] inv", "id[1 * 1] (one, zero)", "id[(1 -> 1) -o 1]", "id"], &[]),
    ("taps{1} = fun x : 1. reg x\ntaps{n + 2} = fun x : 1. let y = reg x in (y, taps{n + 1} y)", &["taps{1}", "taps{3}", "taps{9}", "taps{0}"], &[]),
    ("sticky = fun set : 1. fix s : 1. or (set, reg s)", &["sticky", "sticky one"], &[]),
    ("sum{0, m} = zero sum{n + 1, m} = xor (sum{n, m}, sum{n, m + 1})", &["sum{0, 3}", "sum{3, 1}", "sum{6, 250}", "sum{2}"], &[]),
    ("type r = 1 * 1\ntype s = r -> r", &[], &["r", "s", "r -o s", "s -o r", "s * r"]),
    ("pick[a]{0} = fun x : a. x pick[a]{n + 1} = fun x : a * a. let (y, z) = x in pick[a]{n} y", &["pick[1]{0}", "pick[1]{1}", "pick[1]{2}", "pick{1}", "pick[1]"], &[]),
    ("last{255} = one last{n} = last{n + 1}", &["last{255}", "last{250}", "last{190}", "last{170}"], &[]),
];

/// What a term under way may name.
#[derive(Clone, Default)]
struct Known {
    variables: Vec<&'static str>,
    terms: Vec<String>,
    types: Vec<String>,
}

/// A text of any sort, whole or damaged.
pub fn any(random: &mut Random, index: usize) -> Vec<u8> {
    match index % 10 {
        0..=4 => whole(random).into_bytes(),
        5 => near(random).into_bytes(),
        6 => damaged(random, near_or_whole).0,
        _ => damaged(random, whole).0,
    }
}

fn near_or_whole(random: &mut Random) -> String {
    match random.once_in(4) {
        true => near(random),
        false => whole(random),
    }
}

/// A text from shapes: clauses, `table` lines, definitions, `main`.
pub fn whole(random: &mut Random) -> String {
    let mut known = Known::default();
    let mut text =
        random.pick(&["", "", "edition 1\n", "edition 2\n", "edition 2 -- of two\n"]).to_string();
    for _ in 0..random.below(4) {
        text += &shape(random, &mut known);
    }
    for _ in 0..random.below(4) {
        text += &item(random, &mut known);
    }
    let main = term(random, &mut known, 4);
    text + &format!("main = {main}{}", random.pick(&["", "\n", " -- the end"]))
}

fn shape(random: &mut Random, known: &mut Known) -> String {
    let (clauses, terms, types) = *random.pick(&SHAPES);
    known.terms.extend(terms.iter().map(|one| one.to_string()));
    known.types.extend(types.iter().map(|one| one.to_string()));
    format!("{clauses}\n")
}

fn item(random: &mut Random, known: &mut Known) -> String {
    let name = format!("d{}", random.below(9));
    match random.below(8) {
        0 => format!("table {}, {}\n", written(random, known, 2), written(random, known, 1)),
        1 => {
            let line = format!("type {name} = {}\n", written(random, known, 3));
            known.types.push(name);
            line
        }
        2 => {
            let clauses = family(random, known, &name);
            known.terms.push(format!("{name}{{{}}}", random.below(5)));
            clauses
        }
        3 => {
            let with = Known {
                types: [known.types.clone(), vec!["a".into(); 3]].concat(),
                ..known.clone()
            };
            let line = format!("{name}[a] = {}\n", term(random, &mut with.clone(), 3));
            known.terms.push(format!("{name}[{}]", written(random, known, 1)));
            line
        }
        _ => {
            let line = format!("{name} = {}\n", term(random, known, 3));
            known.terms.push(name);
            line
        }
    }
}

/// Two clauses by number, in either order, with a gap or covered now and then.
fn family(random: &mut Random, known: &Known, name: &str) -> String {
    let base = random.below(3);
    let step = base + random.pick(&[1, 1, 1, 0, 2]);
    let mut inside = known.clone();
    let first = format!("{name}{{{base}}} = {}\n", term(random, &mut inside, 2));
    inside.terms.extend(vec![format!("{name}{{n}}"); 4]);
    let second = format!("{name}{{n + {step}}} = {}\n", term(random, &mut inside, 2));
    match random.once_in(4) {
        true => second + &first,
        false => first + &second,
    }
}

fn written(random: &mut Random, known: &Known, size: usize) -> String {
    if size == 0 || random.once_in(3) {
        return match random.below(3) {
            0 if !known.types.is_empty() => random.pick(&known.types).clone(),
            1 if random.once_in(4) => format!("1^{}", random.pick(&["1", "2", "3", "n", "n + 1"])),
            _ => "1".to_string(),
        };
    }
    let (left, right) = (written(random, known, size - 1), written(random, known, size - 1));
    match random.below(6) {
        0 => format!("({left}) * {right}"),
        1 => format!("{left} × {right}"),
        2 => format!("({left}) -o {right}"),
        3 => format!("({left} -> {right})"),
        4 => format!("({left}) → {right}"),
        _ => format!("{left} -> {right}"),
    }
}

fn term(random: &mut Random, known: &mut Known, size: usize) -> String {
    if size == 0 {
        return atom(random, known, 0);
    }
    let before = known.variables.len();
    let made = match random.below(9) {
        0 | 1 => function(random, known, size),
        2 => {
            let bound = written(random, known, 1);
            let name = bind(random, known);
            format!("fix {name} : {bound}. {}", term(random, known, size - 1))
        }
        3 => {
            let named = term(random, known, size - 1);
            let name = bind(random, known);
            format!("let {name} = {named} in {}", term(random, known, size - 1))
        }
        4 => {
            let pair = term(random, known, size - 1);
            let (list, fitting) = list(random, known, 4);
            let pair = match random.once_in(3) {
                true => format!("(fix x : {fitting}. {})", atom(random, known, 0)),
                false => pair,
            };
            format!("let {list} = {pair} in {}", term(random, known, size - 1))
        }
        _ => {
            let atoms: Vec<String> =
                (0..random.within(1, 3)).map(|_| atom(random, known, size - 1)).collect();
            atoms.join(" ")
        }
    };
    known.variables.truncate(before);
    made
}

fn function(random: &mut Random, known: &mut Known, size: usize) -> String {
    let sign = random.pick(&["fun ", "λ", "fun "]);
    let bound = written(random, known, 2);
    if random.below(3) == 0 {
        let (list, fitting) = list(random, known, 3);
        let bound = if random.once_in(2) { fitting } else { bound };
        let body = term(random, known, size - 1);
        return format!("{sign}{list} : {bound}. {body}");
    }
    let names: Vec<&str> = (0..random.within(1, 2)).map(|_| bind(random, known)).collect();
    format!("{sign}{} : {bound}. {}", names.join(" "), term(random, known, size - 1))
}

/// Up to so many members, lists among them, in four levels at most; and a type that can be taken apart so.
fn list(random: &mut Random, known: &mut Known, levels: usize) -> (String, String) {
    let (mut members, mut types) = (Vec::new(), Vec::new());
    for _ in 0..random.within(2, levels.max(2)) {
        let (member, fitting) = match levels > 1 && random.once_in(5) {
            true => list(random, known, levels - 1),
            false => (bind(random, known).to_string(), random.pick(&["1", "1", "1^2"]).to_string()),
        };
        members.push(member);
        types.push(fitting);
    }
    (format!("({})", members.join(", ")), format!("({})", types.join(" * ")))
}

fn bind(random: &mut Random, known: &mut Known) -> &'static str {
    let name = *random.pick(&VARIABLES);
    known.variables.push(name);
    name
}

fn atom(random: &mut Random, known: &mut Known, size: usize) -> String {
    match random.below(12) {
        0..=3 if !known.variables.is_empty() => random.pick(&known.variables).to_string(),
        4..=5 if !known.terms.is_empty() => random.pick(&known.terms).clone(),
        6..=8 if size > 0 => {
            let row: Vec<String> =
                (0..random.within(1, 3)).map(|_| term(random, known, size - 1)).collect();
            format!("({})", row.join(", "))
        }
        9 if random.once_in(30) => "nobody".to_string(),
        _ => random.pick(&PARTS).to_string(),
    }
}

/// Where a limit lies: so many of a thing, from two under it to two above it.
fn about(random: &mut Random, limit: usize) -> usize {
    random.within(limit - 2, limit + 2)
}

/// A text in which one thing is near its limit.
pub fn near(random: &mut Random) -> String {
    match random.below(33) {
        0 => nested(about(random, 79), "(", "zero", ")"),
        1 => nested(about(random, 63), "fun x : 1. ", "x", ""),
        2 => nested(about(random, 31), "inv (", "zero", ")"),
        3 => nested(about(random, 79), "let x = zero in ", "x", ""),
        4 => format!("main = fun x : {}. x", row(about(random, 80), "1", " -> ")),
        5 => format!("main = fun x : {}. x", row(about(random, 80), "1", " * ")),
        6 => format!("type t = {}1{} main = zero", "(".repeat(about_half(random)), ")".repeat(40)),
        7 => chain(about(random, 79)),
        8 => format!("d{{0}} = zero d{{n + 1}} = d{{n}} main = d{{{}}}", about(random, 79)),
        9 => format!("d{{0}} = zero d{{n + 1}} = (d{{n}}) main = d{{{}}}", about(random, 39)),
        10 => doubling(random),
        11 => format!(
            "f[{}] = zero main = f[{}]",
            names(random, 1_024),
            row(about(random, 1_024), "1", ",")
        ),
        12 => matched_arguments(about(random, 1_022)),
        13 => clauses(about(random, 256)),
        14 => many_nodes(random),
        15 => many_types(random),
        16 => format!("main = fun x : 1. f{{{}}} f{{n}} = zero", about(random, 255)),
        17 => format!("f{{n}} = g{{n + {}}} g{{n}} = one main = f{{5}}", about(random, 250)),
        18 => format!("g{{n}} = one f{{n}} = g{{n + {}}} main = f{{5}}", about(random, 250)),
        19 => wide_type(random),
        20 => format!("main = zero{}", " ".repeat(about(random, 65_535 - 11))),
        21 => arguments_around(random),
        22 => waiting(random),
        23 => random.pick(&ODD).to_string(),
        24 => format!("d = zero main = {}d", "(".repeat(about(random, 78))),
        25 => clause_bytes(random),
        26 => deep_types(random),
        27 => wide_row(random),
        28..=30 => deep_lists(random),
        31 => list_nodes(random),
        _ => format!("main = {}", row(about(random, 64), "inv", " ")),
    }
}

/// Lists in one another or beside one another, near the levels in which they are read or taken apart, in a clause that is made or not.
fn deep_lists(random: &mut Random) -> String {
    let around = *random.pick(&[0, 0, 17, 39, 40, 41, 60, 76, 77, 78, 79]);
    let lists = match around {
        0 if random.once_in(2) => about(random, 79),
        0 => about(random, 62),
        _ => (80_usize.saturating_sub(around) + random.below(5)).saturating_sub(4).max(1),
    };
    let list = match random.below(4) {
        0 => format!("({}x, y)", "(p, n), ".repeat(lists)),
        1 => format!("{}x, y{}", "(_, ".repeat(lists) + "(", ")".repeat(lists + 1)),
        2 => {
            let (left, right) = (lists / 2, lists - lists / 2);
            let side = |deep: usize| {
                format!("{}x, y){}", "(".repeat(deep), ", z)".repeat(deep.max(1) - 1))
            };
            format!("({}, {})", side(left.max(1)), side(right))
        }
        _ => format!("{}x, y){}", "(".repeat(lists + 1), ", z)".repeat(lists)),
    };
    let body = random.pick(&["x", "y", "d{0}", "(x, y)", "d{2}"]);
    let term = match random.once_in(2) {
        true => format!("let {list} = {} in {body}", random.pick(&["zero", "(zero, one)", "inv"])),
        false => format!("fun {list} : {}. {body}", random.pick(&["1", "1^3", "1 -> 1"])),
    };
    let (before, after) = ("(".repeat(around), ")".repeat(around));
    let head = random.pick(&["main", "main", "e{n}", "e{n} = zero main"]);
    format!(
        "d{{0}} = zero d{{n + 1}} = (d{{n}}) {head} = {before}{term}{after}{}",
        random.pick(&["", " main = one"])
    )
}

/// Near 2,048 nodes where lists are taken apart.
fn list_nodes(random: &mut Random) -> String {
    let list = random.pick(&[
        "((x, y), z)",
        "(x, (y, z), p)",
        "(x, y, (z, p))",
        "((x, _), (_, z))",
        "(((x, y), z), _)",
    ]);
    let fixes = "fix f : 1. ".repeat(random.below(4));
    let value = random.pick(&["d{10}", "(d{9}, d{9})", "d{9} d{9}"]);
    let body = random.pick(&["x", "(x, z)", "z", "_"]);
    format!(
        "d{{0}} = zero d{{n + 1}} = d{{n}} d{{n}}\nmain = let {list} = {fixes}{value} in {body}"
    )
}

fn about_half(random: &mut Random) -> usize {
    *random.pick(&[40, 40, 40, 39, 41, 80])
}

fn nested(times: usize, open: &str, inside: &str, close: &str) -> String {
    format!("main = {}{inside}{}", open.repeat(times), close.repeat(times))
}

fn row(times: usize, one: &str, between: &str) -> String {
    vec![one; times].join(between)
}

fn names(random: &mut Random, limit: usize) -> String {
    let count = about(random, limit);
    (0..count).map(|number| format!("a{number}")).collect::<Vec<String>>().join(",")
}

/// As many parameters as arguments, and a binder more in the body.
fn matched_arguments(count: usize) -> String {
    let parameters: Vec<String> = (0..count).map(|number| format!("a{number}")).collect();
    format!(
        "f[{}] = fun x : 1. fun y : a0. x\nmain = f[{}]",
        parameters.join(","),
        row(count, "1", ",")
    )
}

/// Parameters, and a body that binds up to four names at once or one by one.
fn arguments_around(random: &mut Random) -> String {
    let count = random.within(1_012, 1_024);
    let parameters: Vec<String> = (0..count).map(|number| format!("a{number}")).collect();
    let body = random.pick(&[
        "let (x, y) = one in x",
        "let (x, y, z) = one in let (p, n) = z in p",
        "let x = one in let (y, z, p, n) = x in n",
        "fix x : 1. fun y z : a3. x",
        "fun (x, y, z) : a3. let n = x in y",
        "let ((x, y), z) = one in y",
        "fun ((x, y), z) : a3. let n = x in y",
        "fun (x, (y, z), (p, n)) : a3. let (x, (y, n)) = p in n",
        "fun x : g[1, a1, 1]. x",
        "h{1, 2, 3} (fun x y : a1. h{1, 2, 3})",
    ]);
    let names = parameters.join(",");
    format!(
        "type g[a, b, c] = b h{{n, 2, m}} = zero f[{names}] = {body}\nmain = f[{}]",
        row(count, "1", ",")
    )
}

/// Arguments of arguments, each over those before it.
fn waiting(random: &mut Random) -> String {
    let parameters: Vec<String> = (0..120).map(|number| format!("a{number}")).collect();
    let levels = random.within(7, 10);
    let argument = (0..levels).fold("1".to_string(), |inner, _| {
        let before = row(random.within(115, 119), "1", ",");
        let given = before.matches('1').count() + 1;
        format!("f[{before},{inner}{}]", ",1".repeat(120 - given))
    });
    format!("type f[{}] = a7 main = fun x : {argument}. x", parameters.join(","))
}

/// Clauses whose bytes are near a multiple of 32, named often enough to pass the limit or not.
fn clause_bytes(random: &mut Random) -> String {
    let pad = " ".repeat(random.within(0, 70));
    let times = random.within(100, 330);
    let uses = row(times, "e", ",");
    format!(
        "type e = 1{pad}type k[{}] = 1 d{{n}} = fun x : k[{uses}]. x{pad} main = {}",
        "a,".repeat(times - 1) + "a",
        nest(random)
    )
}

fn nest(random: &mut Random) -> String {
    let count = random.within(1, 50);
    format!("let x = ({}) in x", row(count, "d{3}", ") ("))
}

/// Types that name types, each a level more, in parentheses or not.
fn deep_types(random: &mut Random) -> String {
    let inside = random.pick(&["t{n}", "(t{n})", "1 -> t{n}", "k[t{n}]", "k[1] * t{n}"]);
    let times = *random.pick(&[25, 26, 27, 38, 39, 40, 41, 77, 78, 79, 80]);
    format!(
        "type k[a] = a type t{{0}} = 1 type t{{n + 1}} = {inside} main = fun x : t{{{times}}}. x"
    )
}

/// Texts at the corners of the grammar.
#[rustfmt::skip]
const ODD: [&str; 36] = [
    "main = fun ((x, y)) : 1. x", "main = let () = one in x", "main = let ((), x) = one in x", "main = fun (x, (y)) : 1. x", "main = fun ((x, y), z : 1. x",
    "main = let ((x, y), z) one in x", "main = fun ((x, y), z) (p, n) : 1. x", "main = fun (((x, x), x), x) : ((1 * 1^2) * 1^3) * 1^4. x",
    "", "main", "main = zero edition 1", "edition 01 main = fun x : 01. x", "main = zero x[ = one", "main = zero x[y{] = one",
    "main = zero x[y][z] = one", "main = zero x{y}[z] = one", "main = zero x{y}{z}{1} = one", "main = zero x] = one", "d = e = zero",
    "d[a, a]{n, n} = fun x : a. e{n} main = zero", "e{n} = zero d[a, a]{n, n} = fun x : a. e{n + 250} main = d[1, 1 * 1]{5, 7}",
    "main = main", "main{0} = zero main{n} = one", "type main = 1", "main = zero main = one", "main[a] = zero main = one",
    "type n = 1 d{n} = fun n : n. n main = d{3}", "type a = 1 * 1 d[a] = fun a : a. a main = d[1] (d[a])",
    "d{n} = zero d{255} = one main = zero", "d{255} = zero d{n + 255} = one main = d{255}", "table 1, main = zero", "type t = 1 -> 1 * 1 -o 1 main = zero",
    "type t{n} = 1^n + 1 type u = 1^2 * 1^2 main = fun x : t{1} -> u. x", "type t = 1^2^2 main = zero", "main = fun x : 1^0. x", "main = fun x : 1^1 * 01^02. x",
];

/// Each definition names the one above it.
fn chain(times: usize) -> String {
    let mut text = "d0 = zero\n".to_string();
    for number in 1..times {
        text += &format!("d{number} = d{}\n", number - 1);
    }
    text + &format!("main = d{}", times - 1)
}

/// Costs near 32,767: types that double, with a comment that makes each put-in cost more.
fn doubling(random: &mut Random) -> String {
    let comment = "-".repeat(random.within(2, 70));
    let depth = random.within(10, 15);
    format!(
        "type k[a] = 1 type d{{0}} = 1 {comment}\ntype d{{n + 1}} = k[d{{n}} * d{{n}}]\nmain = fun x : d{{{depth}}}. fun y : d{{{}}}. x",
        random.below(depth)
    )
}

fn clauses(times: usize) -> String {
    let mut text = String::new();
    for number in 0..times - 1 {
        text += &format!("type t{number} = 1\n");
    }
    text + "main = zero"
}

/// Near 2,048 nodes: d{k} has 2 to the k + 1, less 1, and each `fix` one more.
fn many_nodes(random: &mut Random) -> String {
    let fixes = "fix x : 1. ".repeat(random.below(4));
    let body = random.pick(&[
        "d{10}",
        "(d{9}, d{9})",
        "let x = d{9} in d{9}",
        "let (x, y) = d{9} in d{9}",
        "let ((x, y), z) = d{9} in d{9}",
        "inv d{9} d{9}",
    ]);
    format!("d{{0}} = zero d{{n + 1}} = d{{n}} d{{n}}\nmain = {fixes}{body}")
}

/// 16 rows of bits, and a product of two of them for each number: 240 make 256 types.
fn many_types(random: &mut Random) -> String {
    let times = about(random, 239);
    let products = (2..=16).flat_map(|left| (1..=16).map(move |right| (left, right)));
    let lines: Vec<String> = products
        .take(times)
        .map(|(left, right)| format!("table {} * {}\n", bits(left), bits(right)))
        .collect();
    let main = random.pick(&[
        "main = zero",
        "main = inv",
        "main = fun x : 1. or x",
        "main = (one, inv, zero)",
    ]);
    lines.concat() + main
}

fn bits(count: usize) -> String {
    format!("({})", row(count, "1", "*"))
}

fn wide_type(random: &mut Random) -> String {
    let more = random.pick(&["", " * 1", " -> 1", " -o 1"]);
    let body = random.pick(&["x", "zero", "(x, one)", "inv"]);
    format!(
        "type r{{0}} = 1 type r{{n + 1}} = r{{n}} * r{{n}}\nmain = fun x : r{{{}}}{more}. {body}",
        random.within(5, 8)
    )
}

/// A row of bits near the 128 of a type, or near the types that are left.
fn wide_row(random: &mut Random) -> String {
    let more = random.pick(&["", " * 1", " -> 1", ", 1 * 1^127"]);
    match random.once_in(3) {
        true => many_types(random).replace("main", &format!("table 1^{} main", about(random, 17))),
        false => format!("table 1^{}{more} main = zero", about(random, 128)),
    }
}

/// A text with one to three places changed, and how many.
fn damaged(random: &mut Random, source: fn(&mut Random) -> String) -> (Vec<u8>, usize) {
    let mut text = source(random).into_bytes();
    let times = random.within(1, 3);
    for _ in 0..times {
        damage(random, &mut text);
    }
    (text, times)
}

const WORDS: [&str; 35] = [
    "fun", "fix", "let", "in", "type", "edition", "table", "and", "one", "x", "n", "main", "d1",
    "=", ":", ".", ",", "(", ")", "[", "]", "{", "}", "+", "*", "->", "-o", "1", "2", "0", "256",
    "07", "1a", "'q", "^",
];

fn damage(random: &mut Random, text: &mut Vec<u8>) {
    let at = random.below(text.len() + 1);
    let here = at.min(text.len().saturating_sub(1));
    match random.below(11) {
        0 => text.truncate(at),
        1 | 2 if text.contains(&b'(') => change_sign(random, text),
        3 if !text.is_empty() => drop(text.remove(here)),
        4 => text.insert(at, random.byte()),
        5 if !text.is_empty() => text[here] = random.byte(),
        6 if !text.is_empty() => text[here] = *random.pick(b"()[]{}=.,:+*^-> \n1n0x'_"),
        7 => repeat_stretch(random, text, at),
        8 => drop(text.drain(at..(at + random.below(12)).min(text.len()))),
        _ => put_word(random, text, at),
    }
}

/// A parenthesis or a comma that is dropped, doubled, or made another.
fn change_sign(random: &mut Random, text: &mut Vec<u8>) {
    let is_sign = |&at: &usize| b"(),".contains(&text[at]);
    let places: Vec<usize> = (0..text.len()).filter(is_sign).collect();
    let at = *random.pick(&places);
    match random.below(4) {
        0 => drop(text.remove(at)),
        1 => text.insert(at, text[at]),
        2 => text[at] = *random.pick(b"(), "),
        _ => {
            let words = *random.pick(&["(x, ", ", y)", "(_) ", "() ,"]);
            text.splice(at..at, words.bytes());
        }
    }
}

fn repeat_stretch(random: &mut Random, text: &mut Vec<u8>, at: usize) {
    let stretch = text[at..(at + random.below(40)).min(text.len())].to_vec();
    let to = random.below(text.len() + 1);
    text.splice(to..to, stretch);
}

/// A word where a blank stands, if one does behind the place.
fn put_word(random: &mut Random, text: &mut Vec<u8>, at: usize) {
    let blank =
        text[at..].iter().position(|&byte| byte == b' ').map_or(text.len(), |more| at + more);
    let word = format!(" {} ", random.pick(&WORDS));
    let end = if random.once_in(2) { (blank + 1 + random.below(4)).min(text.len()) } else { blank };
    text.splice(blank..end.max(blank), word.into_bytes());
}

/// Each text behind its length, four bytes, low byte first.
pub fn packed(texts: &[Vec<u8>]) -> Vec<u8> {
    let one = |text: &Vec<u8>| [&(text.len() as u32).to_le_bytes()[..], text].concat();
    texts.iter().flat_map(one).collect()
}

/// The texts again; nothing where the bytes are cut.
pub fn unpacked(mut bytes: &[u8]) -> Option<Vec<&[u8]>> {
    let mut texts = Vec::new();
    while let Some((length, rest)) = bytes.split_first_chunk() {
        let length = u32::from_le_bytes(*length) as usize;
        texts.push(rest.get(..length)?);
        bytes = &rest[length..];
    }
    bytes.is_empty().then_some(texts)
}
