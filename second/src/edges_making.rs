//! Document 01, "The full netlist" and "The lean netlist", P1 to P11, and section 3.1 of document
//! 000: accepted sheets with every feature, up to 8,192 terminals, and the next more.

use crate::edges_reading::Edge;
use crate::wide::*;
use crate::write::*;

/// P1 to P11 of document 01.
pub const KNOWN: [&str; 11] = [
    "01 1A 00 00",
    "01 03 00 00 13 01 11 00",
    "01 03 00 00 04 01 00 16 15 02 14 12 00 1A 00 00 1A 01 01",
    "01 19 00 11 00",
    "01 03 00 00 03 00 01 13 01 14 14 1A 02 02 11 00 11 00",
    "01 03 00 00 03 00 01 19 00 14 14 1A 02 02 1A 00 00 14 1A 01 01 11 00",
    "01 02 00 00 19 01 18 11 00 17 01 11 00 11 01",
    "01 03 00 00 04 01 00 15 02 14 12 00 14 12 00 1A 00 00",
    "01 03 00 00 04 01 00 15 02 1A 00 00",
    "",
    "01 14 1A 00 00 1A 00 00",
];

/// P8 to P11 are refused.
const KNOWN_REFUSED: [(usize, usize); 4] = [(13, 4), (14, 0), (3, 0), (12, 0)];

/// Section 3.1 of document 000 in its order: types, then the expression.
pub const PAPER: [(&str, &str); 10] = [
    ("identity", "01 030000 1301 1100"),
    ("x twice", "01 020000 030001 1302 1701 1100 1100"),
    ("x twice, of zero", "01 020000 030001 14 1302 1701 1100 1100 1A0000"),
    (
        "projection into and",
        "01 020000 030001 030000 030003 18 14 1302 1701 1100 1100 1A0000 14 14 1A0204 1101 1100",
    ),
    ("and x x, of zero", "01 030000 030001 14 1301 14 14 1A0202 1100 1100 1A0000"),
    ("and zero zero", "01 030000 030001 14 14 1A0202 1A0000 1A0000"),
    ("linear identity", "01 030000 040101 1502 1200"),
    ("f zero", "01 030000 040100 1502 14 1200 1A0000"),
    ("f zero, of reg", "01 030000 040100 16 1502 14 1200 1A0000 1A0101"),
    ("fix of and zero, reg x", "01 030000 030001 1900 14 14 1A0202 1A0000 14 1A0101 1100"),
];

pub fn known() -> Vec<Edge> {
    KNOWN
        .iter()
        .enumerate()
        .map(|(index, text)| {
            let refused = index.checked_sub(7).map(|at| KNOWN_REFUSED[at]);
            Edge::new(&format!("P{}", index + 1), hex(text), refused)
        })
        .collect()
}

fn small() -> Vec<Edge> {
    let mut edges = known();
    for (name, text) in PAPER {
        edges.push(Edge::new(name, hex(text), None));
    }
    let mut add = |name: &str, sheet: Bytes| edges.push(Edge::new(name, sheet, None));
    for (name, (types, term)) in [
        ("ring of 2", ring(1, 0)),
        ("ring of 4", ring(1, 1)),
        ("ring of 8, bits", ring(3, 0)),
        ("ring of 64", ring(3, 3)),
        ("4 rings of 2", rings(2, 1)),
        ("2 rings of 8", rings(1, 3)),
        ("chain of 1", chain(0, 1)),
        ("chain of 7", chain(0, 3)),
        ("chains of 3 on 4 bits", chain(2, 2)),
        ("fixes in fixes", nested_fixes(1, 3)),
        ("fixes in fixes, 60 deep", nested_fixes(1, 60)),
        ("functions through identities", function_chain(3)),
        ("functions through identities, 62 deep", function_chain(62)),
    ] {
        add(name, types.sheet(&term));
    }
    higher_order(&mut add);
    edges
}

/// Linear functions over functions over functions, turned bits on both sides.
fn higher_order(add: &mut impl FnMut(&str, Bytes)) {
    let mut types = Types::new();
    let bit = types.bit();
    let reg = types.reg();
    let gate = types.gate();
    let use_one = types.lolli(reg, bit);
    let use_two = types.lolli(use_one, bit);
    let use_three = types.lolli(use_two, bit);
    let zero = constant(0, bit);
    // f: (1 -> 1) -o 1, given a part, a function of its own, and a gate applied once
    let given =
        |argument: &[u8]| linear_function(use_two, &linear_apply(&linear_variable(0), argument));
    add("f given inv", types.sheet(&given(&constant(5, reg))));
    let inner = function(reg, &apply(&constant(1, reg), &variable(0)));
    add("f given a function", types.sheet(&given(&inner)));
    add("f given half a gate", types.sheet(&given(&apply(&constant(4, gate), &zero))));
    // g: ((1 -> 1) -o 1) -o 1 given the function that feeds its own variable a bit
    let feeder = linear_function(use_one, &apply(&linear_variable(0), &zero));
    let third = linear_function(use_three, &linear_apply(&linear_variable(0), &feeder));
    add("g given a feeder", types.sheet(&third));
    let closed = linear_apply(&third, &given(&constant(5, reg)));
    add("g given a feeder, closed", types.sheet(&closed));
    // a projection inside an argument, its halves crossed, and linear use inside the pair
    let two = types.product(bit, bit);
    let swap = types.to(two, two);
    let swapped = function(swap, &project(&variable(0), &pair(two, &variable(0), &variable(1))));
    let both = pair(two, &apply(&linear_variable(0), &zero), &constant(6, bit));
    let crossed = types.lolli(reg, two);
    add("a pair swapped", types.sheet(&linear_function(crossed, &apply(&swapped, &both))));
    let argument = project(&pair(two, &zero, &constant(6, bit)), &variable(1));
    add("a projection as argument", types.sheet(&apply(&constant(5, reg), &argument)));
    let through = fix(bit, &apply(&linear_variable(1), &variable(0)));
    add("fix through f", types.sheet(&linear_function(use_one, &through)));
    // nested products, projected twice, halves sent back round
    let four = types.product(two, two);
    let body = project(
        &variable(0),
        &project(&variable(1), &pair(four, &pair(two, &variable(0), &variable(1)), &variable(2))),
    );
    add("nested products in a ring", types.sheet(&fix(four, &body)));
    let dropping = function(reg, &zero);
    add("a function that drops its bit", types.sheet(&apply(&dropping, &constant(6, bit))));
    let lone = fix(bit, &variable(0));
    add("a ring that nobody reads", types.sheet(&apply(&dropping, &lone)));
    let twice = project(&fix(two, &variable(0)), &pair(two, &variable(1), &variable(1)));
    add("a ring read twice", types.sheet(&twice));
}

fn large() -> Vec<Edge> {
    let mut edges = Vec::new();
    let mut add = |name: &str, sheet: Bytes| edges.push(Edge::new(name, sheet, None));
    add("deep type, three stages", deep_type());
    add("high order", high_order());
    add("product to the left", deep_product(true));
    add("product to the right", deep_product(false));
    add("2,048 nodes, flat", flat(2048));
    add("2,048 nodes, 64 deep", deep(2048, 64));
    add("ring of 4,096 points", terminals_and(0));
    for (name, (types, term)) in [
        ("64 rings of 64", rings(6, 6)),
        ("one bit, ring of 512", ring(0, 9)),
        ("chain of 63 on 64 bits", chain(6, 6)),
        ("chain of 511", chain(0, 9)),
        ("fixes in fixes, 32 of 128 bits", nested_fixes(7, 32)),
    ] {
        add(name, types.sheet(&term));
    }
    for terminals in [7_941, 8_189, 8_190, 8_191, 8_192, 8_193, 8_194] {
        let refused = (terminals > 8_192).then_some((16, 0));
        edges.push(Edge::new(&format!("{terminals} terminals"), crowd(terminals), refused));
    }
    for more in [1, 2] {
        edges.push(Edge::new("over 8,192 terminals", terminals_and(more), Some((16, 0))));
    }
    let (types, term) = nested_fixes(7, 33);
    edges.push(Edge::new("33 fixes of 128 bits", types.sheet(&term), Some((16, 0))));
    let (types, term) = nested_fixes(7, 61);
    edges.push(Edge::new("61 fixes of 128 bits", types.sheet(&term), Some((16, 0))));
    edges
}

pub fn edges() -> Vec<Edge> {
    let mut edges = small();
    edges.extend(large());
    edges
}
