//! Document 02, L3: a named sheet for each cause of refusal 12, with the node, the type number
//! wanted and the one found, worked out by hand.

use crate::edges_typing::TABLE;
use crate::read::stretch;
use crate::refusal::{Refusal, FORM};
use crate::sheet::Type;
use crate::write::*;

/// The causes of 12 by the kind of the node that refuses, and whether a form is wanted of it.
#[rustfmt::skip]
pub const KINDS: [(u8, bool); 16] = [
    (0x13, false), (0x13, true), (0x14, false), (0x14, true), (0x15, false), (0x15, true),
    (0x16, false), (0x16, true), (0x17, false), (0x17, true), (0x18, true), (0x19, false),
    (0x19, true), (0x1A, false), (0x1A, true), (0x1B, true),
];

/// Which of them a sheet's refusal 12 has.
pub fn cause(sheet: &[u8], node: usize, wanted: usize) -> (u8, bool) {
    (sheet[stretch(sheet, node).0], wanted == FORM)
}

/// A named sheet and its refusal.
pub struct Clash {
    pub name: String,
    pub sheet: Bytes,
    pub refused: Refusal,
}

/// Over the table of the typing edges and, as type 12, 1 x (1 x 1): the cause, a term, then node,
/// wanted and found.
#[rustfmt::skip]
const CAUSES: &[(&str, &str, usize, usize, usize)] = &[
    ("function body", "1302 1A0102", 0, 0, 2),
    ("function body, a pair", "1302 1701 1100 1100", 0, 0, 1),
    ("function body, a bit where an arrow is due", "1303 1100", 0, 2, 0),
    ("function body, deeper", "14 1302 1A0102 1A0000", 1, 0, 2),
    ("function body, a function that is no product", "130A 1302 1100", 0, 1, 2),
    ("linear function body", "1504 1200", 0, 0, 2),
    ("linear function body, a bit", "1505 14 1200 1A0000", 0, 2, 0),
    ("linear function body, inner of two", "1506 1504 1200", 1, 0, 2),
    ("linear function body, inner of two, a bit", "1506 1505 14 1200 14 1201 1A0000", 1, 2, 0),
    ("linear function body, outer of two", "1506 1505 1302 14 1201 14 1202 1100", 0, 4, 5),
    ("shape of 13: a bit", "1300 1100", 0, FORM, 0),
    ("shape of 13: a product", "1301 1100", 0, FORM, 1),
    ("shape of 13: a linear arrow", "1304 1100", 0, FORM, 4),
    ("shape of 13: the last type", "130C 1100", 0, FORM, 12),
    ("shape of 15: a bit", "1500 1200", 0, FORM, 0),
    ("shape of 15: a product", "1501 1200", 0, FORM, 1),
    ("shape of 15: a sharable arrow", "1502 1200", 0, FORM, 2),
    ("shape of 17: a bit", "1700 1A0000 1A0000", 0, FORM, 0),
    ("shape of 17: a sharable arrow", "1707 1A0000 1A0000", 0, FORM, 7),
    ("shape of 17: a linear arrow", "1704 1A0102 1A0000", 0, FORM, 4),
    ("shape of 19: a sharable arrow", "1902 1100", 0, FORM, 2),
    ("shape of 19: a linear arrow", "1908 1100", 0, FORM, 8),
    ("shape of 19, deeper", "1302 1903 1100", 1, FORM, 3),
    ("application of a bit", "14 1A0000 1A0000", 0, FORM, 0),
    ("linear application of a bit", "16 1A0600 1A0102", 0, FORM, 0),
    ("application of a product", "14 1701 1A0000 1A0000 1A0000", 0, FORM, 1),
    ("linear application of a product", "16 1901 1100 1A0102", 0, FORM, 1),
    ("application of the other sort: linear arrow", "14 1504 14 1200 1A0000 1A0102", 0, FORM, 4),
    ("application of the other sort: sharable arrow", "16 1A0102 1A0000", 0, FORM, 2),
    ("application of the other sort, argument unfit too", "16 1A0203 1A0102", 0, FORM, 3),
    ("application of a variable of the other sort", "1508 14 1200 1A0502", 1, FORM, 4),
    ("left side differs", "14 1A0102 1A0102", 0, 0, 2),
    ("left side differs, a product", "14 1A0203 1701 1A0000 1A0000", 0, 0, 1),
    ("left side differs, a bit where a product is due", "14 1307 1A0000 1A0000", 0, 1, 0),
    ("left side differs, of the outer application", "14 14 1A0203 1A0000 1A0502", 0, 0, 2),
    ("left side differs, linear", "16 1504 14 1200 1A0000 1A0203", 0, 2, 3),
    ("left side differs, linear, a bit", "16 1504 14 1200 1A0000 1A0000", 0, 2, 0),
    ("one argument too many", "14 14 14 1A0203 1A0000 1A0000 1A0000", 0, FORM, 0),
    ("pair's first half", "1701 1A0102 1A0000", 0, 0, 2),
    ("pair's first half, a product", "1701 1701 1A0000 1A0000 1A0000", 0, 0, 1),
    ("pair's second half", "1701 1A0000 1A0102", 0, 0, 2),
    ("pair's second half, a bit where a product is due", "170C 1A0000 1A0000", 0, 1, 0),
    ("pair's both halves: the first is named", "170C 1A0102 1A0203", 0, 0, 2),
    ("pair's both halves, a gate and a product", "1701 1A0203 1701 1A0000 1A0000", 0, 0, 3),
    ("projection of a bit", "18 1A0000 1100", 0, FORM, 0),
    ("projection of an arrow", "18 1A0102 1100", 0, FORM, 2),
    ("projection of a linear arrow", "18 1504 14 1200 1A0000 1109", 0, FORM, 4),
    ("projection of a linear variable", "1504 18 1200 1202", 1, FORM, 2),
    ("fixed point's body", "1900 1A0102", 0, 0, 2),
    ("fixed point's body, a bit where a product is due", "1901 1A0000", 0, 1, 0),
    ("fixed point's body, inner of two", "1900 1901 1101", 1, 1, 0),
    ("constant zero, its type in the sheet", "1A0002", 0, 0, 2),
    ("constant one", "1A0601", 0, 0, 1),
    ("constant reg", "1A0100", 0, 2, 0),
    ("constant reg as a gate", "1A0103", 0, 2, 3),
    ("constant inv", "1A0505", 0, 2, 5),
    ("constant and", "1A0202", 0, 3, 2),
    ("constant or, of a pair", "1A0307", 0, 3, 7),
    ("constant xor, deeper", "1302 14 1A040B 1100", 2, 3, 11),
];

/// Whole sheets: the part's type stands nowhere in them, or its number is the last that there is.
const NOWHERE: &[(&str, &str, usize, usize, usize)] = &[
    ("constant reg, its type nowhere", "01 1A0100", 0, FORM, 0),
    ("constant inv, its type nowhere", "01 020000 1A0501", 0, FORM, 1),
    ("constant and, its type nowhere", "01 030000 1A0201", 0, FORM, 1),
    ("constant or, not even reg's type", "01 020000 030100 1A0302", 0, FORM, 2),
    ("constant xor, its type nowhere, deeper", "01 030000 1301 14 14 1A0401 1100 1100", 3, FORM, 1),
    ("constant zero: a bit always stands", "01 030000 1A0001", 0, 0, 1),
    ("constant reg, its type behind the found one", "01 020000 030000 1A0101", 0, 2, 1),
];

pub fn edges() -> Vec<Clash> {
    let mut edges = Vec::new();
    let mut add = |name: &str, sheet: Bytes, node, wanted, found| {
        let refused = Refusal::clash(node, wanted, found);
        edges.push(Clash { name: name.to_string(), sheet, refused });
    };
    for &(name, term, node, wanted, found) in CAUSES {
        add(name, hex(&format!("{TABLE} 020001 {term}")), node, wanted, found);
    }
    for &(name, sheet, node, wanted, found) in NOWHERE {
        add(name, hex(sheet), node, wanted, found);
    }
    let types = reg_last();
    add("wanted 255", types.sheet(&constant(5, 0)), 0, 255, 0);
    add("found 255", types.sheet(&constant(0, 255)), 0, 0, 255);
    add("wanted 255, found 254", types.sheet(&constant(1, 254)), 0, 255, 254);
    add("a form wanted, found 255", types.sheet(&fix(255, &variable(0))), 0, FORM, 255);
    edges
}

/// A table of 256 types where 1 -> 1 is the last: 254 products stand between the bit and it.
fn reg_last() -> Types {
    let mut types = Types::new();
    let bit = types.bit();
    let mut rightwards = bit;
    while let Some(next) = types.number(Type::Product(bit, rightwards)) {
        rightwards = next;
    }
    for half in bit + 1..rightwards {
        types.product(half, bit);
    }
    types.product(1, 1);
    types.reg();
    assert_eq!(types.records.len(), 256);
    types
}
