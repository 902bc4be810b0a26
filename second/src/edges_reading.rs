//! Document 01, refusals 2 to 9: a named sheet for each edge, with the answer worked out by hand.

use crate::wide::{deep, flat, table, tower};
use crate::write::*;

/// A named sheet and its refusal of 2 to 16, or None where it is accepted.
pub struct Edge {
    pub name: String,
    pub sheet: Bytes,
    pub refused: Option<(usize, usize)>,
}

impl Edge {
    pub fn new(name: &str, sheet: Bytes, refused: Option<(usize, usize)>) -> Edge {
        Edge { name: name.to_string(), sheet, refused }
    }
}

/// Hex, refusal, place.
#[rustfmt::skip]
const SMALL: &[(&str, usize, usize)] = &[
    // 3: a record was due
    ("", 3, 0), ("01", 3, 1), ("01 02 00 00", 3, 4), ("14", 3, 1), ("14 11 00", 3, 3),
    ("16", 3, 1), ("16 11 00", 3, 3), ("18", 3, 1), ("18 11 00", 3, 3), ("01 13 00", 3, 3),
    ("01 15 00", 3, 3), ("01 17 00", 3, 3), ("01 17 00 11 00", 3, 5), ("01 19 00", 3, 3),
    ("01 03 00 00 13 01", 3, 6), ("14 14 11 00 11 00", 3, 6), ("14 11 00 14 11 00", 3, 6),
    // 3: a body cut short
    ("02", 3, 0), ("02 00", 3, 0), ("03", 3, 0), ("03 00", 3, 0), ("04", 3, 0), ("04 00", 3, 0),
    ("01 02", 3, 1), ("01 02 09", 3, 1), ("01 03 00", 3, 1), ("01 04 00", 3, 1), ("11", 3, 0),
    ("12", 3, 0), ("13", 3, 0), ("15", 3, 0), ("17", 3, 0), ("19", 3, 0), ("1A", 3, 0),
    ("1A 00", 3, 0), ("01 1A 00", 3, 1), ("14 11 00 1A FF", 3, 3), ("14 14 11", 3, 2),
    // 4: kind unknown here
    ("00", 4, 0), ("05", 4, 0), ("0F", 4, 0), ("10", 4, 0), ("1B", 4, 0), ("21", 4, 0),
    ("FF", 4, 0), ("01 00", 4, 1), ("01 05", 4, 1), ("01 91", 4, 1), ("14 01", 4, 1),
    ("14 02", 4, 1), ("14 03 00 00", 4, 1), ("14 04", 4, 1), ("16 01", 4, 1), ("18 01", 4, 1),
    ("01 13 00 01", 4, 3), ("01 19 00 02", 4, 3), ("14 11 00 01", 4, 3), ("14 11 00 1B", 4, 3),
    ("18 11 00 04 00 00", 4, 3), ("01 17 00 11 00 03", 4, 5), ("80 00 00", 4, 0),
    // 5: a type number that names no earlier type, before form, in each record
    ("02 00 00", 5, 0), ("03 00 00", 5, 0), ("04 00 00", 5, 0), ("01 02 01 00", 5, 1),
    ("01 02 00 01", 5, 1), ("01 03 01 00", 5, 1), ("01 03 00 01", 5, 1), ("01 04 01 00", 5, 1),
    ("01 04 00 01", 5, 1), ("01 02 FF 00", 5, 1), ("01 03 00 00 02 01 02", 5, 4),
    ("13 00 11 00", 5, 0), ("15 00 11 00", 5, 0), ("17 00 11 00 11 00", 5, 0),
    ("19 00 11 00", 5, 0), ("1A 00 00", 5, 0), ("01 13 01 11 00", 5, 1), ("01 15 01 12 00", 5, 1),
    ("01 17 01 11 00 11 00", 5, 1), ("01 19 01 11 00", 5, 1), ("01 1A 00 01", 5, 1),
    ("01 1A 09 01", 5, 1), ("01 1A 07 FF", 5, 1), ("01 14 1A 00 01 05", 5, 2),
    ("01 13 05", 5, 1), ("01 19 01 05", 5, 1), ("01 14 11 09 19 80 11 00", 5, 4),
    // 6: the table's left and right rules
    ("01 04 00 00", 6, 1), ("01 03 00 00 02 01 00", 6, 4), ("01 03 00 00 02 00 01", 6, 4),
    ("01 03 00 00 02 01 01", 6, 4), ("01 03 00 00 03 01 00", 6, 4), ("01 03 00 00 03 01 01", 6, 4),
    ("01 02 00 00 04 01 00", 6, 4), ("01 03 00 00 04 00 01", 6, 4),
    ("01 03 00 00 04 01 01 03 02 00", 6, 7), ("01 03 00 00 04 01 00 02 02 00", 6, 7),
    // 7: the same record again
    ("01 01", 7, 1), ("01 01 11", 7, 1), ("01 02 00 00 02 00 00", 7, 4), ("01 02 00 00 01", 7, 4),
    ("01 03 00 00 03 00 00", 7, 4), ("01 03 00 00 04 01 00 04 01 00", 7, 7),
    ("01 02 00 00 02 00 01 02 01 00 02 00 01 05", 7, 10),
    // 9: bytes after the term
    ("01 1A 00 00 00", 9, 4), ("01 1A 00 00 01", 9, 4), ("11 00 11 00", 9, 2), ("11 00 FF", 9, 2),
    ("01 03 00 00 13 01 11 00 1A 00 00", 9, 8), ("14 11 00 11 00 14", 9, 5), ("12 00 03", 9, 2),
    // readable, whatever the walk says
    ("11 00", 10, 0), ("12 00", 10, 0), ("01 02 00 00 03 00 00 11 00", 10, 0),
    ("14 11 00 11 00", 10, 1), ("01 02 00 00 02 00 01 02 01 00 02 01 01 11 FF", 10, 0),
    ("01 03 00 00 04 01 01 04 02 01 04 01 02 04 02 02 1A 07 00", 15, 0),
    ("01 03 00 00 03 00 01 04 01 00 04 02 01 03 00 04 12 07", 10, 0),
];

pub fn edges() -> Vec<Edge> {
    let mut edges: Vec<Edge> = SMALL
        .iter()
        .map(|&(text, number, place)| Edge::new(text, hex(text), Some((number, place))))
        .collect();
    many_types(&mut edges);
    large_types(&mut edges);
    many_nodes(&mut edges);
    deep_nodes(&mut edges);
    many_bytes(&mut edges);
    edges
}

fn joined(sheet: &[u8], more: &str) -> Bytes {
    let mut bytes = sheet.to_vec();
    bytes.extend(hex(more));
    bytes
}

fn many_types(edges: &mut Vec<Edge>) {
    let types = table(256).sheet(&[]);
    let end = types.len();
    let mut add = |name, more, number, place| {
        edges.push(Edge::new(name, joined(&types, more), Some((number, place))));
    };
    add("256 types, no term", "", 3, end);
    add("256 types, a free variable", "11 00", 10, 0);
    add("256 types, type 255 unfit for zero", "1A 00 FF", 12, 0);
    add("257th type a repeat", "01", 8, end);
    add("257th type a repeated product", "02 00 00 11 00", 8, end);
    add("257th type ill-formed", "04 00 00", 8, end);
    add("257th type new", "03 00 FF", 8, end);
    add("257th type cut", "02 00", 3, end);
    add("257th type, kind only", "04", 3, end);
    add("257th type of unknown kind", "05", 4, end);
    add("256 types, then a byte 01 inside the term", "14 01", 4, end + 1);
    edges.push(Edge::new("256 types, accepted", joined(&types, "1A 00 00"), None));
    let fewer = table(255).sheet(&[]);
    edges.push(Edge::new("255 types, accepted", joined(&fewer, "1A 06 00"), None));
    edges.push(Edge::new(
        "255 types, 255 named",
        joined(&fewer, "1A 06 FF"),
        Some((5, fewer.len())),
    ));
}

fn large_types(edges: &mut Vec<Edge>) {
    // types 0 to 7 are products of 1, 2, 4 .. 128 single bits
    let mut types = Types::new();
    types.bits(7);
    let products = types.sheet(&[]);
    let end = products.len();
    let mut add = |name, more, number, place| {
        edges.push(Edge::new(name, joined(&products, more), Some((number, place))));
    };
    add("size 129, product", "02 07 00", 8, end);
    add("size 129, product, turned", "02 00 07 11 00", 8, end);
    add("size 129, sharable arrow", "03 07 00", 8, end);
    add("size 256, sharable arrow", "03 07 07", 8, end);
    add("size 128 arrow, then 129 linear", "03 06 06 04 08 00", 8, end + 3);
    add("size 128 twice is a repeat", "02 06 06", 7, end);
    add("size 129 after a fault of form", "04 07 07", 6, end);
    edges.push(Edge::new("size 128, product", joined(&products, "19 07 11 00"), None));
    edges.push(Edge::new("size 128, arrow", joined(&products, "03 06 06 13 08 11 00"), None));
    // 127 single bits: 64 + 32 + 16 + 8 + 4 + 2 + 1
    let sum = "02 05 06 02 04 08 02 03 09 02 02 0A 02 01 0B 02 00 0C";
    let sized = joined(&products, sum);
    edges.push(Edge::new("size 127 and 1", joined(&sized, "03 0D 00 13 0E 11 7F"), Some((10, 1))));
    edges.push(Edge::new("size 127 and 2", joined(&sized, "03 0D 01"), Some((8, sized.len()))));
    edges.push(Edge::new("size 127 to 1", joined(&sized, "03 0D 00 13 0E 1A 06 00"), None));
}

fn many_nodes(edges: &mut Vec<Edge>) {
    edges.push(Edge::new("2,048 nodes, flat", flat(2048), None));
    edges.push(Edge::new("2,047 nodes, flat", flat(2047), None));
    let more = flat(2049);
    let last = more.len() - 2;
    edges.push(Edge::new("2,049 nodes, flat", more.clone(), Some((8, last))));
    edges.push(Edge::new("2,049th node due", more[..last].to_vec(), Some((3, last))));
    let mut add = |name, end: &str, number| {
        edges.push(Edge::new(name, joined(&more[..last], end), Some((number, last))));
    };
    add("2,049th node cut", "11", 3);
    add("2,049th node a cut constant", "1A 00", 3);
    add("2,049th node of unknown kind", "00", 4);
    add("2,049th node of a type's kind", "01", 4);
    add("2,049th node with a bad type number", "1A 00 FF", 8);
    add("2,049th node with a bad part", "1A FF 00", 8);
    let extra = joined(&flat(2048), "11 00");
    let end = extra.len() - 2;
    edges.push(Edge::new("2,048 nodes and bytes after", extra, Some((9, end))));
    edges.push(Edge::new("2,048 nodes, 64 deep", deep(2048, 64), None));
    edges.push(Edge::new("2,048 nodes, 12 deep", deep(2048, 12), None));
}

fn deep_nodes(edges: &mut Vec<Edge>) {
    edges.push(Edge::new("depth 63", tower(63), None));
    edges.push(Edge::new("depth 64", tower(64), None));
    let more = tower(65);
    let last = more.len() - 2;
    edges.push(Edge::new("depth 65", more.clone(), Some((8, last))));
    edges.push(Edge::new("depth 66", tower(66), Some((8, last))));
    edges.push(Edge::new("depth 65 due", more[..last].to_vec(), Some((3, last))));
    let mut add = |name, end: &str, number| {
        edges.push(Edge::new(name, joined(&more[..last], end), Some((number, last))));
    };
    add("depth 65 cut", "12", 3);
    add("depth 65 of unknown kind", "1F", 4);
    add("depth 65 of a type's kind", "02 00 00", 4);
    add("depth 65 with a bad type number", "19 01 11 00", 8);
    add("depth 65, a constant with a bad type number", "1A 00 01", 8);
    add("depth 65, an application", "14", 8);
    for kind in ["14", "16", "18"] {
        // 64 nodes of two subterms below each other; the last one's first subterm is 65 deep
        let left = hex(&kind.repeat(64));
        edges.push(Edge::new("64 deep to the left, then due", left.clone(), Some((3, 64))));
        edges.push(Edge::new("65 deep to the left", joined(&left, "11 00"), Some((8, 64))));
        let right = hex(&format!("{kind} 11 00").repeat(64));
        edges.push(Edge::new("65 deep to the right", joined(&right, "11 00"), Some((8, 190))));
    }
}

fn many_bytes(edges: &mut Vec<Edge>) {
    let mut add = |name: &str, sheet: Bytes, length: usize, fill: u8, refused| {
        let mut sheet = sheet;
        sheet.resize(length, fill);
        edges.push(Edge::new(name, sheet, Some(refused)));
    };
    let small = hex("01 1A 00 00");
    add("16,384 bytes, most after the term", small.clone(), 16_384, 0x11, (9, 4));
    add("16,385 bytes, most after the term", small, 16_385, 0x11, (2, 0));
    add("16,386 bytes of nothing", Bytes::new(), 16_386, 0x00, (2, 0));
    add("16,384 applications", Bytes::new(), 16_384, 0x14, (8, 64));
    add("16,385 applications", Bytes::new(), 16_385, 0x14, (2, 0));
    add("16,384 single bits", Bytes::new(), 16_384, 0x01, (7, 1));
}
