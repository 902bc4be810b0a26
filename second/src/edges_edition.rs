//! Document 02, L7: named sheets on either side of the two editions, with the answers worked out by
//! hand; and all edges of document 01 again behind a 31.

use crate::edges_clash::Clash;
use crate::edges_reading::Edge;
use crate::refusal::{Refusal, FORM};
use crate::wide;
use crate::write::*;
use crate::{edges_making, edges_reading, edges_typing};

/// Hex, and the refusal with its place; 0 0 where the sheet is accepted.
#[rustfmt::skip]
const SMALL: &[(&str, usize, usize)] = &[
    // 31 anywhere but first
    ("31", 3, 1), ("31 31", 4, 1), ("31 31 01 1A0000", 4, 1), ("01 31", 4, 1), ("01 31 1A0000", 4, 1),
    ("31 01", 3, 2), ("31 01 31", 4, 2), ("31 01 31 020000 1A0000", 4, 2), ("01 020000 31 1A0000", 4, 4),
    ("31 01 14 31", 4, 3), ("31 01 14 1A0000 31", 4, 6), ("01 14 31 1A0000", 4, 2),
    ("01 14 1A0000 31", 4, 5), ("31 01 1900 31 1100", 4, 4), ("31 01 1701 31", 5, 2),
    ("31 01 1A0000 31", 9, 5), ("01 1A0000 31", 9, 4), ("31 1100 31", 9, 3), ("31 1100", 10, 0),
    ("31 01 1A0000", 0, 0), ("31 01 1A3100", 15, 0), ("31 01 1131", 10, 0), ("31 01 31", 4, 2),
    // 1B in the first edition
    ("1B", 4, 0), ("01 1B", 4, 1), ("01 1B 1A0000 1100", 4, 1), ("01 14 1A0000 1B", 4, 5),
    ("01 1900 1B 1100 1100", 4, 3), ("01 1A0000 1B", 9, 4),
    // 1B cut, due, and at its own kinds
    ("31 1B", 3, 2), ("31 1B 1100", 3, 4), ("31 1B 1B", 3, 3), ("31 01 1B 1A0000", 3, 6),
    ("31 1B 01", 4, 2), ("31 1B 1100 02", 4, 4), ("31 1C", 4, 1), ("31 01 1B 1A0000 1100 1B", 9, 8),
    // 1B accepted: it names a bit, a product, a linear use, a ring
    ("31 01 1B 1A0000 1100", 0, 0), ("31 01 1B 1A0000 1A0600", 0, 0),
    ("31 01 020000 030100 1B 1A0000 14 1A0202 1701 1100 1100", 0, 0),
    ("31 01 020000 1B 1701 1A0000 1A0600 18 1100 1701 1100 1101", 0, 0),
    ("31 01 030000 040100 1502 1B 14 1200 1A0000 1100", 0, 0),
    ("31 01 030000 040100 1502 1B 1A0000 14 1201 1100", 0, 0),
    ("31 01 1900 1B 1100 1100", 0, 0), ("31 01 1B 1B 1A0000 1100 1B 1100 1101", 0, 0),
    ("31 01 030000 1B 1A0000 1A0501", 0, 0), ("31 01 030000 040101 1B 1A0000 1502 1200", 0, 0),
    // 1B binds one sharable variable, in its second subterm only
    ("31 01 1B 1A0000 1101", 10, 2), ("31 01 1B 1100 1A0000", 10, 1), ("31 01 1B 1A0000 1200", 11, 2),
    ("31 01 14 1B 1A0000 1100 1100", 10, 4), ("31 01 030000 1301 1B 1100 1102", 10, 3),
    ("31 01 030000 040100 1502 1B 1A0000 14 1200 1100", 11, 4),
    ("31 01 030000 040100 1502 1B 1A0000 14 1101 1100", 11, 4),
    // 13 and 14 around 1B
    ("31 01 030000 040100 1502 1B 14 1200 1A0000 14 1201 1100", 13, 6),
    ("31 01 030000 040100 1502 1B 1A0000 1100", 14, 0), ("31 01 030000 040100 1502 1B 1200 1201", 12, 1),
    ("31 01 030000 040100 1B 1502 1A0000 1A0000", 14, 1),
    // gates of the second edition
    ("31 01 020000 030100 1A0202", 0, 0), ("31 01 020000 030100 1A0302", 0, 0),
    ("31 01 020000 030100 1A0402", 0, 0), ("31 01 020000 030100 1302 14 1A0302 1100", 0, 0),
    ("31 01 030000 1A0101", 0, 0), ("31 01 030000 1A0501", 0, 0), ("31 01 1A0600", 0, 0),
    ("31 01 020000 030100 040200 1503 14 1200 1901 1100", 0, 0),
    ("31 01 1A0700", 15, 0), ("31 01 020000 030100 14 1A0702 1901 1100", 15, 1),
    // the same sheets in the other edition
    ("31 01 030000 030001 1A0202", 12, 0), ("01 030000 030001 1A0202", 0, 0),
    ("01 020000 030100 1A0202", 12, 0), ("01 020000 030100 1302 14 1A0302 1100", 12, 2),
    ("31 01 030000 030001 14 14 1A0202 1A0000 1A0000", 12, 2),
    ("31 01 030000 030001 1302 14 1A0402 1100", 12, 2),
];

/// Refusal 12 around the editions: the cause, a sheet, then node, wanted and found.
#[rustfmt::skip]
const CLASHES: &[(&str, &str, usize, usize, usize)] = &[
    ("1B over a sharable arrow", "31 01 030000 1B 1A0101 1100", 0, FORM, 1),
    ("1B over a sharable arrow, before its body", "31 01 030000 1B 1A0101 1A0700", 0, FORM, 1),
    ("1B over a linear arrow", "31 01 030000 040100 1B 1502 14 1200 1A0000 1A0000", 0, FORM, 2),
    ("1B over a linear variable", "31 01 030000 040100 1502 1B 1200 14 1100 1A0000", 1, FORM, 1),
    ("1B over a pair gate", "31 01 020000 030100 1B 1A0202 1100", 0, FORM, 2),
    ("1B's body has its type", "31 01 030000 1301 1B 1100 1A0501", 0, 0, 1),
    ("first edition's gate, a pair's nowhere", "31 01 030000 030001 1A0202", 0, FORM, 2),
    ("first edition's gate, a pair's in the sheet", "31 01 020000 030100 030000 030003 1A0304", 0, 2, 4),
    ("first edition's gate, a pair in the sheet", "31 01 020000 030000 030002 1A0403", 0, FORM, 3),
    ("pair gate, first edition's nowhere", "01 020000 030100 1A0202", 0, FORM, 2),
    ("pair gate, first edition's in the sheet", "01 020000 030100 030000 030003 1A0302", 0, 4, 2),
    ("gate of the turned pair", "31 01 020000 030001 030100 1A0202", 0, 3, 2),
    ("reg of a pair", "31 01 020000 030100 030000 1A0102", 0, 3, 2),
    ("pair gate given a bit", "31 01 020000 030100 14 1A0202 1A0000", 0, 1, 0),
    ("pair gate given three bits", "31 01 020000 030100 020001 14 1A0202 1703 1A0000 1901 1100", 0, 1, 3),
    ("pair gate given two arguments", "31 01 020000 030100 14 14 1A0202 1901 1100 1A0000", 0, FORM, 0),
];

pub fn edges() -> Vec<Edge> {
    let mut edges: Vec<Edge> = SMALL
        .iter()
        .map(|&(text, number, place)| {
            Edge::new(text, hex(text), (number != 0).then_some((number, place)))
        })
        .collect();
    deep_names(&mut edges);
    long_sheets(&mut edges);
    edges.extend(behind_the_mark());
    edges
}

pub fn clashes() -> Vec<Clash> {
    CLASHES
        .iter()
        .map(|&(name, text, node, wanted, found)| Clash {
            name: name.to_string(),
            sheet: hex(text),
            refused: Refusal::clash(node, wanted, found),
        })
        .collect()
}

/// 64 names below each other; one more is 65 deep.
fn deep_names(edges: &mut Vec<Edge>) {
    let mut add = |name: &str, text: String, refused| {
        edges.push(Edge::new(name, hex(&text), refused));
    };
    add("64 names to the left, then due", format!("31 {}", "1B".repeat(64)), Some((3, 65)));
    add("65 deep to the left", format!("31 {} 1100", "1B".repeat(64)), Some((8, 65)));
    let names = |count: usize| "1B 1A0000".repeat(count);
    add("64 deep to the right", format!("31 01 {} 1100", names(63)), None);
    // types end at 2, each name and its zero are 4 bytes
    add("65 deep to the right", format!("31 01 {} 1100", names(64)), Some((8, 2 + 4 * 63 + 1)));
    add("the outermost of 63 names", format!("31 01 {} 113E", names(63)), None);
    add("none of 63 names", format!("31 01 {} 113F", names(63)), Some((10, 126)));
}

/// "31 counts for offsets and for the 16,384 bytes, not as a node or a type"
fn long_sheets(edges: &mut Vec<Edge>) {
    let mut filled = |name: &str, sheet: &str, length: usize, fill: u8, refused| {
        let mut sheet = hex(sheet);
        sheet.resize(length, fill);
        edges.push(Edge::new(name, sheet, Some(refused)));
    };
    filled("16,384 bytes with the mark", "31 01 1A 00 00", 16_384, 0x11, (9, 5));
    filled("16,385 bytes with the mark", "31 01 1A 00 00", 16_385, 0x11, (2, 0));
    filled("16,384 marks", "31", 16_384, 0x31, (4, 1));
    filled("16,385 marks", "31", 16_385, 0x31, (2, 0));
    filled("16,384 names", "31", 16_384, 0x1B, (8, 65));
    edges.push(Edge::new("2,048 nodes with the mark", marked(&wide::flat(2_048)), None));
}

/// "First-edition sheets keep their meaning": behind a 31 each of them means the same, its offsets
/// one more, but for its length, for 1B, and for its gates.
fn behind_the_mark() -> Vec<Edge> {
    let mut edges = edges_reading::edges();
    edges.extend(edges_typing::edges());
    edges.extend(edges_making::edges());
    edges
        .iter()
        .map(|edge| {
            let sheet = marked(&edge.sheet);
            Edge::new(&format!("31 and {}", edge.name), sheet, refused_behind(edge))
        })
        .collect()
}

fn refused_behind(edge: &Edge) -> Option<(usize, usize)> {
    if edge.sheet.len() == 16_384 {
        return Some((2, 0));
    }
    let changed = CHANGED.iter().find(|(name, _, _)| *name == edge.name);
    if let Some(&(_, number, place)) = changed {
        return Some((number, place));
    }
    match edge.refused {
        Some((number @ 3..=9, offset)) => Some((number, offset + 1)),
        // the walk meets nothing to refuse before the first gate
        None => first_gate(&edge.sheet).map(|node| (12, node)),
        refused => refused,
    }
}

/// Edges of document 01, by name, that a 31 changes: 1B is known, and a gate is met earlier.
#[rustfmt::skip]
const CHANGED: &[(&str, usize, usize)] = &[
    ("1B", 3, 2), ("14 11 00 1B", 3, 5),
    ("14 1A0203 1701 1A0000 1A0000", 12, 1), ("16 1504 14 1200 1A0000 1A0203", 12, 5), ("14 14 14 1A0203 1A0000 1A0000 1A0000", 12, 3),
    ("1504 14 14 1A0203 14 1200 1A0000 14 1200 1A0000", 12, 3),
];

/// The node of the first two-input gate of an accepted first-edition sheet.
fn first_gate(sheet: &[u8]) -> Option<usize> {
    let mut at = 0;
    while (0x01..=0x04).contains(&sheet[at]) {
        at += if sheet[at] == 0x01 { 1 } else { 3 };
    }
    let mut node = 0;
    while at < sheet.len() {
        if sheet[at] == 0x1A && (2..=4).contains(&sheet[at + 1]) {
            return Some(node);
        }
        at += match sheet[at] {
            0x14 | 0x16 | 0x18 => 1,
            0x1A => 3,
            _ => 2,
        };
        node += 1;
    }
    None
}
