//! Document 02, L12: named sheets for each rule of the card's profile, with the answers worked out by
//! hand.

use crate::edges_making::KNOWN;
use crate::edges_reading::Edge;
use crate::wide::{chain, crowd, high_order, ring, terminals_and};
use crate::write::*;

/// Name, hex, and the refusal with its place; 0 0 where the profile is met.
#[rustfmt::skip]
const SMALL: &[(&str, &str, usize, usize)] = &[
    // the root's type
    ("a bit", "01 1A0600", 0, 0), ("a product", "01 020000 1701 1A0000 1A0600", 0, 0),
    ("an arrow", "01 030000 1A0501", 0, 0), ("two arrows", "01 030000 030001 1A0402", 0, 0),
    ("an arrow from a pair", "31 01 020000 030100 1A0402", 0, 0),
    ("an arrow to a pair", "01 020000 030001 1302 1701 1100 1100", 0, 0),
    ("a linear arrow", "01 030000 040101 1502 1200", 27, 0),
    ("a linear arrow to a bit", "01 030000 040100 1502 14 1200 1A0000", 27, 0),
    ("a sharable arrow to a linear one", "01 030000 040100 030002 1303 1502 14 1200 1101", 27, 0),
    ("a linear arrow to a sharable one", "01 030000 040101 1502 1301 14 1201 1100", 27, 0),
    ("a linear arrow, spent inside", "01 030000 040100 16 1502 14 1200 1A0000 1A0101", 0, 0),
    ("a linear arrow in the table only", "01 030000 040100 1A0000", 0, 0),
    // kept ring points
    ("a ring alone", "01 1900 1100", 28, 0), ("a ring of two", "01 030000 1900 14 1301 1100 1100", 28, 0),
    ("a ring behind a point", "01 030000 14 1301 1100 1900 1100", 28, 2),
    ("a ring behind a part", "01 020000 1701 1A0000 1900 1100", 28, 1),
    ("a ring that nobody reads", "01 030000 14 1301 1A0000 1900 1100", 28, 3),
    ("two rings, the lower", "01 020000 1701 1900 1100 1900 1100", 28, 0),
    ("a ring into an inverter", "01 030000 14 1A0501 1900 1100", 28, 2),
    ("a ring through an inverter", "01 030000 1900 14 1A0501 1100", 0, 0),
    ("a ring through a register", "01 030000 1900 14 1A0101 1100", 0, 0),
    // outputs that nobody reads
    ("a dropped one", "01 030000 14 1301 1A0000 1A0600", 29, 3),
    ("two dropped ones, the lower", "01 030000 14 1301 14 1301 1A0000 1A0600 1A0600", 29, 5),
    ("a dropped gate", "01 030000 030001 14 1301 1A0000 14 14 1A0202 1A0600 1A0600", 29, 5),
    ("a dropped inverter, its driver read", "01 030000 14 1301 1A0000 14 1A0501 1A0600", 29, 4),
    ("a divergence bit dropped", "01 020000 030000 18 1701 1A0000 14 1A0502 1A0600 1101", 29, 2),
    ("a dropped pair", "01 020000 030100 14 1302 1A0000 1701 1A0600 1A0600", 29, 5),
    ("a name not used", "31 01 1B 1A0000 1A0600", 29, 0),
    ("a register that only itself reads", "01 030000 14 1301 1A0000 1900 14 1A0101 1100", 0, 0),
    ("shown twice", "01 020000 030001 14 1302 1701 1100 1100 1A0000", 0, 0),
    ("a function that drops its input", "01 030000 1301 1A0600", 0, 0),
    // the first of the three
    ("27 before 28", "01 030000 040100 1502 14 1301 14 1201 1A0000 1900 1100", 27, 0),
    ("27 before 29", "01 030000 040100 1502 14 1301 14 1201 1A0000 1A0600", 27, 0),
    ("28 before 29, though higher", "01 030000 020000 18 1702 1A0600 1900 1100 1A0000", 28, 1),
];

/// Which of P1 to P7 the card takes.
const KNOWN_REFUSED: [Option<(usize, usize)>; 7] =
    [None, None, None, Some((28, 0)), None, None, Some((28, 0))];

/// Answers of a call with the wish `card`, and room for all.
pub fn edges() -> Vec<Edge> {
    let mut edges: Vec<Edge> = SMALL
        .iter()
        .map(|&(name, text, number, place)| {
            Edge::new(name, hex(text), (number != 0).then_some((number, place)))
        })
        .collect();
    for (index, (text, refused)) in KNOWN.iter().zip(KNOWN_REFUSED).enumerate() {
        edges.push(Edge::new(&format!("P{}", index + 1), hex(text), refused));
    }
    let mut add = |name: &str, (types, term): (Types, Bytes), refused| {
        edges.push(Edge::new(name, types.sheet(&term), refused));
    };
    add("a ring of 64", ring(3, 3), Some((28, 0)));
    add("chains of 3 on 4 bits", chain(2, 2), None);
    edges.push(Edge::new("16 before 28", terminals_and(1), Some((16, 0))));
    edges.push(Edge::new("a ring of 4,096 points", terminals_and(0), Some((28, 0))));
    // the innermost of 31 fixed points shows the sixteenth's variable, whose points start behind 15
    // times 128 points
    edges.push(Edge::new("8,192 terminals", crowd(8_192), Some((28, 3_840))));
    edges.push(Edge::new("high order", high_order(), Some((27, 0))));
    edges
}
