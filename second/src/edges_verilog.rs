//! Document 02, L1: named sheets, with the length of the module's text or the refusal, worked out by
//! hand.

use crate::edges_making::KNOWN;
use crate::wide::{chain, crowd, gate_tree, ring, rings, terminals_and};
use crate::write::{hex, Bytes};

/// The length of a module, or the refusal of 2 to 18.
pub type Answer = Result<usize, (usize, usize)>;

/// A named sheet.
pub struct Module {
    pub name: String,
    pub sheet: Bytes,
    pub answer: Answer,
}

/// What every module has: first two lines, the closing of the ports, the last line.
const FRAME: usize = 17 + 13 + 4 + 10;

/// A pin's port and its assignment.
const IN: usize = 15 + 22;
const OUT: usize = 16 + 22;

/// Elements by their lines; `or` is a letter shorter than `and` and `xor`.
const POINT: usize = 19 + 22;
const ZERO: usize = 12 + 21;
const REG: usize = 12 + 11 + 40;
const INV: usize = 19 + 20;
const GATE: usize = 26 + 27;
const WIRE: usize = 22;

#[rustfmt::skip]
const SMALL: &[(&str, &str, Answer)] = &[
    ("P1", KNOWN[0], Ok(FRAME + OUT + ZERO)), ("P2", KNOWN[1], Ok(FRAME + IN + OUT + POINT)),
    ("P3", KNOWN[2], Ok(FRAME + OUT + ZERO + REG + WIRE)), ("P4", KNOWN[3], Err((18, 0))),
    ("P5", KNOWN[4], Ok(FRAME + IN + OUT + POINT + GATE + 2 * WIRE)),
    ("P6", KNOWN[5], Ok(FRAME + OUT + GATE + ZERO + REG + 3 * WIRE)), ("P7", KNOWN[6], Err((18, 0))),
    ("P8", KNOWN[7], Err((13, 4))), ("P9", KNOWN[8], Err((14, 0))), ("P10", KNOWN[9], Err((3, 0))), ("P11", KNOWN[10], Err((12, 0))),
    ("one", "01 1A0600", Ok(FRAME + OUT + ZERO)), ("inv alone", "01 030000 1A0501", Ok(FRAME + IN + OUT + INV)),
    ("or alone", "01 030000 030001 1A0302", Ok(FRAME + 2 * IN + OUT + GATE - 1)),
    ("xor of a pair", "31 01 020000 030100 1A0402", Ok(FRAME + 2 * IN + OUT + GATE)),
    ("reg alone", "01 030000 1A0101", Ok(FRAME + IN + OUT + REG)),
    ("a linear function's pins", "01 030000 040101 1502 1200", Ok(FRAME + 2 * IN + 2 * OUT + 2 * POINT)),
    ("f zero", "01 030000 040100 1502 14 1200 1A0000", Ok(FRAME + 2 * OUT + IN + ZERO + POINT)),
    ("a dropped one", "01 030000 14 1301 1A0000 1A0600", Ok(FRAME + OUT + 2 * ZERO)),
    ("a ring of gates is no ring point", "01 030000 1900 14 1A0501 1100", Ok(FRAME + OUT + INV + WIRE)),
    ("a ring that nobody reads", "01 030000 14 1301 1A0000 1900 1100", Err((18, 3))),
    ("a ring behind a point", "01 030000 14 1301 1100 1900 1100", Err((18, 2))),
    ("two rings, the lower", "01 020000 020001 1702 1A0000 1701 1900 1100 1900 1100", Err((18, 1))),
    ("a ring behind a part", "01 020000 1701 1A0000 1900 1100", Err((18, 1))),
];

pub fn edges() -> Vec<Module> {
    let mut edges: Vec<Module> = Vec::new();
    let mut add = |name: &str, sheet: Bytes, answer| {
        edges.push(Module { name: name.to_string(), sheet, answer });
    };
    for (name, text, answer) in SMALL {
        add(name, hex(text), *answer);
    }
    let sheet = |(types, term): (crate::write::Types, Bytes)| types.sheet(&term);
    add("8 rings of 2", sheet(rings(3, 1)), Err((18, 0)));
    add("a ring of 64", sheet(ring(3, 3)), Err((18, 0)));
    // a chain's inner points are not kept: 64 points, an input and an output each
    add("chains on 64 bits", sheet(chain(6, 6)), Ok(FRAME + 64 * (IN + OUT + POINT)));
    add("a ring of 4,096 points", terminals_and(0), Err((18, 0)));
    add("over 8,192 terminals", terminals_and(1), Err((16, 0)));
    add("8,192 terminals", crowd(8_192), Err((18, 3_840)));
    let tree = |gates: usize| gates * (GATE + 2 * WIRE) + (gates + 1) * ZERO;
    add("a tree of 15 gates", gate_tree(4), Ok(FRAME + OUT + tree(15)));
    // 66,545 bytes: a length that 16 bits do not hold
    add("a tree of 511 gates", gate_tree(9), Ok(FRAME + OUT + tree(511)));
    edges
}
