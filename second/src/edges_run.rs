//! Document 02, L4: named runs, with the bits or the refusal worked out by hand.

use crate::edges_making::KNOWN;
use crate::runs::Run;
use crate::sheet::MEMORY;
use crate::wide::{chain, crowd, gate_tree, terminals_and};
use crate::write::{hex, Bytes};

pub struct RunEdge {
    pub name: String,
    pub run: Run,
    /// The bits written, or the refusal with its place.
    pub answer: Result<Bytes, (usize, usize)>,
}

/// Bits as zeros and ones; other digits are bytes that are no bits.
fn bits(text: &str) -> Bytes {
    text.bytes().filter(u8::is_ascii_digit).map(|digit| digit - b'0').collect()
}

pub const REG: &str = "01 030000 1A0101";
/// Pins: two inputs, one output.
pub const AND: &str = "01 030000 030001 1A0202";
/// fix x. inv (reg x)
pub const TOGGLE: &str = "01 030000 1900 14 1A0501 14 1A0101 1100";
/// The sum of all inputs so far, by twos: x in, fix s. xor x (reg s) out
pub const SUM: &str = "01 030000 030001 1301 1900 14 14 1A0402 1101 14 1A0101 1100";
/// reg (reg x): the outer register has the lower terminals
pub const TWO: &str = "01 030000 1301 14 1A0101 14 1A0101 1100";
/// x, y in; y, x out
pub const SWAP: &str = "01 020000 030001 030002 1303 1302 1701 1100 1101";
/// Two registers of each other's outputs
pub const ROUND: &str = "01 020000 030000 1901 18 1100 1701 14 1A0102 1100 14 1A0102 1101";

/// Name, sheet, ticks, inputs, starts, and the bits written.
#[rustfmt::skip]
const ACCEPTED: &[(&str, &str, u16, &str, &str, &str)] = &[
    ("zero", KNOWN[0], 3, "", "", "000"), ("one", "01 1A0600", 2, "", "", "11"),
    ("a wire through", KNOWN[1], 4, "1011", "", "1011"), ("no ticks", KNOWN[1], 0, "", "", ""),
    ("P3 from 0", KNOWN[2], 3, "", "0", "000"), ("P3 from 1", KNOWN[2], 3, "", "1", "100"),
    ("P5", KNOWN[4], 2, "01", "", "01"), ("P6 from 1", KNOWN[5], 2, "", "1", "00"),
    ("reg from 0", REG, 4, "1011", "0", "0101"), ("reg from 1", REG, 4, "1011", "1", "1101"),
    ("reg, no ticks", REG, 0, "", "1", ""),
    ("inv", "01 030000 1A0501", 3, "010", "", "101"), ("and", AND, 4, "00 01 10 11", "", "0001"),
    ("or", "01 030000 030001 1A0302", 4, "00 01 10 11", "", "0111"),
    ("xor", "01 030000 030001 1A0402", 4, "00 01 10 11", "", "0110"),
    ("xor of a pair", "31 01 020000 030100 1A0402", 4, "00 01 10 11", "", "0110"),
    ("toggle from 0", TOGGLE, 5, "", "0", "10101"), ("toggle from 1", TOGGLE, 5, "", "1", "01010"),
    ("sum from 0", SUM, 5, "11011", "0", "10010"), ("sum from 1", SUM, 5, "11011", "1", "01101"),
    ("two registers", TWO, 5, "10110", "10", "10101"), ("two registers, other starts", TWO, 5, "10110", "01", "01101"),
    ("swap", SWAP, 3, "10 01 11", "", "01 10 11"), ("registers round", ROUND, 4, "", "10", "10 01 10 01"),
    ("f zero", "01 030000 040100 1502 14 1200 1A0000", 3, "101", "", "01 00 01"),
    ("a linear identity", "01 030000 040101 1502 1200", 2, "10 01", "", "01 10"),
    ("an unread register", "01 030000 14 1301 1A0000 1900 14 1A0101 1100", 2, "", "1", "00"),
];

type Refused = (usize, usize);

/// Name, sheet, ticks, inputs, starts, room, and the refusal with its place.
#[rustfmt::skip]
const REFUSED: &[(&str, &str, u16, &str, &str, usize, Refused)] = &[
    ("a ring of one point", KNOWN[3], 0, "", "", 9, (19, 0)), ("P7", KNOWN[6], 1, "", "", 9, (19, 0)),
    ("a ring of an inverter", "01 030000 1900 14 1A0501 1100", 1, "", "", 9, (19, 2)),
    ("a ring of two inverters", "01 030000 1900 14 1A0501 14 1A0501 1100", 1, "", "", 9, (19, 2)),
    ("a ring of a gate's second input", "01 030000 030001 1900 14 14 1A0202 1A0000 1100", 1, "", "", 9, (19, 3)),
    ("a ring of a gate's first input", "01 030000 030001 1900 14 14 1A0202 1100 1A0000", 1, "", "", 9, (19, 2)),
    ("a ring beside a register", "01 030000 030001 1900 14 14 1A0202 14 1A0101 1100 1100", 1, "", "0", 9, (19, 3)),
    ("behind a ring is not on it", "01 030000 14 1A0501 1900 14 1A0501 1100", 1, "", "", 9, (19, 4)),
    ("a ring that nobody reads", "01 030000 14 1301 1A0000 1900 14 1A0501 1100", 1, "", "", 9, (19, 5)),
    ("a ring of points that nobody reads", "01 030000 14 1301 1A0000 1900 1100", 1, "", "", 9, (19, 3)),
    ("two rings, the lower", "01 020000 030000 1701 1900 14 1A0502 1100 1900 1100", 1, "", "", 9, (19, 2)),
    ("19 before 20", KNOWN[3], 1, "2", "2", 9, (19, 0)), ("19 before 17", KNOWN[3], 5, "", "", 0, (19, 0)),
    ("an input too few", REG, 3, "10", "0", 9, (20, 0)), ("an input too many", REG, 3, "1010", "0", 9, (20, 0)),
    ("no inputs", REG, 3, "", "0", 9, (20, 0)), ("no start", REG, 3, "101", "", 9, (20, 0)),
    ("a start too many", REG, 3, "101", "00", 9, (20, 0)), ("a start where none is due", KNOWN[1], 1, "1", "0", 9, (20, 0)),
    ("an input where none is due", KNOWN[0], 1, "1", "", 9, (20, 0)), ("no ticks, an input", REG, 0, "1", "0", 9, (20, 0)),
    ("no ticks, no start", REG, 0, "", "", 9, (20, 0)), ("input 2", REG, 3, "102", "0", 9, (20, 0)),
    ("first input 2", REG, 3, "201", "0", 9, (20, 0)), ("start 2", REG, 3, "101", "2", 9, (20, 0)),
    ("no ticks, start 2", REG, 0, "", "2", 9, (20, 0)), ("one input of two", AND, 2, "00 0", "", 9, (20, 0)),
    ("20 before 17", REG, 3, "10", "0", 0, (20, 0)), ("one byte short", REG, 3, "101", "0", 2, (17, 3)),
    ("no room", SWAP, 3, "10 01 11", "", 0, (17, 6)), ("P8", KNOWN[7], 3, "2", "2", 0, (13, 4)),
    ("P10", KNOWN[9], 3, "2", "2", 0, (3, 0)), ("P11", KNOWN[10], 3, "", "", 0, (12, 0)),
];

pub fn edges() -> Vec<RunEdge> {
    let mut edges: Vec<RunEdge> = Vec::new();
    let mut add = |name: &str, sheet: Bytes, lent: (u16, Bytes, Bytes, usize), answer| {
        let (ticks, inputs, starts, room) = lent;
        let run = Run { sheet, ticks, inputs, starts, room, memory: MEMORY };
        edges.push(RunEdge { name: name.to_string(), run, answer });
    };
    for &(name, sheet, ticks, inputs, starts, shown) in ACCEPTED {
        let shown = bits(shown);
        add(name, hex(sheet), (ticks, bits(inputs), bits(starts), shown.len()), Ok(shown));
    }
    for &(name, sheet, ticks, inputs, starts, room, refused) in REFUSED {
        add(name, hex(sheet), (ticks, bits(inputs), bits(starts), room), Err(refused));
    }
    let long = |bit: u8| vec![bit; 65_535];
    add("65,535 ticks", hex(KNOWN[1]), (65_535, long(1), bits(""), 65_535), Ok(long(1)));
    let short = (65_535, long(1), bits(""), 65_534);
    add("65,535 ticks, one byte short", hex(KNOWN[1]), short, Err((17, 65_535)));
    let twice = hex("01 020000 030001 1302 1701 1100 1100");
    add("131,070 bytes needed", twice, (65_535, long(0), bits(""), 65_535), Err((17, 131_070)));
    let (types, term) = chain(6, 6);
    let both = bits(&"01".repeat(64));
    add("64 wires", types.sheet(&term), (2, both.clone(), bits(""), 128), Ok(both));
    add("xor of 512 zeros", gate_tree(9), (1, bits(""), bits(""), 1), Ok(bits("0")));
    let nothing = || (1, bits(""), bits(""), 64);
    add("a ring of 4,096 points", terminals_and(0), nothing(), Err((19, 0)));
    add("over 8,192 terminals", terminals_and(1), nothing(), Err((16, 0)));
    add("8,192 terminals", crowd(8_192), nothing(), Err((19, 3_840)));
    edges
}
