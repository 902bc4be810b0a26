//! Named questions whether a pin is ever 1, with the answer and the trace worked out by hand.

use crate::edges_making::KNOWN;
use crate::nevers::Never;
use crate::sheet::MEMORY;
use crate::write::{hex, Bytes};

pub struct NeverEdge {
    pub name: String,
    pub never: Never,
    /// How many states there are, or the refusal with its place.
    pub answer: Result<usize, (usize, usize)>,
    /// The trace that is written: start bits, then input bits.
    pub trace: Bytes,
}

/// Bits as digits.
fn bits(text: &str) -> Bytes {
    text.bytes().filter(u8::is_ascii_digit).map(|digit| digit - b'0').collect()
}

const REG: &str = "01 030000 1A0101";
/// fun x. fix s. or x (reg s)
const STICKY: &str = "01 030000 030001 1301 1900 14 14 1A0302 1101 14 1A0101 1100";
/// fun x. fix s. and (reg s) (or x (reg s)), two registers: once 0, it stays 0
const FALLEN: &str =
    "01 030000 030001 1301 1900 14 14 1A0202 14 1A0101 1100 14 14 1A0302 1101 14 1A0101 1100";
/// fix x. inv (reg x)
const TOGGLE: &str = "01 030000 1900 14 1A0501 14 1A0101 1100";
/// reg (reg x): the outer register has the lower terminals
const TWO: &str = "01 030000 1301 14 1A0101 14 1A0101 1100";
/// Two registers of each other's outputs
const ROUND: &str = "01 020000 030000 1901 18 1100 1701 14 1A0102 1100 14 1A0102 1101";
/// fun x. xor x x
const ALIKE: &str = "01 030000 030001 1301 14 14 1A0402 1100 1100";

/// Name, sheet, start bytes, pin, and how many states there are.
#[rustfmt::skip]
const HOLDS: &[(&str, &str, &str, u16, usize)] = &[
    ("zero", KNOWN[0], "", 0, 1), ("xor of a wire and itself", ALIKE, "", 0, 1),
    ("P3 from 0", KNOWN[2], "0", 0, 1),
    ("P6 from 0", KNOWN[5], "0", 0, 1), ("P6 from 1", KNOWN[5], "1", 0, 2), ("P6 from either", KNOWN[5], "2", 0, 2),
    ("fallen from 0", FALLEN, "00", 0, 1),
    ("registers round from 0", ROUND, "00", 0, 1), ("registers round, the other pin", ROUND, "00", 1, 1),
];

/// Name, sheet, start bytes, pin, the first tick, and the trace.
#[rustfmt::skip]
const SHOWN: &[(&str, &str, &str, u16, usize, &str)] = &[
    ("one", "01 1A0600", "", 0, 0, ""), ("a wire through", KNOWN[1], "", 0, 0, "1"),
    ("P3 from 1", KNOWN[2], "1", 0, 0, "1"), ("P3 from either", KNOWN[2], "2", 0, 0, "1"),
    ("reg from 0", REG, "0", 0, 1, "0 1 0"), ("reg from 1", REG, "1", 0, 0, "1 0"),
    ("sticky from 0", STICKY, "0", 0, 0, "0 1"), ("sticky from 1", STICKY, "1", 0, 0, "1 0"),
    ("sticky from either", STICKY, "2", 0, 0, "0 1"), ("fallen from 1", FALLEN, "11", 0, 0, "11 0"),
    ("toggle from 0", TOGGLE, "0", 0, 0, "0"), ("toggle from 1", TOGGLE, "1", 0, 1, "1"),
    ("toggle from either", TOGGLE, "2", 0, 0, "0"),
    ("two registers", TWO, "00", 0, 2, "00 1 0 0"), ("two registers, the inner one either", TWO, "02", 0, 1, "01 0 0"),
    ("two registers, the outer one either", TWO, "20", 0, 0, "10 0"), ("two registers, both either", TWO, "22", 0, 0, "10 0"),
    ("registers round", ROUND, "10", 0, 0, "10"), ("registers round, the other pin", ROUND, "10", 1, 1, "10"),
    ("registers round, one either", ROUND, "02", 0, 1, "01"),
];

type Refused = (usize, usize);

/// Name, sheet, start bytes, pin, numbers lent for the trail and the queue, and the refusal with its place.
#[rustfmt::skip]
const REFUSED: &[(&str, &str, &str, u16, (usize, usize), Refused)] = &[
    ("a ring of one point", KNOWN[3], "", 0, (1, 1), (19, 0)),
    ("a ring of an inverter, and nothing else right", "01 030000 1900 14 1A0501 1100", "3", 9, (0, 0), (19, 2)),
    ("no sheet", "", "", 0, (1, 1), (3, 0)), ("P8", KNOWN[7], "", 0, (1, 1), (13, 4)), ("P11", KNOWN[10], "", 0, (1, 1), (12, 0)),
    ("a damaged sheet", "01 030000 1A01", "0", 0, (2, 2), (3, 4)),
    ("a start byte 3", REG, "3", 0, (2, 2), (43, 0)), ("a start byte 9 before a right one", TWO, "90", 0, (4, 4), (43, 0)),
    ("no start byte", REG, "", 0, (2, 2), (43, 0)), ("two start bytes", REG, "00", 0, (2, 2), (43, 0)),
    ("start bytes before the pin", REG, "", 1, (0, 0), (43, 0)),
    ("no such pin", REG, "0", 1, (2, 2), (44, 1)), ("no such pin of two", ROUND, "00", 2, (4, 4), (44, 2)),
    ("pin 65,535", REG, "0", 65_535, (2, 2), (44, 1)), ("the pin before the room", REG, "0", 1, (0, 0), (44, 1)),
    ("a trail one short", REG, "0", 0, (1, 2), (45, 2)), ("a queue one short", REG, "0", 0, (2, 1), (45, 2)),
    ("both one short, two registers", TWO, "00", 0, (3, 3), (45, 4)), ("nothing lent", KNOWN[0], "", 0, (0, 0), (45, 1)),
];

/// So many registers in a row behind one input pin.
pub fn row(registers: usize) -> Bytes {
    hex(&format!("01 030000 1301 {} 1100", "14 1A0101".repeat(registers)))
}

/// So many input pins, the last one of which is the output.
pub fn wide(inputs: usize) -> Bytes {
    let arrows: String = (0..inputs).map(|k| format!("0300{k:02X}")).collect();
    let functions: String = (1..=inputs).rev().map(|k| format!("13{k:02X}")).collect();
    hex(&format!("01 {arrows} {functions} 1100"))
}

pub fn edges() -> Vec<NeverEdge> {
    let mut edges = Vec::new();
    let mut add = |name: &str,
                   sheet: Bytes,
                   starts: Bytes,
                   pin,
                   lent: (usize, usize),
                   room,
                   answer,
                   trace: Bytes| {
        let never =
            Never { sheet, starts, pin, trail: lent.0, queue: lent.1, room, memory: MEMORY };
        edges.push(NeverEdge { name: name.to_string(), never, answer, trace });
    };
    let just = |starts: &str| (1usize << bits(starts).len(), 1usize << bits(starts).len());
    for &(name, sheet, starts, pin, states) in HOLDS {
        add(name, hex(sheet), bits(starts), pin, just(starts), 9, Ok(states), bits(""));
    }
    for &(name, sheet, starts, pin, tick, trace) in SHOWN {
        let trace = bits(trace);
        add(
            name,
            hex(sheet),
            bits(starts),
            pin,
            just(starts),
            trace.len(),
            Err((40, tick)),
            trace.clone(),
        );
        if let Some(short) = trace.len().checked_sub(1) {
            let name = format!("{name}, the output one short");
            add(
                &name,
                hex(sheet),
                bits(starts),
                pin,
                just(starts),
                short,
                Err((40, tick)),
                bits(""),
            );
        }
    }
    for &(name, sheet, starts, pin, lent, refused) in REFUSED {
        add(name, hex(sheet), bits(starts), pin, lent, 9, Err(refused), bits(""));
    }
    let zeros = |count: usize| vec![0; count];
    let shift = |registers: usize| [zeros(registers), vec![1], zeros(registers)].concat();
    for registers in [3, 4, 5, 6, 8, 12, 20] {
        let lent = (1 << registers, 1 << registers);
        let name = format!("{registers} registers in a row");
        let (answer, trace) = (Err((40, registers)), shift(registers));
        add(&name, row(registers), zeros(registers), 0, lent, 64, answer, trace);
    }
    add("21 registers", row(21), zeros(21), 0, (1, 1), 64, Err((41, 21)), bits(""));
    add(
        "30 registers, and nothing else right",
        row(30),
        bits("9"),
        7,
        (0, 0),
        9,
        Err((41, 30)),
        bits(""),
    );
    let last = |inputs: usize| [zeros(inputs - 1), vec![1]].concat();
    add("12 input pins", wide(12), bits(""), 0, (1, 1), 12, Err((40, 0)), last(12));
    add("13 input pins", wide(13), bits(""), 0, (1, 1), 64, Err((42, 13)), bits(""));
    add(
        "13 input pins, and nothing else right",
        wide(13),
        bits("3"),
        9,
        (0, 0),
        64,
        Err((42, 13)),
        bits(""),
    );
    edges
}
