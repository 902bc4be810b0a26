//! Named runs of sixteen traces, with the numbers left or the refusal worked out by hand.

use crate::edges_making::KNOWN;
use crate::edges_run::{AND, REG, ROUND, SUM, SWAP, TOGGLE, TWO};
use crate::lane_runs::Lanes;
use crate::lanes::Left;
use crate::sheet::MEMORY;
use crate::wide::{chain, crowd, gate_tree, terminals_and, tower};
use crate::write::{apply, constant, fix, hex, marked, pair, variable, Bytes, Types};

pub struct LanesEdge {
    pub name: String,
    pub lanes: Lanes,
    /// What is left, or the refusal with its place.
    pub answer: Result<Left, (usize, usize)>,
}

/// Numbers in hex, one space apart.
fn numbers(text: &str) -> Vec<u16> {
    text.split_whitespace().map(|word| u16::from_str_radix(word, 16).expect("a number")).collect()
}

/// Name, sheet, ticks, inputs, state, and the numbers written and the state left.
#[rustfmt::skip]
const ACCEPTED: &[(&str, &str, u16, &str, &str, &str, &str)] = &[
    ("zero", KNOWN[0], 3, "", "", "0000 0000 0000", ""), ("one, in all lanes", "01 1A0600", 2, "", "", "FFFF FFFF", ""),
    ("a wire through", KNOWN[1], 4, "1234 0000 FFFF 8001", "", "1234 0000 FFFF 8001", ""),
    ("no ticks, no registers", KNOWN[1], 0, "", "", "", ""), ("no ticks, no inputs, no registers", KNOWN[0], 0, "", "", "", ""),
    ("no ticks: the state stays", REG, 0, "", "00FF", "", "00FF"), ("no ticks, two registers", TWO, 0, "", "1234 5678", "", "1234 5678"),
    ("P3: no inputs", KNOWN[2], 3, "", "BEEF", "BEEF 0000 0000", "0000"), ("P5", KNOWN[4], 2, "5A5A 8001", "", "5A5A 8001", ""),
    ("P6", KNOWN[5], 1, "", "FFFF", "0000", "0000"),
    ("reg", REG, 2, "AAAA 5555", "00FF", "00FF AAAA", "5555"), ("reg, one tick", REG, 1, "8001", "7FFE", "7FFE", "8001"),
    ("inv", "01 030000 1A0501", 3, "5A5A 0000 FFFE", "", "A5A5 FFFF 0001", ""), ("and", AND, 1, "CCCC AAAA", "", "8888", ""),
    ("or", "01 030000 030001 1A0302", 1, "CCCC AAAA", "", "EEEE", ""), ("xor", "01 030000 030001 1A0402", 1, "CCCC AAAA", "", "6666", ""),
    ("xor of a pair", "31 01 020000 030100 1A0402", 2, "CCCC AAAA FFFF 0001", "", "6666 FFFE", ""),
    ("reg in the second edition", "31 01 030000 1A0101", 2, "AAAA 5555", "00FF", "00FF AAAA", "5555"),
    ("toggle", TOGGLE, 3, "", "00FF", "FF00 00FF FF00", "FF00"), ("toggle, an even number of ticks", TOGGLE, 4, "", "1234", "EDCB 1234 EDCB 1234", "1234"),
    ("sum", SUM, 3, "000F 00F1 8000", "0001", "000E 00FF 80FF", "80FF"),
    ("two registers, one tick", TWO, 1, "1234", "0001 8000", "0001", "8000 1234"),
    ("two registers", TWO, 2, "1234 5678", "0001 8000", "0001 8000", "1234 5678"),
    ("two registers, three ticks", TWO, 3, "1234 5678 9ABC", "0001 8000", "0001 8000 1234", "5678 9ABC"),
    ("swap", SWAP, 2, "1234 5678 0001 8000", "", "5678 1234 8000 0001", ""),
    ("registers round", ROUND, 3, "", "1234 5678", "1234 5678 5678 1234 1234 5678", "5678 1234"),
    ("f zero", "01 030000 040100 1502 14 1200 1A0000", 2, "1234 FFFF", "", "0000 1234 0000 FFFF", ""),
    ("a linear identity", "01 030000 040101 1502 1200", 1, "1234 5678", "", "5678 1234", ""),
    ("an unread register", "01 030000 14 1301 1A0000 1900 14 1A0101 1100", 2, "", "8001", "0000 0000", "8001"),
];

type Refused = (usize, usize);

/// Name, sheet, ticks, inputs, state, room, and the refusal with its place.
#[rustfmt::skip]
const REFUSED: &[(&str, &str, u16, &str, &str, usize, Refused)] = &[
    ("a ring of one point", KNOWN[3], 0, "", "", 9, (19, 0)), ("P7", KNOWN[6], 1, "", "", 9, (19, 0)),
    ("a ring of an inverter", "01 030000 1900 14 1A0501 1100", 1, "", "", 9, (19, 2)),
    ("a ring beside a register", "01 030000 030001 1900 14 14 1A0202 14 1A0101 1100 1100", 1, "", "BEEF", 9, (19, 3)),
    ("a ring that nobody reads", "01 030000 14 1301 1A0000 1900 14 1A0501 1100", 1, "", "", 9, (19, 5)),
    ("19 before 20", KNOWN[3], 1, "0001", "0001", 9, (19, 0)), ("19 before 17", KNOWN[3], 5, "", "", 0, (19, 0)),
    ("an input too few", REG, 3, "0001 0002", "BEEF", 9, (20, 0)), ("an input too many", REG, 3, "0001 0002 0003 0004", "BEEF", 9, (20, 0)),
    ("no inputs", REG, 3, "", "BEEF", 9, (20, 0)), ("no state", REG, 3, "0001 0002 0003", "", 9, (20, 0)),
    ("the state of two registers", REG, 3, "0001 0002 0003", "BEEF BEEF", 9, (20, 0)),
    ("the state of one register for two", TWO, 1, "0001", "BEEF", 9, (20, 0)),
    ("a state where none is due", KNOWN[1], 1, "0001", "BEEF", 9, (20, 0)), ("an input where none is due", KNOWN[0], 1, "0001", "", 9, (20, 0)),
    ("no ticks, an input", REG, 0, "0001", "BEEF", 9, (20, 0)), ("no ticks, no state", REG, 0, "", "", 9, (20, 0)),
    ("no ticks, another sheet's state", REG, 0, "", "BEEF BEEF", 9, (20, 0)), ("one input of two", AND, 2, "0001 0002 0003", "", 9, (20, 0)),
    ("20 before 17", REG, 3, "0001 0002", "BEEF", 0, (20, 0)), ("one number short", REG, 3, "0001 0002 0003", "BEEF", 2, (17, 3)),
    ("no output", REG, 1, "0001", "BEEF", 0, (17, 1)), ("no room for two pins", SWAP, 3, "0001 0002 0003 0004 0005 0006", "", 0, (17, 6)),
    ("half the room", SWAP, 1, "0001 0002", "", 1, (17, 2)),
];

/// A sheet for each refusal that reading, typing and making have, with its place; `long` and `deep` ones are added to these.
#[rustfmt::skip]
const SHEETS: &[(&str, Refused)] = &[
    ("", (3, 0)), ("00", (4, 0)), ("02 00 00", (5, 0)), ("01 04 00 00", (6, 1)), ("01 01", (7, 1)), ("01 1A0000 00", (9, 4)),
    ("11 00", (10, 0)), ("01 030000 1301 1200", (11, 1)), (KNOWN[10], (12, 0)), (KNOWN[7], (13, 4)), (KNOWN[8], (14, 0)), ("01 1A0700", (15, 0)),
];

/// Refusals 2 to 16, in one edition.
fn of_the_sheet() -> Vec<(Bytes, Refused)> {
    let mut sheets: Vec<(Bytes, Refused)> =
        SHEETS.iter().map(|&(text, refused)| (hex(text), refused)).collect();
    sheets.push((vec![0x14; 16_385], (2, 0)));
    let deep = tower(65);
    let last = deep.len() - 2;
    sheets.push((deep, (8, last)));
    sheets.push((terminals_and(1), (16, 0)));
    sheets
}

/// 128 toggles side by side, the most output pins that a sheet has, and as many registers.
fn toggles() -> Bytes {
    let mut types = Types::new();
    let (bit, reg) = (types.bit(), types.reg());
    let toggle = fix(bit, &apply(&constant(5, reg), &apply(&constant(1, reg), &variable(0))));
    let mut side = toggle;
    for level in 1..=7 {
        let both = types.bits(level);
        side = pair(both, &side, &side);
    }
    types.sheet(&side)
}

pub fn edges() -> Vec<LanesEdge> {
    let mut edges = Vec::new();
    let mut add = |name: &str, sheet: Bytes, lent: (u16, Vec<u16>, Vec<u16>, usize), answer| {
        let (ticks, inputs, state, room) = lent;
        let lanes = Lanes { sheet, ticks, inputs, state, room, memory: MEMORY };
        edges.push(LanesEdge { name: name.to_string(), lanes, answer });
    };
    for &(name, sheet, ticks, inputs, state, out, after) in ACCEPTED {
        let left = Left { out: numbers(out), state: numbers(after) };
        add(name, hex(sheet), (ticks, numbers(inputs), numbers(state), left.out.len()), Ok(left));
    }
    for &(name, sheet, ticks, inputs, state, room, refused) in REFUSED {
        add(name, hex(sheet), (ticks, numbers(inputs), numbers(state), room), Err(refused));
    }
    let some = |room| (2, numbers("1234 5678"), numbers("BEEF"), room);
    for (sheet, (number, place)) in of_the_sheet() {
        // of 2 and of 10 to 16 the place is no offset of the sheet
        let offset = usize::from((3..=9).contains(&number));
        add(
            &format!("{number}, second edition"),
            marked(&sheet),
            some(0),
            Err((number, place + offset)),
        );
        add(&format!("{number}"), sheet, some(9), Err((number, place)));
    }
    limits(&mut add);
    edges
}

type Lent = (u16, Vec<u16>, Vec<u16>, usize);

/// The most ticks, pins and terminals.
fn limits(add: &mut impl FnMut(&str, Bytes, Lent, Result<Left, Refused>)) {
    const MOST: usize = 65_535;
    let ticks = u16::MAX;
    let left = |out: Vec<u16>, state: Vec<u16>| Ok(Left { out, state });
    let rising: Vec<u16> = (0..ticks).collect();
    add(
        "65,535 ticks",
        hex(KNOWN[1]),
        (ticks, rising.clone(), vec![], MOST),
        left(rising.clone(), vec![]),
    );
    // tick t shows what came at tick t - 1
    let delayed: Vec<u16> = [7].into_iter().chain(0..ticks - 1).collect();
    add(
        "65,535 ticks through a register",
        hex(REG),
        (ticks, rising.clone(), vec![7], MOST + 1),
        left(delayed, vec![ticks - 1]),
    );
    add(
        "65,535 ticks, one number short",
        hex(REG),
        (ticks, rising, vec![7], MOST - 1),
        Err((17, MOST)),
    );
    // an inverter behind each register: at even ticks what is not its state, and so after an odd number of ticks
    let state: Vec<u16> = (0..128).map(|register| register * 257).collect();
    let turned: Vec<u16> = state.iter().map(|number| !number).collect();
    let shown = [turned.clone(), state.clone()].concat().repeat(MOST / 2);
    let shown = [shown, turned.clone()].concat();
    add(
        "65,535 ticks, the largest room",
        toggles(),
        (ticks, vec![], state.clone(), 128 * MOST),
        left(shown, turned),
    );
    add(
        "65,535 ticks, the largest room, one less",
        toggles(),
        (ticks, vec![], state, 128 * MOST - 1),
        Err((17, 128 * MOST)),
    );
    let (types, term) = chain(6, 6);
    let through: Vec<u16> = (0..128).map(|number| number * 511).collect();
    add("64 wires", types.sheet(&term), (2, through.clone(), vec![], 128), left(through, vec![]));
    add("xor of 512 zeros", gate_tree(9), (1, vec![], vec![], 1), left(vec![0], vec![]));
    let nothing = || (1, vec![], vec![], 64);
    add("a ring of 4,096 points", terminals_and(0), nothing(), Err((19, 0)));
    add("8,192 terminals", crowd(8_192), nothing(), Err((19, 3_840)));
}
