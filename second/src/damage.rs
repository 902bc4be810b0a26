//! Document 01, refusals 3 to 15, in both editions: faults put into good sheets, byte by byte or
//! record by record.

use crate::random::Random;
use crate::read::{node_body, type_body};
use crate::sheet::{Edition, SECOND_EDITION};
use crate::write::{marked, Bytes};

/// Bytes that mean something at the start of a record, and some that never do; then those that
/// only a second-edition sheet's faults need.
const KINDS: [u8; 19] = [
    0x01, 0x02, 0x03, 0x04, 0x11, 0x12, 0x13, 0x14, 0x15, 0x16, 0x17, 0x18, 0x19, 0x1A, 0x00, 0x05,
    0x1B, 0x1C, 0x31,
];

fn kinds(edition: Edition) -> &'static [u8] {
    match edition {
        Edition::First => &KINDS[..17],
        Edition::Second => &KINDS,
    }
}

/// Flip, cut, insert, delete, append or double some bytes.
pub fn damage(random: &mut Random, sheet: &[u8]) -> Bytes {
    let kinds = kinds(Edition::of(sheet));
    let mut bytes = sheet.to_vec();
    for _ in 0..random.within(1, 2) {
        let at = random.below(bytes.len() + 1);
        let byte = match random.below(3) {
            0 => random.byte(),
            1 => *random.pick(kinds),
            _ => random.below(6) as u8,
        };
        match random.below(7) {
            0 if at < bytes.len() => bytes[at] ^= 1 << random.below(8),
            1 | 2 if at < bytes.len() => bytes[at] = byte,
            3 => bytes.truncate(at),
            4 if at < bytes.len() => {
                bytes.remove(at);
            }
            5 => bytes.push(byte),
            _ => bytes.insert(at, byte),
        }
    }
    bytes
}

/// Change, copy or add whole records of a readable sheet: types repeated, ill-formed, out of order
/// or too large, terms too deep or left unfinished.
pub fn disorder(random: &mut Random, sheet: &[u8]) -> Bytes {
    let (types, nodes) = records(sheet);
    let term = nodes[0];
    let at = *random.pick(&types);
    let record = &sheet[at..at + 1 + type_body(sheet[at]).expect("a type")];
    let mut bytes = sheet.to_vec();
    match random.below(8) {
        0 => {
            bytes.splice(term..term, record.iter().copied());
        }
        1 if record.len() == 3 => bytes[at] = *random.pick(&[0x02, 0x03, 0x04]),
        2 if record.len() == 3 => {
            let number = random.below(types.len() + 1) as u8;
            bytes[at + random.within(1, 2)] = number;
        }
        3 => {
            let forms = [random.within(2, 4) as u8, random.below(types.len()) as u8];
            let right = random.below(types.len()) as u8;
            bytes.splice(term..term, [forms[0], forms[1], right]);
        }
        4 => {
            // each new product is twice as large as the one before
            let doubled = (0..random.within(5, 9)).map(|step| match step {
                0 => [0x02, 0, 0],
                _ => [0x02, (types.len() + step - 1) as u8, (types.len() + step - 1) as u8],
            });
            let doubled: Bytes = doubled.flatten().collect();
            bytes.splice(term..term, doubled);
        }
        5 => {
            let wraps: [&[u8]; 4] =
                [&[0x19, 0x00], &[0x14], &[0x18, 0x11, 0x00], &[0x1B, 0x11, 0x00]];
            let known = 3 + Edition::of(sheet).mark();
            let record = *random.pick(&wraps[..known]);
            let wrapped = record.repeat(random.within(50, 66));
            bytes.splice(term..term, wrapped);
        }
        6 => {
            let from = *random.pick(&nodes);
            bytes.extend_from_slice(&sheet[from..]);
        }
        _ => bytes.truncate(*random.pick(&nodes)),
    }
    bytes
}

/// Bytes of no meaning, or of record kinds and small numbers only.
pub fn noise(random: &mut Random, length: usize) -> Bytes {
    let wild = random.once_in(3);
    (0..length)
        .map(|_| match random.below(3) {
            _ if wild => random.byte(),
            0 => random.below(4) as u8,
            _ => *random.pick(kinds(Edition::First)),
        })
        .collect()
}

/// The offsets of a readable sheet's records, types first.
fn records(sheet: &[u8]) -> (Vec<usize>, Vec<usize>) {
    let (mut types, mut nodes) = (Vec::new(), Vec::new());
    let edition = Edition::of(sheet);
    let mut at = edition.mark();
    while at < sheet.len() {
        if let (true, Some(body)) = (nodes.is_empty(), type_body(sheet[at])) {
            types.push(at);
            at += 1 + body;
        } else {
            nodes.push(at);
            at += 1 + node_body(sheet[at], edition).expect("a readable sheet");
        }
    }
    (types, nodes)
}

/// Change one node of a readable sheet so that it stays readable: another binder, type, part or
/// sort, a subterm put in place of another, or a node around a subterm.
pub fn mistype(random: &mut Random, sheet: &[u8]) -> Bytes {
    let (types, nodes) = records(sheet);
    let mut bytes = sheet.to_vec();
    let at = *random.pick(&nodes);
    let other_type = random.below(types.len().max(1)) as u8;
    match (bytes[at], random.below(4)) {
        (_, 0) => return replant(random, sheet, &nodes),
        (0x11 | 0x12, 1) => bytes[at] ^= 0x03,
        (0x11 | 0x12, 2) => bytes[at + 1] = random.below(5) as u8,
        (0x11 | 0x12, _) => bytes[at + 1] = bytes[at + 1].wrapping_add(*random.pick(&[1, 255])),
        (0x1A, 1) => bytes[at + 1] = random.within(0, 9) as u8,
        (0x1A, 2) => bytes[at + 1] = random.byte(),
        (0x1A, _) => bytes[at + 2] = other_type,
        (0x13 | 0x15, 1) => bytes[at] ^= 0x06,
        (0x13 | 0x15 | 0x17 | 0x19, _) => bytes[at + 1] = other_type,
        (0x14 | 0x16, 1) => bytes[at] ^= 0x02,
        (0x14 | 0x16 | 0x18 | 0x1B, _) => {
            let known = 3 + Edition::of(sheet).mark();
            bytes[at] = *random.pick(&[0x14, 0x16, 0x18, 0x1B][..known]);
        }
        _ => {}
    }
    bytes
}

/// Put a copy of one subterm in the place of another.
fn replant(random: &mut Random, sheet: &[u8], nodes: &[usize]) -> Bytes {
    let (from, to) = (*random.pick(nodes), *random.pick(nodes));
    let (from_end, to_end) = (end(sheet, from), end(sheet, to));
    let mut bytes = sheet[..to].to_vec();
    bytes.extend_from_slice(&sheet[from..from_end]);
    bytes.extend_from_slice(&sheet[to_end..]);
    bytes
}

/// Where the term at an offset of a readable sheet ends.
fn end(sheet: &[u8], at: usize) -> usize {
    let mut due = 1;
    let mut here = at;
    while due > 0 {
        let kind = sheet[here];
        due = due - 1
            + match kind {
                0x13 | 0x15 | 0x19 => 1,
                0x14 | 0x16 | 0x17 | 0x18 | 0x1B => 2,
                _ => 0,
            };
        here += 1 + node_body(kind, Edition::Second).expect("a readable sheet");
    }
    here
}

/// Mistake the edition of a readable sheet: the mark put on or taken away, or put elsewhere, or a
/// record that only the second edition knows.
pub fn mistake(random: &mut Random, sheet: &[u8]) -> Bytes {
    let (types, nodes) = records(sheet);
    let records = [types, nodes.clone()].concat();
    let mut bytes = sheet.to_vec();
    match random.below(4) {
        0 if Edition::of(sheet) == Edition::Second => {
            bytes.remove(0);
        }
        0 => bytes = marked(sheet),
        1 => {
            bytes.insert(*random.pick(&records), SECOND_EDITION);
        }
        2 => bytes.push(SECOND_EDITION),
        _ => {
            let two = |&&at: &&usize| matches!(sheet[at], 0x14 | 0x16 | 0x18 | 0x1B);
            match nodes.iter().find(two) {
                Some(&at) => bytes[at] = 0x1B,
                None => bytes.insert(nodes[0], 0x1B),
            }
        }
    }
    bytes
}
