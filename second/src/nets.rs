//! Document 02, L8 and L11: generated netlists. Our own, full and lean; well-formed ones that need
//! come from no sheet; either damaged record by record; and noise.

use crate::circuits;
use crate::netlist::*;
use crate::parts::PARTS;
use crate::random::Random;
use crate::translate::netlist;
use crate::write::Bytes;

/// A netlist's bytes, and whether the caller calls it a lean one.
#[derive(Clone, Debug, PartialEq, Eq)]
pub struct Given {
    pub net: Bytes,
    pub lean: bool,
}

/// Any netlist at all.
pub fn any(random: &mut Random, index: usize) -> Given {
    let lean = random.once_in(2);
    let net = match index % 8 {
        0 => own(random, index),
        1 | 2 => bytes(&formed(random, lean)),
        3 => {
            let length = random.within(0, 40);
            noise(random, length)
        }
        4 => {
            let net = own(random, index);
            damage(random, &net)
        }
        _ => {
            let net = bytes(&formed(random, lean));
            damage(random, &net)
        }
    };
    // now and then the caller is mistaken
    Given { net, lean: lean != random.once_in(10) }
}

/// A netlist of an accepted sheet.
fn own(random: &mut Random, index: usize) -> Bytes {
    for turn in 0.. {
        let sheet = circuits::any(random, index + turn);
        let lean = random.once_in(2);
        if let Ok(made) = netlist(&sheet, lean) {
            return bytes(&made);
        }
    }
    unreachable!("the turns do not end")
}

/// A well-formed netlist of points and parts, some inputs open.
pub fn formed(random: &mut Random, gaps: bool) -> Netlist {
    let count = random.below(12);
    let points = random.below(3);
    let pick = |random: &mut Random| match random.below(8) < points {
        true => None,
        false => Some(random.below(PARTS.len()) as u8),
    };
    let elements: Vec<Option<u8>> = (0..count).map(|_| pick(random)).collect();
    join(random, &elements, gaps, 4)
}

/// A well-formed netlist of parts alone, near L11's limits of 16 parts and 24 open inputs.
pub fn parts_alone(random: &mut Random, gaps: bool) -> Netlist {
    let count = match random.below(8) {
        0 => random.below(2),
        1..=3 => random.within(13, 18),
        _ => random.within(1, 6),
    };
    let elements: Vec<Option<u8>> =
        (0..count).map(|_| Some(random.below(PARTS.len()) as u8)).collect();
    let open_of_eight = *random.pick(&[0, 2, 4, 7, 8]);
    join(random, &elements, gaps, open_of_eight)
}

/// Elements (None for a point) with numbers, each input with a wire from any output or, so many
/// times of eight, with a pin; wires and pins in any order, some outputs as pins.
fn join(random: &mut Random, kinds: &[Option<u8>], gaps: bool, open_of_eight: usize) -> Netlist {
    let mut made = Netlist::default();
    let mut next = 0;
    for kind in kinds {
        if gaps && random.once_in(4) {
            next += random.within(1, 300) as u16;
        }
        let element = match *kind {
            None => Element::Point { input: Input(next) },
            Some(part) => Element::Part { part, first: next },
        };
        next += element.terminals() as u16;
        made.elements.push(element);
    }
    let outputs: Vec<Output> = made.elements.iter().map(|element| element.output()).collect();
    for element in made.elements.clone() {
        for input in element.inputs() {
            if random.below(8) < open_of_eight {
                made.pins.push(Terminal::Input(input));
            } else {
                made.wires.push(Wire { from: *random.pick(&outputs), to: input });
            }
        }
    }
    for _ in 0..random.below(4) {
        if !outputs.is_empty() {
            made.pins.push(Terminal::Output(*random.pick(&outputs)));
        }
    }
    shuffle(random, &mut made.wires);
    shuffle(random, &mut made.pins);
    made
}

fn shuffle<T>(random: &mut Random, list: &mut [T]) {
    for at in (1..list.len()).rev() {
        list.swap(at, random.below(at + 1));
    }
}

/// A netlist to be turned back into a sheet: most have no points.
pub fn for_back(random: &mut Random, index: usize) -> Given {
    let lean = random.once_in(2);
    match index % 8 {
        0 => any(random, index / 8),
        1 => {
            let net = bytes(&parts_alone(random, lean));
            Given { net: damage(random, &net), lean }
        }
        2 => Given { net: bytes(&formed(random, lean)), lean },
        _ => Given { net: bytes(&parts_alone(random, lean)), lean },
    }
}

/// The records of a netlist in plain kinds.
fn records(net: &[u8]) -> Vec<Bytes> {
    let mut records = Vec::new();
    let mut at = 0;
    while at < net.len() {
        let length = match net[at] {
            0x22 => 4,
            0x23 => 5,
            _ => 3,
        };
        records.push(net[at..at + length].to_vec());
        at += length;
    }
    records
}

/// Change, drop, double, move or cut a record or two.
pub fn damage(random: &mut Random, net: &[u8]) -> Bytes {
    let mut records = records(net);
    for _ in 0..random.within(1, 2) {
        if records.is_empty() {
            return bytes_of_no_record(random);
        }
        let at = random.below(records.len());
        match random.below(13) {
            0 => {
                records.remove(at);
            }
            1 => records.insert(at, records[at].clone()),
            2 => {
                let to = random.below(records.len());
                records.swap(at, to);
            }
            3 => records[at][0] = random.within(0x20, 0x26) as u8,
            4 => {
                records[at].pop();
            }
            5 => records.insert(at, bytes_of_no_record(random)),
            6..=9 => misfeed(random, &mut records),
            10 if records[at][0] == 0x22 => records[at][1] = random.below(9) as u8,
            _ => renumber(random, &mut records[at]),
        }
        records.retain(|record| !record.is_empty());
    }
    records.concat()
}

/// Drop or double a wire or a pin, or give a wire the end of another.
fn misfeed(random: &mut Random, records: &mut Vec<Bytes>) {
    let feeds: Vec<usize> = (0..records.len())
        .filter(|&at| records[at].len() >= 3 && matches!(records[at][0], 0x23 | 0x24))
        .collect();
    if feeds.is_empty() {
        return;
    }
    let (at, other) = (*random.pick(&feeds), *random.pick(&feeds));
    match random.below(3) {
        0 => {
            records.remove(at);
        }
        1 => records.insert(at, records[at].clone()),
        _ => {
            let end = records[other][records[other].len() - 2..].to_vec();
            let length = records[at].len();
            records[at][length - 2..].copy_from_slice(&end);
        }
    }
}

/// Another terminal number in a record's last two bytes, or a wire's first two.
fn renumber(random: &mut Random, record: &mut [u8]) {
    let length = record.len();
    if length < 3 {
        return;
    }
    let at = if record[0] == 0x23 && length == 5 && random.once_in(2) { 1 } else { length - 2 };
    let old = u16::from_le_bytes([record[at], record[at + 1]]);
    let new = match random.below(8) {
        0 => 8_191,
        1 => 8_192,
        2 => 65_535,
        3 => random.below(8_200) as u16,
        4 => old ^ 0x0100,
        5 => old.wrapping_sub(1),
        6 => old.wrapping_add(1),
        _ => random.below(30) as u16,
    };
    record[at..at + 2].copy_from_slice(&new.to_le_bytes());
}

fn bytes_of_no_record(random: &mut Random) -> Bytes {
    let length = random.within(1, 5);
    noise(random, length)
}

/// Kinds and small numbers.
pub fn noise(random: &mut Random, length: usize) -> Bytes {
    (0..length)
        .map(|_| match random.below(4) {
            0 => random.within(0x20, 0x26) as u8,
            1 => random.byte(),
            _ => random.below(4) as u8,
        })
        .collect()
}
