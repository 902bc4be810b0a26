//! Document 01, all refusals, the netlists and the stretches: one line of numbers for each case of
//! a packed corpus, to be compared with another program's.

use crate::check::check;
use crate::corpus::{Case, Kind};
use crate::netlist::{bytes, Netlist};
use crate::read::{read, stretch};
use crate::refusal::Refusal;
use crate::translate::{netlist, translate_into};
use std::collections::BTreeMap;
use std::fmt::Write;

/// The modulus of the checksum, the largest prime below 2^32.
const MODULUS: u64 = 4_294_967_291;

pub fn checksum(numbers: impl Iterator<Item = u64>) -> u64 {
    numbers.fold(0, |sum, number| (sum * 257 + number + 1) % MODULUS)
}

pub fn answer(kind: Kind, case: &Case) -> String {
    match kind {
        Kind::Reading => reading(&case.sheet),
        Kind::Typing => typing(&case.sheet),
        Kind::Making => making(&case.sheet),
        Kind::Whole => {
            let (value, full) = whole(case, false);
            format!("{full} {}{}", whole(case, true).1, stretches(&case.sheet, value))
        }
    }
}

fn refused(refusal: Refusal) -> String {
    format!("refused {} {}", refusal.number, refusal.place)
}

fn reading(sheet: &[u8]) -> String {
    let (mut line, nodes) = match read(sheet) {
        Ok(read) => {
            let nodes = read.nodes();
            let line = format!("read {} {}", read.types.len(), nodes);
            (line, vec![0, 1, nodes / 2, nodes - 1, nodes])
        }
        Err(refusal) => (refused(refusal), vec![0, 1]),
    };
    for node in nodes {
        let (start, length) = stretch(sheet, node);
        write!(line, " {start} {length}").expect("a string takes any text");
    }
    line
}

fn typing(sheet: &[u8]) -> String {
    match read(sheet).and_then(|read| check(&read)) {
        Ok(number) => format!("type {number}"),
        Err(refusal) => refused(refusal),
    }
}

fn making(sheet: &[u8]) -> String {
    match netlist(sheet, false) {
        Ok(full) => made(&full),
        Err(refusal) => refused(refusal),
    }
}

fn made(full: &Netlist) -> String {
    let written = bytes(full);
    let sum = checksum(written.iter().map(|&byte| byte.into()));
    let mut line = format!("full {} {}", written.len(), sum);
    if written.len() <= 40 {
        line.push(' ');
        for byte in written {
            write!(line, "{byte:02x}").expect("a string takes any text");
        }
    }
    line
}

/// The first two nodes, the one that a refusal may name, and the last that a sheet may have and the
/// next: where each stretch begins, and its length.
fn stretches(sheet: &[u8], value: usize) -> String {
    let mut line = String::new();
    for node in [0, 1, value, 2_047, 2_048] {
        let (start, length) = stretch(sheet, node);
        write!(line, " {start} {length}").expect("a string takes any text");
    }
    line
}

/// The value; and number, value, and the checksums of output and memory after the call.
fn whole(case: &Case, lean: bool) -> (usize, String) {
    let mut output: Vec<u8> = (0..case.room).map(|index| (index % 251 + 1) as u8).collect();
    let mut memory: Vec<u16> = (0..case.memory).map(|index| (index % 65_521 + 1) as u16).collect();
    let result = translate_into(&case.sheet, lean, &mut output, &mut memory);
    let (number, value) = match result {
        Ok(length) => (0, length),
        Err(refusal) => (refusal.number, refusal.place),
    };
    let output = checksum(output.into_iter().map(u64::from));
    let memory = checksum(memory.into_iter().map(u64::from));
    (value, format!("{number} {value} {output} {memory}"))
}

/// How many cases there are, how large, and what becomes of them.
pub fn cover(kind: Kind, cases: &[Case]) -> String {
    let mut outcomes: BTreeMap<(bool, usize), usize> = BTreeMap::new();
    let mut bytes = 0;
    for case in cases {
        bytes += case.sheet.len();
        for lean in [false, true] {
            let number = match kind {
                Kind::Reading => read(&case.sheet).err(),
                Kind::Typing => read(&case.sheet).and_then(|sheet| check(&sheet)).err(),
                Kind::Making => netlist(&case.sheet, false).err(),
                Kind::Whole => crate::translate(&case.sheet, lean, case.room, case.memory).err(),
            }
            .map_or(0, |refusal| refusal.number);
            *outcomes.entry((lean, number)).or_default() += 1;
            if kind != Kind::Whole {
                break;
            }
        }
    }
    let longest = cases.iter().map(|case| case.sheet.len()).max().unwrap_or(0);
    let mut text = format!("cases {}\nsheet bytes {bytes}, longest {longest}\n", cases.len());
    for ((lean, number), count) in outcomes {
        let call = match (kind, lean) {
            (Kind::Whole, true) => "lean: ",
            (Kind::Whole, false) => "full: ",
            _ => "",
        };
        let outcome = match number {
            0 => "accepted".to_string(),
            number => format!("refused {number}"),
        };
        writeln!(text, "{call}{outcome}: {count}").expect("a string takes any text");
    }
    text
}
