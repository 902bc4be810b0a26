//! Document 01, all refusals: packed corpora of cases, the named edges first, then generated ones;
//! those of whole calls have the second edition (document 02, L7) and the clashes (L3) too.
//! A case is room, memory, sheet length (two bytes each, low byte first) and the sheet.

use crate::check::check;
use crate::damage::{damage, disorder, mistype, noise};
use crate::edges_reading::Edge;
use crate::grow::{grow, Wish};
use crate::netlist::length;
use crate::random::Random;
use crate::read::read;
use crate::sheet::MEMORY;
use crate::translate::netlist;
use crate::wide::terminals_and;
use crate::write::{hex, Bytes};
use crate::{edges_clash, edges_edition, edges_making, edges_reading, edges_typing, editions};

/// The room that always does in plain kinds.
pub const ROOM: usize = 41_344;

const HEADER: usize = 6;

#[derive(Clone, Copy, Debug, PartialEq, Eq)]
pub enum Kind {
    Reading,
    Typing,
    Making,
    Whole,
}

impl Kind {
    pub fn named(name: &str) -> Option<Kind> {
        match name {
            "reading" => Some(Kind::Reading),
            "typing" => Some(Kind::Typing),
            "making" => Some(Kind::Making),
            "whole" => Some(Kind::Whole),
            _ => None,
        }
    }
}

#[derive(Clone, Debug, PartialEq, Eq)]
pub struct Case {
    pub room: usize,
    pub memory: usize,
    pub sheet: Bytes,
}

impl Case {
    fn plain(sheet: Bytes) -> Case {
        Case { room: ROOM, memory: MEMORY, sheet }
    }

    fn packed_length(&self) -> usize {
        HEADER + self.sheet.len()
    }
}

pub fn pack_cases(cases: &[Case]) -> Bytes {
    let mut bytes = Bytes::new();
    for case in cases {
        for number in [case.room, case.memory, case.sheet.len()] {
            bytes.extend((number as u16).to_le_bytes());
        }
        bytes.extend(&case.sheet);
    }
    bytes
}

pub fn unpack(bytes: &[u8]) -> Result<Vec<Case>, String> {
    let mut cases = Vec::new();
    let mut at = 0;
    let cut = |at: usize| format!("the packed corpus is cut short at byte {at}");
    while at < bytes.len() {
        let header = bytes.get(at..at + HEADER).ok_or_else(|| cut(at))?;
        let number =
            |index: usize| usize::from(u16::from_le_bytes([header[index], header[index + 1]]));
        let start = at + HEADER;
        let sheet = bytes.get(start..start + number(4)).ok_or_else(|| cut(at))?;
        cases.push(Case { room: number(0), memory: number(2), sheet: sheet.to_vec() });
        at = start + sheet.len();
    }
    Ok(cases)
}

/// The named edges of a kind.
pub fn named(kind: Kind) -> Vec<Case> {
    let sheets = |edges: Vec<Edge>| edges.into_iter().map(|edge| Case::plain(edge.sheet));
    match kind {
        Kind::Reading => {
            let mut cases: Vec<Case> = sheets(edges_making::known()).collect();
            cases.extend(sheets(edges_reading::edges()));
            cases
        }
        Kind::Typing => {
            let mut cases: Vec<Case> = sheets(edges_typing::edges()).collect();
            cases.extend(sheets(edges_making::edges()));
            cases
        }
        Kind::Making => sheets(edges_making::edges()).collect(),
        Kind::Whole => {
            let mut cases = Vec::new();
            for edge in edges_making::edges() {
                cases.extend(calls(&edge.sheet));
            }
            cases.extend(first_things_first());
            cases.extend(sheets(edges_typing::edges()));
            cases.extend(sheets(edges_reading::edges()));
            cases.extend(sheets(edges_edition::edges()));
            let clashes = edges_clash::edges().into_iter().chain(edges_edition::clashes());
            cases.extend(clashes.map(|clash| Case::plain(clash.sheet)));
            cases
        }
    }
}

/// The order 1; 2; records; 9; walk; 16; 17, where two of them apply.
fn first_things_first() -> Vec<Case> {
    let case = |room: usize, memory: usize, sheet: Bytes| Case { room, memory, sheet };
    let mut cases = vec![
        case(0, MEMORY - 1, vec![0x14; 16_385]),
        case(0, MEMORY, vec![0x14; 16_385]),
        case(0, MEMORY, terminals_and(1)),
        case(ROOM, MEMORY - 1, terminals_and(1)),
        case(1, MEMORY / 2, terminals_and(0)),
        case(ROOM, 1, hex("01 1A 00 00")),
    ];
    for edge in edges_making::known() {
        cases.push(case(0, MEMORY, edge.sheet.clone()));
        cases.push(case(ROOM, MEMORY + 1, edge.sheet));
    }
    cases
}

/// A sheet with the rooms and memories at which its answer changes.
fn calls(sheet: &[u8]) -> Vec<Case> {
    let case = |room: usize, memory: usize| Case { room, memory, sheet: sheet.to_vec() };
    let mut cases = vec![case(ROOM, MEMORY)];
    if sheet.len() > 400 {
        // large sheets are worth few calls: both netlists exact, both one short
        for lean in [false, true] {
            if let Ok(netlist) = netlist(sheet, lean) {
                let needed = length(&netlist);
                cases.push(case(needed, MEMORY));
                cases.push(case(needed - 1, MEMORY));
            }
        }
        return cases;
    }
    cases.push(case(ROOM, MEMORY - 1));
    cases.push(case(0, MEMORY + 2));
    cases.push(case(0, 0));
    for lean in [false, true] {
        if let Ok(netlist) = netlist(sheet, lean) {
            let needed = length(&netlist);
            for room in [needed, needed - 1, needed + 1] {
                let call = case(room, MEMORY);
                if !cases.contains(&call) {
                    cases.push(call);
                }
            }
        }
    }
    cases
}

/// COUNT cases in at most LIMIT bytes. Named edges that leave too little for the rest are left out
/// and told by the second answer.
pub fn pack(kind: Kind, seed: u64, count: usize, limit: usize) -> (Vec<Case>, usize) {
    let mut random = Random::new(seed);
    let mut cases: Vec<Case> = Vec::new();
    let mut spent = 0;
    let mut left_out = 0;
    for case in named(kind) {
        let rest = count.saturating_sub(cases.len() + 1);
        if cases.len() < count && spent + case.packed_length() + 40 * rest <= limit {
            spent += case.packed_length();
            cases.push(case);
        } else {
            left_out += 1;
        }
    }
    while cases.len() < count {
        let rest = count - cases.len();
        let most = (limit.saturating_sub(spent)) / rest;
        if rest.is_multiple_of(400) && most > 80 && spent + 5_000 + 60 * rest < limit {
            let case = Case::plain(some_large(kind, &mut random));
            spent += case.packed_length();
            cases.push(case);
            continue;
        }
        let Some(case) = generated(kind, &mut random, cases.len(), most) else { break };
        spent += case.packed_length();
        cases.push(case);
    }
    (cases, left_out)
}

/// A generated case of about the room given for it, or None if nothing at all fits.
fn generated(kind: Kind, random: &mut Random, index: usize, most: usize) -> Option<Case> {
    for _ in 0..200 {
        let large = if random.once_in(16) { 4 } else { 1 };
        let good = if most > 100 && random.once_in(2) { grown_middle } else { grown };
        let sheet = match kind {
            Kind::Reading => match index % 4 {
                0 | 1 => damaged(random),
                2 if random.once_in(3) => {
                    let length = random.within(0, 40);
                    noise(random, length)
                }
                _ => good(random),
            },
            Kind::Typing if index.is_multiple_of(2) => good(random),
            Kind::Typing => faulty(random, 10 + index / 2 % 6),
            Kind::Making => good(random),
            Kind::Whole => match index % 8 {
                0 => damaged(random),
                1 => faulty(random, 10 + index / 8 % 6),
                2..=4 => editions::any(random, index / 8 * 3 + index % 8 - 2),
                _ => good(random),
            },
        };
        let mut case = Case::plain(sheet);
        if case.packed_length() > large * most {
            continue;
        }
        if kind == Kind::Whole && !random.once_in(3) {
            let mut calls = calls(&case.sheet);
            calls.retain(|call| call.memory >= MEMORY || index.is_multiple_of(4));
            case = random.pick(&calls).clone();
            if random.once_in(4) {
                case.room = random.below(case.room + 1);
            }
        }
        return Some(case);
    }
    (most >= HEADER).then(|| Case::plain(Bytes::new()))
}

/// A well-typed sheet, most of them small.
pub fn grown(random: &mut Random) -> Bytes {
    let wish = match random.below(24) {
        0 => Wish { nodes: 120, size: 12, depth: 24, unused: 4 },
        1 => Wish { nodes: 60, size: 24, depth: 20, unused: 2 },
        2..=6 => Wish { nodes: 24, size: 8, depth: 12, unused: 1 },
        7..=15 => Wish { nodes: 12, size: 6, depth: 9, unused: 0 },
        _ => Wish { nodes: 6, size: 4, depth: 6, unused: 0 },
    };
    grow(random, wish)
}

/// A well-typed sheet of some hundred bytes.
fn grown_middle(random: &mut Random) -> Bytes {
    let wish = Wish {
        nodes: random.within(20, 60),
        size: random.within(3, 16),
        depth: random.within(8, 30),
        unused: random.below(4),
    };
    grow(random, wish)
}

/// A large sheet that suits the kind: with a fault, or accepted.
fn some_large(kind: Kind, random: &mut Random) -> Bytes {
    loop {
        let sheet = grown_large(random);
        let sheet = match kind {
            Kind::Reading => damage(random, &sheet),
            Kind::Typing if read(&sheet).is_ok() => mistype(random, &sheet),
            _ => sheet,
        };
        let suits = kind == Kind::Reading || netlist(&sheet, false).is_ok();
        if sheet.len() < 5_000 && (suits || kind == Kind::Typing) {
            return sheet;
        }
    }
}

/// A large well-typed sheet.
pub fn grown_large(random: &mut Random) -> Bytes {
    let wish = Wish {
        nodes: random.within(200, 1_800),
        size: random.within(4, 40),
        depth: random.within(20, 60),
        unused: random.below(8),
    };
    grow(random, wish)
}

pub fn damaged(random: &mut Random) -> Bytes {
    let sheet = grown(random);
    if random.once_in(2) && read(&sheet).is_ok() {
        disorder(random, &sheet)
    } else {
        damage(random, &sheet)
    }
}

/// A readable sheet with the wanted fault of typing, as far as a few tries find it.
pub fn faulty(random: &mut Random, wanted: usize) -> Bytes {
    let mut last = Bytes::new();
    for _ in 0..200 {
        let mut sheet = grown(random);
        if matches!(wanted, 13 | 14) && !sheet.contains(&0x15) {
            continue;
        }
        for _ in 0..4 {
            if read(&sheet).is_err() {
                break;
            }
            sheet = mistype(random, &sheet);
            match read(&sheet).map(|sheet| check(&sheet)) {
                Ok(Err(refusal)) if refusal.number == wanted => return sheet,
                Ok(Err(_)) => {
                    last = sheet;
                    break;
                }
                _ => {}
            }
        }
    }
    last
}

/// Any sheet at all: well-typed, damaged, faulty, noise, and now and then a large one.
pub fn any(random: &mut Random, index: usize) -> Bytes {
    match index % 8 {
        0 | 1 => damaged(random),
        2 | 3 => faulty(random, 10 + index / 8 % 6),
        4 if random.once_in(2) => {
            let length = random.within(0, 60);
            noise(random, length)
        }
        5 if random.once_in(8) => grown_large(random),
        _ => grown(random),
    }
}
