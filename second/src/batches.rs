//! Document 02, L10: generated batches, their lengths, rooms and memories near every limit.

use crate::netlist::ENOUGH;
use crate::random::Random;
use crate::sheet::MEMORY;
use crate::translate::{wished, Wish};
use crate::write::Bytes;
use crate::{circuits, corpus, editions};

/// What a batch call is lent.
#[derive(Clone, Debug, PartialEq, Eq)]
pub struct Batch {
    pub sheets: Bytes,
    pub lengths: Vec<u32>,
    pub room: usize,
    /// How many results there is room for.
    pub results: usize,
    pub memory: usize,
    pub wish: Wish,
}

impl Batch {
    /// These sheets, with room for all.
    pub fn of(sheets: &[Bytes], wish: Wish) -> Batch {
        Batch {
            sheets: sheets.concat(),
            lengths: sheets.iter().map(|sheet| sheet.len() as u32).collect(),
            room: ENOUGH * sheets.len(),
            results: sheets.len(),
            memory: MEMORY,
            wish,
        }
    }
}

/// Any batch at all: up to eight sheets, most lengths right.
pub fn any(random: &mut Random, index: usize) -> Batch {
    let count = random.below(9);
    let sheets: Vec<Bytes> = (0..count).map(|at| sheet(random, index + at)).collect();
    let wish = some_wish(random);
    let mut batch = Batch::of(&sheets, wish);
    batch.room = some_room(random, &sheets, wish);
    batch.results += match random.below(8) {
        0 => random.within(1, 4),
        _ => 0,
    };
    if random.once_in(12) {
        batch.results = random.below(count + 1);
    }
    batch.memory = match random.below(16) {
        0 => random.below(MEMORY),
        1 => MEMORY - 1,
        2..=4 => MEMORY + random.below(100),
        _ => MEMORY,
    };
    if random.once_in(6) {
        miscount(random, &mut batch);
    }
    batch
}

pub fn some_wish(random: &mut Random) -> Wish {
    Wish { lean: random.once_in(2), plain: random.once_in(3), card: random.once_in(3) }
}

fn sheet(random: &mut Random, index: usize) -> Bytes {
    match random.below(6) {
        0 => Bytes::new(),
        1 => corpus::any(random, index),
        2 => editions::any(random, index),
        _ => circuits::circuit(random),
    }
}

/// Room for all, for just these, for one less, or for a part of them.
fn some_room(random: &mut Random, sheets: &[Bytes], wish: Wish) -> usize {
    let written = |sheet: &Bytes| wished(sheet, wish, ENOUGH, MEMORY).map_or(0, |made| made.len());
    let needed: usize = sheets.iter().map(written).sum();
    match random.below(6) {
        0 => needed,
        1 => needed.saturating_sub(1),
        2 | 3 => random.below(needed + 1),
        _ => needed + random.below(2_000),
    }
}

/// Lengths that do not add up, or add up to the bytes in another way.
fn miscount(random: &mut Random, batch: &mut Batch) {
    let count = batch.lengths.len();
    match random.below(6) {
        0 => batch.lengths.push(random.below(3) as u32),
        1 => batch.sheets.push(0x01),
        2 => {
            batch.sheets.pop();
        }
        3 if count > 0 => {
            // 2^32 too many: the sum is right in 32 bits
            batch.lengths.push(u32::MAX);
            batch.lengths.push(1);
        }
        4 if count > 1 => {
            let moved = batch.lengths[0].min(1);
            batch.lengths[0] -= moved;
            batch.lengths[1] += moved;
        }
        _ => batch.lengths.push(0),
    }
    if random.once_in(2) {
        batch.results = batch.lengths.len();
    }
}
