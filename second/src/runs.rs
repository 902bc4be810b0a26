//! Document 02, L4: generated runs, with bits and rooms right, or wrong by a little.

use crate::lean::lean;
use crate::random::Random;
use crate::run::Circuit;
use crate::sheet::MEMORY;
use crate::translate::accepted;
use crate::write::Bytes;
use crate::{circuits, corpus};

/// What a run is lent.
#[derive(Clone, Debug, PartialEq, Eq)]
pub struct Run {
    pub sheet: Bytes,
    pub ticks: u16,
    pub inputs: Bytes,
    pub starts: Bytes,
    pub room: usize,
    pub memory: usize,
}

/// Any run at all; most of the sheets are circuits, most of the bits right.
pub fn any(random: &mut Random, index: usize) -> Run {
    let sheet = match index % 10 {
        0 => corpus::any(random, index / 10),
        1 => corpus::grown(random),
        2 => circuits::any(random, index / 10),
        _ => circuits::circuit(random),
    };
    let ticks = match random.below(24) {
        0 => random.below(2_000) as u16,
        1..=3 => 0,
        _ => random.below(20) as u16,
    };
    let mut run = fitting(random, sheet, ticks);
    if random.once_in(5) {
        spoil(random, &mut run);
    }
    run.room = match random.below(8) {
        0 => run.room.saturating_sub(1),
        1 => random.below(run.room + 1),
        2 => run.room + random.below(100),
        _ => run.room,
    };
    run.memory = match random.below(20) {
        0 => MEMORY - 1,
        1..=4 => MEMORY + random.below(9),
        _ => MEMORY,
    };
    run
}

/// A run of a sheet with just the bits and the room that it asks for, as far as it is accepted.
pub fn fitting(random: &mut Random, sheet: Bytes, ticks: u16) -> Run {
    let (inputs, registers, outputs) = match accepted(&sheet) {
        Ok(accepted) => Circuit::of(lean(&accepted.full)).counts(),
        Err(_) => (random.below(4), random.below(4), 1),
    };
    let length = usize::from(ticks);
    Run {
        sheet,
        ticks,
        inputs: bits(random, length * inputs),
        starts: bits(random, registers),
        room: length * outputs,
        memory: MEMORY,
    }
}

fn bits(random: &mut Random, count: usize) -> Bytes {
    (0..count).map(|_| random.below(2) as u8).collect()
}

/// One bit too many or too few, or a byte that is no bit.
fn spoil(random: &mut Random, run: &mut Run) {
    let wrong = if random.once_in(2) { 2 } else { random.within(2, 255) as u8 };
    let inputs = random.once_in(2);
    let list = if inputs { &mut run.inputs } else { &mut run.starts };
    match random.below(4) {
        0 => list.push(random.below(2) as u8),
        1 => {
            list.pop();
        }
        _ if !list.is_empty() => {
            let at = random.below(list.len());
            list[at] = wrong;
        }
        _ => run.ticks = run.ticks.wrapping_add(1),
    }
}
