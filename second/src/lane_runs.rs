//! Generated runs of sixteen traces, with numbers and rooms right, or wrong by a little.

use crate::random::Random;
use crate::runs;
use crate::write::Bytes;

/// What a call is lent.
#[derive(Clone, Debug, PartialEq, Eq)]
pub struct Lanes {
    pub sheet: Bytes,
    pub ticks: u16,
    pub inputs: Vec<u16>,
    pub state: Vec<u16>,
    /// The output, in numbers.
    pub room: usize,
    pub memory: usize,
}

/// Any run at all: as many numbers as a run of one trace has bits, right or wrong.
pub fn any(random: &mut Random, index: usize) -> Lanes {
    let one = runs::any(random, index);
    widened(random, one)
}

/// A run of a sheet with just the numbers and the room that it asks for, as far as it is accepted.
pub fn fitting(random: &mut Random, sheet: Bytes, ticks: u16) -> Lanes {
    let one = runs::fitting(random, sheet, ticks);
    widened(random, one)
}

/// A run of one trace with any numbers where its bits were.
fn widened(random: &mut Random, one: runs::Run) -> Lanes {
    let inputs = numbers(random, one.inputs.len());
    let state = numbers(random, one.starts.len());
    let runs::Run { sheet, ticks, room, memory, .. } = one;
    Lanes { sheet, ticks, inputs, state, room, memory }
}

/// Any numbers, and more often than by lot those with all bits alike.
fn numbers(random: &mut Random, count: usize) -> Vec<u16> {
    let mut number = || match random.below(16) {
        0 => 0,
        1 => u16::MAX,
        _ => random.draw() as u16,
    };
    (0..count).map(|_| number()).collect()
}
