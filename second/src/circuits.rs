//! Document 02, L1, L4 and L12: generated sheets whose lean netlists are mostly circuits of parts,
//! since a ring of points alone is all that those calls would see of most others.

use crate::corpus;
use crate::editions;
use crate::grow::{grow_guarded, Wish};
use crate::random::Random;
use crate::sheet::Edition;
use crate::write::Bytes;

/// A well-typed sheet without rings of points, most of them small.
pub fn circuit(random: &mut Random) -> Bytes {
    let wish = match random.below(8) {
        0 => Wish { nodes: 100, size: 10, depth: 24, unused: 2 },
        1..=3 => Wish { nodes: 40, size: 6, depth: 16, unused: 0 },
        _ => Wish { nodes: 16, size: 4, depth: 10, unused: 0 },
    };
    let edition = if random.once_in(3) { Edition::Second } else { Edition::First };
    grow_guarded(random, wish, edition)
}

/// A large one.
pub fn large_circuit(random: &mut Random) -> Bytes {
    let wish = Wish {
        nodes: random.within(200, 1_800),
        size: random.within(4, 16),
        depth: random.within(20, 56),
        unused: random.below(4),
    };
    grow_guarded(random, wish, Edition::First)
}

/// Any sheet at all, most of them circuits.
pub fn any(random: &mut Random, index: usize) -> Bytes {
    match index % 8 {
        0 => corpus::any(random, index / 8),
        1 => editions::any(random, index / 8),
        2 => corpus::grown(random),
        3 if random.once_in(8) => large_circuit(random),
        _ => circuit(random),
    }
}
