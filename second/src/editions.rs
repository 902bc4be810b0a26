//! Document 02, L7: generated sheets of the second edition, and sheets of either edition with the
//! edition mistaken.

use crate::check::check;
use crate::corpus;
use crate::damage::{damage, disorder, mistake, mistype};
use crate::grow::{grow_edition, Wish};
use crate::random::Random;
use crate::read::read;
use crate::sheet::Edition;
use crate::write::{marked, Bytes};

/// A well-typed second-edition sheet, most of them small.
pub fn grown(random: &mut Random) -> Bytes {
    let wish = match random.below(12) {
        0 => Wish { nodes: 80, size: 16, depth: 24, unused: 3 },
        1..=4 => Wish { nodes: 24, size: 8, depth: 14, unused: 1 },
        5..=8 => Wish { nodes: 12, size: 5, depth: 10, unused: 0 },
        _ => Wish { nodes: 6, size: 3, depth: 6, unused: 0 },
    };
    grow_edition(random, wish, Edition::Second)
}

/// A large one.
pub fn grown_large(random: &mut Random) -> Bytes {
    let wish = Wish {
        nodes: random.within(200, 1_800),
        size: random.within(4, 40),
        depth: random.within(20, 60),
        unused: random.below(8),
    };
    grow_edition(random, wish, Edition::Second)
}

/// A second-edition sheet with faults of reading.
fn damaged(random: &mut Random) -> Bytes {
    let sheet = grown(random);
    if random.once_in(2) && read(&sheet).is_ok() {
        disorder(random, &sheet)
    } else {
        damage(random, &sheet)
    }
}

/// A readable second-edition sheet with the wanted fault of typing, as far as a few tries find it.
pub fn faulty(random: &mut Random, wanted: usize) -> Bytes {
    let refused = |sheet: &[u8]| read(sheet).and_then(|sheet| check(&sheet)).err();
    let mut last = Bytes::new();
    for _ in 0..400 {
        let sheet = grown(random);
        let linear = sheet.contains(&0x15) || !matches!(wanted, 13 | 14);
        if !linear || read(&sheet).is_err() {
            continue;
        }
        last = mistype(random, &sheet);
        if refused(&last).is_some_and(|refusal| refusal.number == wanted) {
            break;
        }
    }
    last
}

/// A good sheet of either edition whose edition is mistaken.
fn mistaken(random: &mut Random) -> Bytes {
    let sheet = if random.once_in(2) { grown(random) } else { corpus::grown(random) };
    match read(&sheet) {
        Ok(_) => mistake(random, &sheet),
        Err(_) => marked(&sheet),
    }
}

/// Any sheet at all that has to do with the second edition.
pub fn any(random: &mut Random, index: usize) -> Bytes {
    match index % 8 {
        0 => damaged(random),
        1 => faulty(random, 10 + index / 8 % 6),
        2 => mistaken(random),
        3 => marked(&corpus::any(random, index / 8)),
        4 if random.once_in(6) => grown_large(random),
        _ => grown(random),
    }
}
