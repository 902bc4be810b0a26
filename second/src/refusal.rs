//! Document 01, "Numbers of the refusals", and document 02, L3: a number, a place, and for 12 the
//! type number wanted and the one found.

/// The wanted number "where a rule wants a form and not one type".
pub const FORM: usize = 256;

#[derive(Clone, Copy, Debug, PartialEq, Eq, PartialOrd, Ord, Hash)]
pub struct Refusal {
    pub number: usize,
    pub place: usize,
    /// Both are 0 in every refusal but 12.
    pub wanted: usize,
    pub found: usize,
}

impl Refusal {
    pub fn new(number: usize, place: usize) -> Refusal {
        Refusal { number, place, wanted: 0, found: 0 }
    }

    /// Refusal 12: "Say which two types clash."
    pub fn clash(node: usize, wanted: usize, found: usize) -> Refusal {
        Refusal { number: 12, place: node, wanted, found }
    }
}

/// Refuse with a number and a place unless a demand holds.
pub fn need(demand: bool, number: usize, place: usize) -> Result<(), Refusal> {
    if demand {
        Ok(())
    } else {
        Err(Refusal::new(number, place))
    }
}

/// The answer of a call as one word: bits 0 to 31 the value or the place, 32 to 39 the number,
/// 40 to 51 the type number wanted, 52 to 63 the one found.
pub fn word(answer: Result<usize, Refusal>) -> u64 {
    match answer {
        Ok(value) => value as u64,
        Err(Refusal { number, place, wanted, found }) => {
            place as u64 | (number as u64) << 32 | (wanted as u64) << 40 | (found as u64) << 52
        }
    }
}
