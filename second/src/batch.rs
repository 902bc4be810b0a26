//! Document 02, L10: one call over sheets laid end to end. "It equals the calls made one by one, each
//! with the output that the earlier ones left unused."

use crate::refusal::{word, Refusal};
use crate::translate::{self, Wish};

/// The call: the answer's value is the number of output bytes used; a result is such a word.
pub fn call(
    sheets: &[u8],
    lengths: &[u32],
    output: &mut [u8],
    results: &mut [u64],
    memory: &mut [u16],
    wish: Wish,
) -> u64 {
    if !adds_up(sheets, lengths) || results.len() < lengths.len() {
        return word(Err(Refusal::new(24, 0)));
    }
    let (mut at, mut used) = (0, 0);
    for (&length, result) in lengths.iter().zip(results) {
        let end = at + length as usize;
        *result = translate::call(&sheets[at..end], &mut output[used..], memory, wish);
        used += written(*result);
        at = end;
    }
    word(Ok(used))
}

/// Do the lengths add up to the bytes lent?
fn adds_up(sheets: &[u8], lengths: &[u32]) -> bool {
    let sum: u128 = lengths.iter().map(|&length| u128::from(length)).sum();
    sum == sheets.len() as u128
}

/// The bytes that a call wrote: none where it refused.
fn written(answer: u64) -> usize {
    let refused = answer >> 32 != 0;
    if refused {
        0
    } else {
        answer as usize
    }
}
