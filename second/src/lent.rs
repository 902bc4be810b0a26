//! Document 01, "Numbers of the refusals", its last sentences on storage: what every call leaves in
//! the output and in the working memory that it is lent.

use crate::refusal::Refusal;
use crate::sheet::MEMORY;

/// "Output bytes after them stay; on a refusal all output bytes stay. The first 32,768 working
/// numbers are 0 after each call, refusals included, except that refusal 1 changes none; later ones
/// never change." Gives the number of bytes written, or of numbers where the output is of numbers.
pub fn leave<T: Copy>(
    result: Result<Vec<T>, Refusal>,
    output: &mut [T],
    memory: &mut [u16],
) -> Result<usize, Refusal> {
    if memory.len() >= MEMORY {
        memory[..MEMORY].fill(0);
    }
    let written = result?;
    output[..written.len()].copy_from_slice(&written);
    Ok(written.len())
}
