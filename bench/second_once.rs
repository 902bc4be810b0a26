//! The second program behind the proved translator's own name and signature, so that once.c calls
//! it the same way: only for counting its instructions.

use std::slice::{from_raw_parts, from_raw_parts_mut};

/// The answer in one word, as `second::word` has it.
///
/// # Safety
/// The three slices are the caller's, whole and apart.
#[no_mangle]
pub unsafe extern "C" fn deltawobble_translate(
    sheet: *const u8,
    sheet_len: usize,
    out: *mut u8,
    out_len: usize,
    work: *mut u16,
    work_len: usize,
    lean: bool,
    plain: bool,
    card: bool,
) -> u64 {
    let sheet = from_raw_parts(sheet, sheet_len);
    let (out, work) = (from_raw_parts_mut(out, out_len), from_raw_parts_mut(work, work_len));
    second::translate::call(sheet, out, work, second::Wish { lean, plain, card })
}
