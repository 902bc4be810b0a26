//! The second program's runs behind the proved calls' own names and signatures, so that trace_once.c calls
//! them the same way: only for counting and timing.

use std::slice::{from_raw_parts, from_raw_parts_mut};

/// The answer in one word.
///
/// # Safety
/// The five slices are the caller's, whole and apart.
#[no_mangle]
pub unsafe extern "C" fn deltawobble_run(
    sheet: *const u8,
    sheet_len: usize,
    inputs: *const u8,
    inputs_len: usize,
    starts: *const u8,
    starts_len: usize,
    out: *mut u8,
    out_len: usize,
    work: *mut u16,
    work_len: usize,
    ticks: u16,
) -> u64 {
    let sheet = from_raw_parts(sheet, sheet_len);
    let (inputs, starts) = (from_raw_parts(inputs, inputs_len), from_raw_parts(starts, starts_len));
    let (out, work) = (from_raw_parts_mut(out, out_len), from_raw_parts_mut(work, work_len));
    second::run::call(sheet, inputs, starts, out, work, ticks)
}

/// The answer in one word.
///
/// # Safety
/// The five slices are the caller's, whole and apart.
#[no_mangle]
pub unsafe extern "C" fn deltawobble_lanes(
    sheet: *const u8,
    sheet_len: usize,
    inputs: *const u16,
    inputs_len: usize,
    state: *mut u16,
    state_len: usize,
    out: *mut u16,
    out_len: usize,
    work: *mut u16,
    work_len: usize,
    ticks: u16,
) -> u64 {
    let (sheet, inputs) = (from_raw_parts(sheet, sheet_len), from_raw_parts(inputs, inputs_len));
    let state = from_raw_parts_mut(state, state_len);
    let (out, work) = (from_raw_parts_mut(out, out_len), from_raw_parts_mut(work, work_len));
    second::lanes::call(sheet, inputs, state, out, work, ticks)
}
