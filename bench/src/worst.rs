//! Sheets whose points lie in one long row: document 01's limit of 8,192 terminals has room for a
//! ring of 4,096 points, or for a chain of 4,095 behind one part.

use second::sheet::TypeNumber;
use second::write::*;

/// A function from a type to itself with 2^level - 1 points in a row on each bit.
fn relay(types: &mut Types, bound: TypeNumber, level: usize) -> Bytes {
    let arrow = types.to(bound, bound);
    if level <= 1 {
        return function(arrow, &variable(0));
    }
    let half = relay(types, bound, level - 1);
    function(arrow, &apply(&half, &apply(&half, &variable(0))))
}

/// The bits of a variable in the order that makes one ring of them, cut at one bit: `source` stands
/// in its place.
fn cut_odometer(types: &mut Types, level: usize, binder: usize, source: &[u8]) -> Bytes {
    if level == 0 {
        return source.to_vec();
    }
    let whole = types.bits(level);
    let rest = cut_odometer(types, level - 1, 1, source);
    project(&variable(binder), &pair(whole, &variable(0), &rest))
}

/// One ring through 4,096 points, 64 of its outputs pins.
pub fn ring_4096() -> Bytes {
    second::wide::terminals_and(0)
}

/// A part zero and one chain of 4,095 points behind it, 64 of their outputs pins: 8,191 terminals.
pub fn chain_4095() -> Bytes {
    let mut types = Types::new();
    let bit = types.bit();
    let bound = types.bits(6);
    let source = apply(&relay(&mut types, bit, 6), &constant(0, bit));
    let turned = cut_odometer(&mut types, 6, 0, &source);
    let half = relay(&mut types, bound, 5);
    let term = fix(bound, &apply(&half, &apply(&half, &turned)));
    types.sheet(&term)
}

/// Fixed points of 128 bits around each other: rows of one or two points, 256 terminals for each.
pub fn ordinary(fixed_points: usize) -> Bytes {
    let (types, term) = second::wide::nested_fixes(7, fixed_points);
    types.sheet(&term)
}
