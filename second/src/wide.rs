//! Document 01, the limits: families of sheets that reach them — many nodes, deep terms, long
//! rings and chains of points, deep types.

use crate::sheet::*;
use crate::write::*;

/// A table of so many types, none of them larger than 128 single bits.
pub fn table(count: usize) -> Types {
    let mut types = Types::new();
    types.bit();
    let mut sum = 0;
    while types.records.len() < count {
        for left in 0..=sum {
            let right = sum - left;
            let known = types.records.len();
            if left >= known || right >= known {
                continue;
            }
            let (first, second) = (types.records[left], types.records[right]);
            let forms = [
                (first.is_sharable() && second.is_sharable(), Type::Product(left, right)),
                (first.is_sharable(), Type::Arrow(Sort::Sharable, left, right)),
                (first.is_arrow(), Type::Arrow(Sort::Linear, left, right)),
            ];
            for (formed, record) in forms {
                if formed && types.records.len() < count {
                    types.number(record);
                }
            }
        }
        sum += 1;
    }
    types
}

/// A term of type 1 x 1 with just so many nodes, as flat as may be, where a variable of that type
/// stands at binder `nearest`: projections of it, or a fixed point where two nodes are left over.
fn bush(product: TypeNumber, nodes: usize, nearest: usize) -> Bytes {
    match nodes {
        1 => variable(nearest),
        2 => fix(product, &variable(0)),
        _ => {
            let left = (nodes - 1) / 2;
            let first = bush(product, left, nearest);
            project(&first, &bush(product, nodes - 1 - left, nearest + 2))
        }
    }
}

/// A sheet of so many nodes that is as flat as may be: 2,048 nodes are 12 deep.
pub fn flat(nodes: usize) -> Bytes {
    let mut types = Types::new();
    let bit = types.bit();
    let product = types.product(bit, bit);
    types.sheet(&fix(product, &bush(product, nodes - 1, 0)))
}

/// A sheet of so many nodes whose deepest node has just this depth: a row of projections, each
/// with a bush that reaches no deeper.
pub fn deep(nodes: usize, depth: usize) -> Bytes {
    let mut types = Types::new();
    let bit = types.bit();
    let product = types.product(bit, bit);
    let projections = depth - 2;
    let mut left_over = nodes - 2 - projections;
    let mut term = variable(2 * projections);
    for above in (0..projections).rev() {
        let most = (1usize << (projections - above).min(20)) - 1;
        let share = if above == 0 { left_over } else { (left_over / (above + 1)).clamp(1, most) };
        left_over -= share;
        term = project(&bush(product, share, 2 * above), &term);
    }
    types.sheet(&fix(product, &term))
}

/// A tower of fixed points of type 1, so many nodes deep.
pub fn tower(depth: usize) -> Bytes {
    let mut types = Types::new();
    let bit = types.bit();
    types.sheet(&(1..depth).fold(variable(0), |body, _| fix(bit, &body)))
}

/// A tree of xor gates over 2^level zeros: 4 * 2^level - 3 nodes.
pub fn gate_tree(level: usize) -> Bytes {
    let mut types = Types::new();
    let bit = types.bit();
    let gate = types.gate();
    let tree = (0..level)
        .fold(constant(0, bit), |half, _| apply(&apply(&constant(4, gate), &half), &half));
    types.sheet(&tree)
}

/// A function from a type to itself with 2^level - 1 points in a row on each bit.
fn relay(types: &mut Types, bound: TypeNumber, level: usize) -> Bytes {
    let arrow = types.to(bound, bound);
    if level <= 1 {
        return function(arrow, &variable(0));
    }
    let half = relay(types, bound, level - 1);
    function(arrow, &apply(&half, &apply(&half, &variable(0))))
}

/// The bits of a variable in a turned order: one ring through all of them.
fn odometer(types: &mut Types, level: usize, binder: usize) -> Bytes {
    if level == 0 {
        return variable(binder);
    }
    let whole = types.bits(level);
    let rest = odometer(types, level - 1, 1);
    project(&variable(binder), &pair(whole, &variable(0), &rest))
}

/// A single ring through 2^(bits + level) points, all pins on it.
pub fn ring(bits: usize, level: usize) -> (Types, Bytes) {
    let mut types = Types::new();
    let bound = types.bits(bits);
    let turned = odometer(&mut types, bits, 0);
    let relayed =
        if level == 0 { turned } else { apply(&relay(&mut types, bound, level), &turned) };
    let term = fix(bound, &relayed);
    (types, term)
}

/// As many rings of 2^level points as the type has bits.
pub fn rings(bits: usize, level: usize) -> (Types, Bytes) {
    let mut types = Types::new();
    let bound = types.bits(bits);
    let term = fix(bound, &apply(&relay(&mut types, bound, level), &variable(0)));
    (types, term)
}

/// A chain of points from input pins to output pins.
pub fn chain(bits: usize, level: usize) -> (Types, Bytes) {
    let mut types = Types::new();
    let bound = types.bits(bits);
    let term = relay(&mut types, bound, level);
    (types, term)
}

/// Fixed points of a product around each other, the innermost variable a mix of the outer ones.
pub fn nested_fixes(bits: usize, depth: usize) -> (Types, Bytes) {
    let mut types = Types::new();
    let bound = types.bits(bits);
    let inner = project(&variable(depth / 2), &pair(bound, &variable(0), &variable(1)));
    let term = (0..depth).fold(inner, |body, _| fix(bound, &body));
    (types, term)
}

/// Identities on functions of type 1 -> .. -> 1, applied to each other, then to reg's like.
pub fn function_chain(depth: usize) -> (Types, Bytes) {
    let mut types = Types::new();
    let gate = types.gate();
    let same = types.lolli(gate, gate);
    let identity = linear_function(same, &linear_variable(0));
    let term = (0..depth).fold(constant(4, gate), |inner, _| linear_apply(&identity, &inner));
    (types, term)
}

/// A linear function over 1 -> (1 -> .. 1) of size 127 (nested 126 deep, the arrow itself 127),
/// which spends its variable in three stages so that no node is deeper than 64.
pub fn deep_type() -> Bytes {
    let mut types = Types::new();
    let bit = types.bit();
    let sizes = [127, 82, 32];
    let given = [45, 50, 31];
    let zero = constant(0, bit);
    let spent =
        |count: usize| (0..count).fold(linear_variable(0), |function, _| apply(&function, &zero));
    let mut term = spent(given[2]);
    for stage in [2, 1] {
        let bound = types.arrows(sizes[stage]);
        let arrow = types.lolli(bound, bit);
        term = linear_apply(&linear_function(arrow, &term), &spent(given[stage - 1]));
    }
    let bound = types.arrows(sizes[0]);
    let arrow = types.lolli(bound, bit);
    types.sheet(&linear_function(arrow, &term))
}

/// The identity on (..((1 -> 1) -o 1) -o ..) -o 1 with 64 bits on each side.
pub fn high_order() -> Bytes {
    let mut types = Types::new();
    let bit = types.bit();
    let reg = types.reg();
    let bound = (2..64).fold(reg, |left, _| types.lolli(left, bit));
    let same = types.lolli(bound, bound);
    types.sheet(&linear_function(same, &linear_variable(0)))
}

/// A pair chain of 128 bits, to the left or to the right, in an empty fixed point.
pub fn deep_product(leftwards: bool) -> Bytes {
    let mut types = Types::new();
    let bit = types.bit();
    let whole = (1..SIZE).fold(bit, |rest, _| {
        if leftwards {
            types.product(rest, bit)
        } else {
            types.product(bit, rest)
        }
    });
    types.sheet(&fix(whole, &variable(0)))
}

/// A sheet of exactly 8,192 terminals and 2^(12 - bits) points on each bit in one ring, and so
/// many parts more.
pub fn terminals_and(more: usize) -> Bytes {
    let (mut types, ring) = ring(6, 6);
    let bit = types.bit();
    let term = (0..more).fold((types.bits(6), ring), |(bound, term), _| {
        let product = types.product(bound, bit);
        (product, pair(product, &term, &constant(0, bit)))
    });
    types.sheet(&term.1)
}

/// A sheet of just so many terminals, from 7,941 to 8,194: 31 fixed points of 128 bits around each
/// other, one of the two or more bits that are left over, and one part or two, which are its pins.
pub fn crowd(terminals: usize) -> Bytes {
    let (mut types, fixes) = nested_fixes(7, 31);
    let bit = types.bit();
    let rest = terminals - 31 * 256;
    let parts = 2 - rest % 2;
    let points = (rest - parts) / 2;
    // the product of as many single bits as points are wanted, by halves
    let mut bound = None;
    for level in (0..=7).rev().filter(|level| points >> level & 1 == 1) {
        let bits = types.bits(level);
        bound = Some(bound.map_or(bits, |sum| types.product(sum, bits)));
    }
    let bound = bound.expect("some points are wanted");
    let two = types.product(bit, bit);
    let shown = match parts {
        1 => constant(0, bit),
        _ => pair(two, &constant(6, bit), &constant(0, bit)),
    };
    types.sheet(&project(&fixes, &project(&fix(bound, &variable(0)), &shown)))
}
