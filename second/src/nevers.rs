//! Generated questions whether a pin is ever 1: circuits with a few registers, most of them machines that hold a
//! state, with start bytes, pins and rooms right, or wrong by a little.

use crate::never::EITHER;
use crate::random::Random;
use crate::run::runnable;
use crate::sheet::{TypeNumber, MEMORY};
use crate::write::*;
use crate::{circuits, corpus};

/// What a search is lent.
#[derive(Clone, Debug, PartialEq, Eq)]
pub struct Never {
    pub sheet: Bytes,
    pub starts: Bytes,
    pub pin: u16,
    pub trail: usize,
    pub queue: usize,
    pub room: usize,
    pub memory: usize,
}

/// Generated sheets have no more registers than this, and so few input pins that all is soon tried.
const REGISTERS: usize = 8;
const INPUTS: usize = 5;

/// Any question at all; most of the sheets are machines, most of the bytes right.
pub fn any(random: &mut Random, index: usize) -> Never {
    let sheet = match index % 10 {
        0 => corpus::any(random, index / 10),
        1 => circuits::any(random, index / 10),
        2 | 3 => circuits::circuit(random),
        _ => machine(random),
    };
    let mut never = fitting(random, sheet);
    if random.once_in(8) {
        spoil(random, &mut never);
    }
    never.memory = match random.below(20) {
        0 => MEMORY - 1,
        1..=4 => MEMORY + random.below(9),
        _ => MEMORY,
    };
    never
}

/// A question with all that it asks for; a machine in place of a sheet with too much to be tried.
pub fn fitting(random: &mut Random, sheet: Bytes) -> Never {
    let (inputs, registers, outputs) = match runnable(&sheet, MEMORY) {
        Ok(circuit) => circuit.counts(),
        Err(_) => (0, random.below(4), 1),
    };
    if inputs > INPUTS || registers > REGISTERS {
        let small = machine(random);
        return fitting(random, small);
    }
    let starts: Bytes = (0..registers).map(|_| *random.pick(&[0, 0, 0, 1, EITHER])).collect();
    let room = match random.below(4) {
        0 => random.below(registers + 4),
        _ => 4_096,
    };
    let pin = random.below(outputs.max(1)) as u16;
    let size = 1 << registers;
    Never { sheet, starts, pin, trail: size, queue: size, room, memory: MEMORY }
}

fn spoil(random: &mut Random, never: &mut Never) {
    match random.below(6) {
        0 => never.starts.push(0),
        1 if !never.starts.is_empty() => {
            let at = random.below(never.starts.len());
            never.starts[at] = random.within(3, 255) as u8;
        }
        1 | 2 => never.pin = random.within(1, 70_000) as u16,
        3 => never.trail -= 1,
        4 => never.queue -= 1,
        _ => never.trail += random.below(9),
    }
}

/// What an expression may be built of, and how deep the binders are.
struct Scope {
    /// The levels of the binders that are bits.
    bits: Vec<usize>,
    depth: usize,
}

impl Scope {
    fn variable(&self, level: usize) -> Bytes {
        variable(self.depth - 1 - level)
    }

    /// One more binder, which is a bit or is not.
    fn bind(&mut self, bit: bool) -> usize {
        if bit {
            self.bits.push(self.depth);
        }
        self.depth += 1;
        self.depth - 1
    }
}

/// fun x .. the bits of a machine with these inputs, and output pins over the inputs and these bits.
pub fn machine(random: &mut Random) -> Bytes {
    let (inputs, registers) = (random.below(4), random.within(1, REGISTERS));
    let outputs = random.within(1, 3);
    let mut types = Types::new();
    let gates = Gates { unary: types.reg(), gate: types.gate() };
    let (shown, held) = (row(&mut types, outputs), row(&mut types, registers));
    let mut scope = Scope { bits: Vec::new(), depth: 0 };
    for _ in 0..inputs {
        scope.bind(true);
    }
    let fixed = fixed(random, &mut types, &scope, &gates, registers);
    let named = types.to(held, shown);
    let whole = scope.bind(false);
    let body = unpacked(&mut scope, whole, registers, &mut |scope| {
        tuple(&mut types.clone(), &mut |_| gates.watched(random, scope), outputs)
    });
    let mut term = apply(&function(named, &body), &fixed);
    let mut written = shown;
    for _ in 0..inputs {
        let bit = types.bit();
        written = types.to(bit, written);
        term = function(written, &term);
    }
    types.sheet(&term)
}

/// fix s. registers of the bits of s, and new bits over the inputs and these registers.
fn fixed(
    random: &mut Random,
    types: &mut Types,
    scope: &Scope,
    gates: &Gates,
    count: usize,
) -> Bytes {
    let mut inner = Scope { bits: scope.bits.clone(), depth: scope.depth };
    let state = inner.bind(false);
    let held = row(types, count);
    let bit = types.bit();
    let written = types.to(bit, held);
    let body = unpacked(&mut inner, state, count, &mut |inside| {
        let bits = inside.bits.split_off(scope.bits.len());
        let mut each = |inside: &Scope| {
            tuple(&mut types.clone(), &mut |_| gates.expression(random, inside, 3), count)
        };
        registered(
            inside,
            &bits,
            &|value| apply(&constant(1, gates.unary), value),
            written,
            &mut each,
        )
    });
    fix(held, &body)
}

/// Each of some bits goes through a register, which has a binder of its own; then the body.
fn registered(
    scope: &mut Scope,
    bits: &[usize],
    register: &dyn Fn(&[u8]) -> Bytes,
    written: TypeNumber,
    body: &mut dyn FnMut(&Scope) -> Bytes,
) -> Bytes {
    let Some((first, rest)) = bits.split_first() else { return body(scope) };
    let value = register(&scope.variable(*first));
    scope.bind(true);
    apply(&function(written, &registered(scope, rest, register, written, body)), &value)
}

/// The type of so many bits, nested to the right.
fn row(types: &mut Types, count: usize) -> TypeNumber {
    let bit = types.bit();
    (1..count).fold(bit, |rest, _| types.product(bit, rest))
}

/// So many bits as a pair of the first and the rest.
fn tuple(types: &mut Types, each: &mut dyn FnMut(usize) -> Bytes, count: usize) -> Bytes {
    let first = each(count);
    if count == 1 {
        return first;
    }
    let written = row(types, count);
    pair(written, &first, &tuple(types, each, count - 1))
}

/// The bits of a binder's value are bound one after the other; then the body.
fn unpacked(
    scope: &mut Scope,
    whole: usize,
    count: usize,
    body: &mut dyn FnMut(&mut Scope) -> Bytes,
) -> Bytes {
    if count == 1 {
        scope.bits.push(whole);
        return body(scope);
    }
    let value = scope.variable(whole);
    scope.bind(true);
    let rest = scope.bind(false);
    project(&value, &unpacked(scope, rest, count - 1, body))
}

/// The types of a part with one input and of one with two.
struct Gates {
    unary: TypeNumber,
    gate: TypeNumber,
}

impl Gates {
    fn inverted(&self, one: &[u8]) -> Bytes {
        apply(&constant(5, self.unary), one)
    }

    fn both(&self, part: u8, one: &[u8], other: &[u8]) -> Bytes {
        apply(&apply(&constant(part, self.gate), one), other)
    }

    /// An expression, or that some of the bits have given values: what seldom comes.
    fn watched(&self, random: &mut Random, scope: &Scope) -> Bytes {
        if random.once_in(3) {
            return self.expression(random, scope, 3);
        }
        let mut all = scope.variable(*random.pick(&scope.bits));
        for &level in scope.bits.iter().rev().take(random.within(1, 8)) {
            let bit = scope.variable(level);
            let bit = if random.once_in(2) { bit } else { self.inverted(&bit) };
            all = self.both(2, &all, &bit);
        }
        all
    }

    fn expression(&self, random: &mut Random, scope: &Scope, depth: usize) -> Bytes {
        if depth == 0 || random.once_in(5) {
            return scope.variable(*random.pick(&scope.bits));
        }
        let one = self.expression(random, scope, depth - 1);
        match random.below(5) {
            0 => self.inverted(&one),
            which => {
                let other = self.expression(random, scope, depth - 1);
                self.both([2, 3, 4, 4][which - 1], &one, &other)
            }
        }
    }
}
