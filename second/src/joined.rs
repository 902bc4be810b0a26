//! Two sheets joined into one whose one output pin is 1 where their outputs differ; and whether three lean netlists
//! stand as docs/DECISIONS (156) says, from its words: each element and wire of the two in the third, each pin led to
//! theirs, the registers of the one and then of the other, and an or of xors.

use crate::lean::lean;
use crate::netlist::*;
use crate::read::{node_body, type_body};
use crate::sheet::{Edition, Sort, Type, TypeNumber};
use crate::translate::accepted;
use crate::write::*;
use std::collections::HashSet;

/// The sheet's types in a common table, its term over them, and its root's type.
fn moved(sheet: &[u8], types: &mut Types) -> Option<(Bytes, TypeNumber)> {
    let read = accepted(sheet).ok()?;
    let root = crate::check(&read.sheet).ok()?;
    let mut numbers = Vec::new();
    let mut at = 0;
    for record in &read.sheet.types {
        at += 1 + type_body(sheet[at])?;
        let record = match *record {
            Type::Bit => Type::Bit,
            Type::Product(a, b) => Type::Product(numbers[a], numbers[b]),
            Type::Arrow(sort, a, b) => Type::Arrow(sort, numbers[a], numbers[b]),
        };
        numbers.push(types.number(record)?);
    }
    let mut term = sheet[at..].to_vec();
    let mut at = 0;
    while at < term.len() {
        let body = node_body(term[at], Edition::First)?;
        if matches!(term[at], 0x13 | 0x15 | 0x17 | 0x19 | 0x1A) {
            term[at + body] = numbers[usize::from(term[at + body])] as u8;
        }
        at += 1 + body;
    }
    Some((term, numbers[root]))
}

/// Two first-edition sheets of one type, functions of bits to a row of bits: both applied to the same inputs.
pub fn joined(one: &[u8], other: &[u8]) -> Option<Bytes> {
    let mut types = Types::new();
    let (first, root) = moved(one, &mut types)?;
    let (second, same) = moved(other, &mut types)?;
    let (mut inputs, mut shown) = (0, root);
    while let Type::Arrow(Sort::Sharable, _, rest) = types.records[shown] {
        (inputs, shown) = (inputs + 1, rest);
    }
    if root != same {
        return None;
    }
    let (bit, gate) = (types.bit(), types.gate());
    let right = types.to(shown, bit);
    let left = types.to(shown, right);
    let body = compared(&types, gate, shown, (inputs, inputs + 1), inputs + 2)?;
    let applied = |term: &[u8]| {
        (0..inputs).fold(term.to_vec(), |term, k| apply(&term, &variable(inputs - 1 - k)))
    };
    let both = function(left, &function(right, &body));
    let mut term = apply(&apply(&both, &applied(&first)), &applied(&second));
    let mut written = bit;
    for _ in 0..inputs {
        written = types.to(bit, written);
        term = function(written, &term);
    }
    Some(types.sheet(&term))
}

/// An or of xors over the bits of two binders, by their levels.
fn compared(
    types: &Types,
    gate: TypeNumber,
    shown: TypeNumber,
    (one, other): (usize, usize),
    depth: usize,
) -> Option<Bytes> {
    let at = |level: usize, depth: usize| variable(depth - 1 - level);
    let both = |part: u8, a: &[u8], b: &[u8]| apply(&apply(&constant(part, gate), a), b);
    match types.records[shown] {
        Type::Bit => Some(both(4, &at(one, depth), &at(other, depth))),
        Type::Product(first, rest) if types.records[first] == Type::Bit => {
            let inner = depth + 4;
            let here = both(4, &at(depth, inner), &at(depth + 2, inner));
            let others = compared(types, gate, rest, (depth + 1, depth + 3), inner)?;
            let body = both(3, &here, &others);
            Some(project(&at(one, depth), &project(&at(other, depth + 2), &body)))
        }
        _ => None,
    }
}

fn parts(net: &Netlist) -> Vec<Element> {
    net.elements.iter().copied().filter(|e| matches!(e, Element::Part { .. })).collect()
}

fn ends(net: &Netlist) -> (Vec<u16>, Vec<u16>) {
    let inputs = net.pins.iter().filter_map(|pin| match pin {
        Terminal::Input(input) => Some(input.0),
        Terminal::Output(_) => None,
    });
    let outputs = net.pins.iter().filter_map(|pin| match pin {
        Terminal::Input(_) => None,
        Terminal::Output(output) => Some(output.0),
    });
    (inputs.collect(), outputs.collect())
}

/// Where the terminals of a netlist stand in the joint one: its pins' points at that one's, all else so much further.
fn places(net: &Netlist, joint: &Netlist, skipped: usize) -> impl Fn(u16) -> u16 {
    let further = match (parts(net).first(), parts(joint).get(skipped)) {
        (Some(mine), Some(there)) => i32::from(there.first()) - i32::from(mine.first()),
        _ => 0,
    };
    let points: Vec<u16> = net
        .elements
        .iter()
        .filter(|element| matches!(element, Element::Point { .. }))
        .map(|element| element.first())
        .collect();
    let (mine, theirs) = (ends(net).0, ends(joint).0);
    move |x: u16| {
        let pin = |at: u16| mine.iter().position(|&p| p == at && points.contains(&p));
        match (pin(x), x.checked_sub(1).and_then(pin)) {
            (Some(k), _) => theirs[k],
            (None, Some(k)) => theirs[k] + 1,
            _ => (i32::from(x) + further) as u16,
        }
    }
}

/// The relation of the three lean netlists of accepted sheets.
pub fn stands(joint: &[u8], one: &[u8], other: &[u8]) -> bool {
    let net = |sheet: &[u8]| accepted(sheet).ok().map(|accepted| lean(&accepted.full));
    let (Some(m), Some(k), Some(l)) = (net(joint), net(one), net(other)) else { return false };
    let comparing = 2 * ends(&k).1.len() - 1;
    let f = places(&k, &m, comparing);
    let g = places(&l, &m, comparing + parts(&k).len());
    let registers = |net: &Netlist| -> Vec<u16> {
        let is =
            |e: &&Element| matches!(e, Element::Part { part, .. } if part_of(*part).name == "reg");
        net.elements.iter().filter(is).map(|element| element.output().0).collect()
    };
    let held: Vec<u16> =
        registers(&k).into_iter().map(&f).chain(registers(&l).into_iter().map(&g)).collect();
    let outputs =
        (ends(&k).1.into_iter().map(&f).collect(), ends(&l).1.into_iter().map(&g).collect());
    inside(&m, &k, &f) && inside(&m, &l, &g) && registers(&m) == held && compares(&m, outputs)
}

fn inside(m: &Netlist, k: &Netlist, f: &impl Fn(u16) -> u16) -> bool {
    let wires: HashSet<(u16, u16)> = m.wires.iter().map(|wire| (wire.from.0, wire.to.0)).collect();
    let element = |element: &Element| {
        let first = f(element.first());
        let moved = match *element {
            Element::Point { .. } => {
                m.elements.iter().any(|e| matches!(e, Element::Point { .. }) && e.first() == first)
            }
            Element::Part { part, .. } => m.elements.iter().any(|e| {
                matches!(e, Element::Part { part: p, .. } if *p == part) && e.first() == first
            }),
        };
        let whole = (0..element.terminals() as u16).all(|j| f(element.first() + j) == first + j);
        moved && whole
    };
    let point =
        |p: u16| m.elements.iter().any(|e| matches!(e, Element::Point { .. }) && e.first() == p);
    let led = |(p, i): (&u16, &u16)| *p == f(*i) || point(*p) && wires.contains(&(p + 1, f(*i)));
    let (theirs, mine) = (ends(m).0, ends(k).0);
    k.elements.iter().all(element)
        && k.wires.iter().all(|wire| wires.contains(&(f(wire.from.0), f(wire.to.0))))
        && theirs.len() == mine.len()
        && theirs.iter().zip(&mine).all(led)
}

/// The pin is an xor of the last pair, or an or of the first pair's xor and of what compares the others.
fn compares(m: &Netlist, (one, other): (Vec<u16>, Vec<u16>)) -> bool {
    let fed = |output: u16, name: &str| {
        let gate = m.elements.iter().find(|element| element.output().0 == output)?;
        let is = matches!(gate, Element::Part { part, .. } if part_of(*part).name == name);
        let driver = |to: u16| m.wires.iter().find(|wire| wire.to.0 == to).map(|wire| wire.from.0);
        is.then_some(())?;
        Some((driver(gate.first())?, driver(gate.first() + 1)?))
    };
    let mut at = ends(m).1[0];
    for k in 0..one.len() {
        let pair = Some((one[k], other[k]));
        if k + 1 == one.len() {
            return fed(at, "xor") == pair;
        }
        let Some((here, others)) = fed(at, "or") else { return false };
        if fed(here, "xor") != pair {
            return false;
        }
        at = others;
    }
    false
}
