//! Document 02, L11: named netlists, and generated ones that come back: "translating it gives a lean
//! netlist with the same parts in the same order", each part input with the same driver.

use second::back::{back, call};
use second::edges_back;
use second::foreign::accept;
use second::netlist::{Element, Input, Netlist, Output, Terminal};
use second::nets::for_back;
use second::random::Random;
use second::translate::netlist;
use second::write::hex;
use second::{word, Refusal};
use std::collections::BTreeMap;

#[test]
fn each_edge_is_answered_as_expected() {
    let mut wrong = Vec::new();
    for edge in edges_back::edges() {
        let answer = back(&edge.net, edge.lean, 1_000, 32_768);
        let found = answer.map_err(|why| (why.number, why.place));
        if found != edge.answer {
            wrong.push(format!("{}: {found:02x?}, not {:02x?}", edge.name, edge.answer));
        }
    }
    assert!(wrong.is_empty(), "{}", wrong.join("\n"));
}

#[test]
fn the_room_and_the_lent_storage() {
    // zero alone: 7 bytes of types, 5 of term
    let net = hex("22 00 0000");
    let (mut output, mut memory) = (vec![7u8; 14], vec![9u16; 32_769]);
    assert_eq!(call(&net, &mut output[..11], &mut memory, false), word(Err(Refusal::new(17, 12))));
    assert_eq!(output, [7; 14]);
    memory.fill(9);
    assert_eq!(call(&net, &mut output, &mut memory, false), 12);
    assert_eq!(output, hex("01 030000 030001 1900 1A0000 07 07"));
    assert!(memory[..32_768].iter().all(|&number| number == 0) && memory[32_768] == 9);
    memory.fill(9);
    assert_eq!(call(&net, &mut output, &mut memory[..32_767], false), 1 << 32);
    assert!(memory.iter().all(|&number| number == 9));
    // 26 in no room
    assert_eq!(call(&[], &mut [], &mut memory, true), word(Err(Refusal::new(26, 0))));
}

/// What drives an input: the part of this index, or the open input of this index.
#[derive(Debug, PartialEq, Eq)]
enum Driver {
    Part(usize),
    Open(usize),
}

/// The parts in their order, and the driver of each of their inputs.
fn shape(netlist: &Netlist, open: &[Input], points: &[Output]) -> Vec<(u8, Vec<Driver>)> {
    let parts: Vec<Element> = netlist
        .elements
        .iter()
        .copied()
        .filter(|element| matches!(element, Element::Part { .. }))
        .collect();
    let driver = |input: Input| match netlist.wires.iter().find(|wire| wire.to == input) {
        None => Driver::Open(open.iter().position(|&other| other == input).unwrap()),
        Some(wire) => match parts.iter().position(|part| part.output() == wire.from) {
            Some(index) => Driver::Part(index),
            None => Driver::Open(points.iter().position(|&point| point == wire.from).unwrap()),
        },
    };
    parts
        .iter()
        .map(|&part| {
            let Element::Part { part: number, .. } = part else { unreachable!() };
            (number, part.inputs().map(driver).collect())
        })
        .collect()
}

fn input_pins(netlist: &Netlist) -> Vec<Input> {
    let input = |pin: &Terminal| match pin {
        Terminal::Input(input) => Some(*input),
        Terminal::Output(_) => None,
    };
    netlist.pins.iter().filter_map(input).collect()
}

/// The sheet's lean netlist is that netlist, with a point behind each open input and all part
/// outputs as pins.
fn comes_back(old: &Netlist, sheet: &[u8]) {
    let new = netlist(sheet, true).expect("the sheet is accepted");
    let mut open = input_pins(old);
    open.sort();
    let new_pins = input_pins(&new);
    let points: Vec<Output> = new_pins.iter().map(|input| Output(input.0 + 1)).collect();
    assert_eq!(new_pins.len(), open.len());
    assert_eq!(shape(old, &open, &[]), shape(&new, &[], &points));
    let kept: Vec<Element> = new_pins.iter().map(|&input| Element::Point { input }).collect();
    assert_eq!(new.elements[..open.len()], kept);
    let outputs: Vec<Terminal> =
        new.elements[open.len()..].iter().map(|part| Terminal::Output(part.output())).collect();
    assert_eq!(new.elements.len(), open.len() + old.elements.len());
    assert_eq!(new.pins[open.len()..], outputs);
}

#[test]
fn generated_netlists_come_back() {
    let mut random = Random::new(11);
    let mut counts: BTreeMap<usize, usize> = BTreeMap::new();
    let mut most_parts = 0;
    for index in 0..8_000 {
        let given = for_back(&mut random, index);
        let answer = back(&given.net, given.lean, 1_000, 32_768);
        let number = answer.as_ref().err().map_or(0, |refusal| refusal.number);
        *counts.entry(number).or_default() += 1;
        let (sheet, old) = match (answer, accept(&given.net, given.lean)) {
            (Ok(sheet), Ok(accepted)) => (sheet, accepted.netlist),
            (Err(refusal), Ok(accepted)) => {
                let elements = accepted.netlist.elements;
                let points = elements.iter().any(|one| matches!(one, Element::Point { .. }));
                assert_eq!(refusal.number, if points { 25 } else { 26 });
                continue;
            }
            (answer, Err(refusal)) => {
                assert_eq!(answer, Err(refusal));
                continue;
            }
        };
        comes_back(&old, &sheet);
        most_parts = most_parts.max(old.elements.len());
        let short = back(&given.net, given.lean, sheet.len() - 1, 32_768);
        assert_eq!(short, Err(Refusal::new(17, sheet.len())));
    }
    for number in [0, 21, 22, 23, 25, 26] {
        assert!(counts.get(&number).copied().unwrap_or(0) > 100, "{counts:?}");
    }
    assert_eq!(most_parts, 16);
}
