//! 28,000 generated sheets of both editions: the two decisions of typing agree, netlists keep their bounds and
//! demand 3, roots are those of a naive search, and pins are turned as the root's type says.

use second::corpus::{any, grown, grown_large, named, Kind};
use second::editions;
use second::netlist::*;
use second::random::Random;
use second::sheet::{Sheet, Type};
use second::{bytes, check, derivable, full, lean, read, terminals, translate};
use std::collections::HashSet;

/// The netlists of a sheet, if it is accepted; the agreements hold for every sheet.
fn netlists(sheet: &[u8]) -> Option<(Sheet, Netlist, Netlist)> {
    let read = read(sheet).ok()?;
    let checked = check(&read);
    assert_eq!(checked.is_ok(), derivable(&read), "{sheet:02x?}");
    if let Err(refusal) = checked {
        assert!((10..=15).contains(&refusal.number) && refusal.place < read.nodes());
        return None;
    }
    if terminals(&read) > 8_192 {
        assert_eq!(translate(sheet, true, 0, 32_768).unwrap_err().number, 16);
        return None;
    }
    let whole = full(&read);
    let thin = lean(&whole);
    Some((read, whole, thin))
}

fn every_promise_holds(sheet: &[u8]) -> bool {
    let Some((read, whole, thin)) = netlists(sheet) else { return false };
    let count = terminals(&read);
    let length = bytes(&whole).len();
    assert!(length <= 5 * count + 384 && length <= 41_344);
    assert!(bytes(&thin).len() <= length);
    numbers_are_in_order(&whole, count);
    each_input_is_fed_once(&whole, true);
    each_input_is_fed_once(&thin, false);
    roots_are_naive(&whole, &thin);
    pins_are_turned(&read, &whole);
    true
}

fn numbers_are_in_order(whole: &Netlist, count: usize) {
    let mut next = 0;
    for element in &whole.elements {
        assert_eq!(usize::from(element.first()), next);
        next += element.terminals();
    }
    assert_eq!(next, count);
}

/// Demand 3: exactly one wire, or exactly one place among the pins, never both.
fn each_input_is_fed_once(netlist: &Netlist, all: bool) {
    let top = netlist.elements.iter().map(|element| element.output().0 + 1).max().unwrap_or(0);
    let mut fed = vec![0; usize::from(top)];
    netlist.wires.iter().for_each(|wire| fed[usize::from(wire.to.0)] += 1);
    for pin in &netlist.pins {
        if let Terminal::Input(input) = pin {
            fed[usize::from(input.0)] += 1;
        }
    }
    let inputs: HashSet<u16> =
        netlist.elements.iter().flat_map(|element| element.inputs()).map(|i| i.0).collect();
    for (number, &times) in fed.iter().enumerate() {
        assert_eq!(times, usize::from(inputs.contains(&(number as u16))), "terminal {number}");
    }
    if all {
        assert_eq!(fed.iter().sum::<usize>(), inputs.len());
    }
}

/// The root of an output, found by walking back from it alone.
fn naive_root(whole: &Netlist, output: Output) -> (Output, bool) {
    let point = |o: Output| {
        whole.elements.iter().any(|&e| matches!(e, Element::Point { input } if input.0 + 1 == o.0))
    };
    let mut way = vec![output];
    loop {
        let here = *way.last().unwrap();
        if !point(here) || whole.pins.contains(&Terminal::Input(Input(here.0 - 1))) {
            return (here, false);
        }
        let driver = whole.wires.iter().find(|wire| wire.to.0 == here.0 - 1).unwrap().from;
        if let Some(at) = way.iter().position(|&passed| passed == driver) {
            return (*way[at..].iter().min().unwrap(), true);
        }
        way.push(driver);
    }
}

fn roots_are_naive(whole: &Netlist, thin: &Netlist) {
    if whole.elements.len() > 40 {
        return;
    }
    let mut wanted = Netlist::default();
    for (&element, &node) in whole.elements.iter().zip(&whole.makers) {
        let (root, in_ring) = naive_root(whole, element.output());
        let is_point = matches!(element, Element::Point { .. });
        if !is_point || root == element.output() {
            wanted.elements.push(element);
            wanted.makers.push(node);
        }
        for to in element.inputs() {
            if is_point && in_ring && root == element.output() {
                wanted.wires.push(Wire { from: root, to });
            }
            if let (false, Some(wire)) = (is_point, whole.wires.iter().find(|w| w.to == to)) {
                wanted.wires.push(Wire { from: naive_root(whole, wire.from).0, to });
            }
        }
    }
    wanted.wires.sort_by_key(|wire| wire.to);
    wanted.pins = whole
        .pins
        .iter()
        .map(|&pin| match pin {
            Terminal::Output(output) => Terminal::Output(naive_root(whole, output).0),
            input => input,
        })
        .collect();
    assert_eq!(*thin, wanted);
}

fn turned(sheet: &Sheet, number: usize, odd: bool, bits: &mut Vec<bool>) {
    match sheet.types[number] {
        Type::Bit => bits.push(odd),
        Type::Product(left, right) => {
            turned(sheet, left, odd, bits);
            turned(sheet, right, odd, bits);
        }
        Type::Arrow(_, left, right) => {
            turned(sheet, left, !odd, bits);
            turned(sheet, right, odd, bits);
        }
    }
}

fn pins_are_turned(sheet: &Sheet, whole: &Netlist) {
    let mut bits = Vec::new();
    turned(sheet, check(sheet).unwrap(), false, &mut bits);
    let inputs: Vec<bool> =
        whole.pins.iter().map(|pin| matches!(pin, Terminal::Input(_))).collect();
    assert_eq!(bits, inputs);
}

#[test]
fn generated_sheets_keep_every_promise() {
    let mut random = Random::new(2026);
    let accepted = (0..20_000).filter(|&at| every_promise_holds(&any(&mut random, at))).count();
    assert!(accepted > 6_000, "only {accepted} were accepted");
}

#[test]
fn second_edition_sheets_keep_every_promise() {
    let mut random = Random::new(31);
    let mut holds = |at| every_promise_holds(&editions::any(&mut random, at));
    let accepted = (0..8_000).filter(|&at| holds(at)).count();
    assert!(accepted > 3_000, "only {accepted} were accepted");
}

#[test]
fn edges_keep_every_promise() {
    for kind in [Kind::Reading, Kind::Typing, Kind::Making] {
        named(kind).iter().for_each(|case| {
            every_promise_holds(&case.sheet);
        });
    }
}

#[test]
fn grown_sheets_are_well_typed() {
    let mut random = Random::new(7);
    for at in 0..3_000 {
        let sheet = if at % 30 == 0 { grown_large(&mut random) } else { grown(&mut random) };
        has_no_fault(&sheet);
    }
    for at in 0..2_000 {
        let large = at % 40 == 0;
        let grow = if large { editions::grown_large } else { editions::grown };
        let sheet = grow(&mut random);
        assert_eq!(sheet[0], 0x31);
        has_no_fault(&sheet);
    }
}

fn has_no_fault(sheet: &[u8]) {
    if let Err(refusal) = translate(sheet, true, 41_344, 32_768) {
        assert!([8, 16].contains(&refusal.number), "{refusal:?} {sheet:02x?}");
    }
}

/// Where the record at an offset and its subterms end, counted by the table's subterms.
fn end_of(sheet: &[u8], at: usize) -> usize {
    let (body, subterms) = match sheet[at] {
        0x11 | 0x12 => (1, 0),
        0x13 | 0x15 | 0x19 => (1, 1),
        0x14 | 0x16 | 0x18 | 0x1B => (0, 2),
        0x17 => (1, 2),
        _ => (2, 0),
    };
    (0..subterms).fold(at + 1 + body, |end, _| end_of(sheet, end))
}

#[test]
fn stretches_hold_a_node_and_its_subterms() {
    let mut random = Random::new(11);
    for at in 0..2_000 {
        let sheet =
            if at % 2 == 0 { any(&mut random, at) } else { editions::any(&mut random, at / 2) };
        let Ok(found) = read(&sheet) else {
            assert_eq!(second::stretch(&sheet, 0), (0, 0));
            continue;
        };
        let nodes = found.nodes();
        assert_eq!(second::stretch(&sheet, nodes), (0, 0));
        assert_eq!(second::stretch(&sheet, usize::MAX), (0, 0));
        let (mut offset, length) = second::stretch(&sheet, 0);
        assert_eq!(offset + length, sheet.len());
        for node in 0..nodes {
            let (start, length) = found.stretches[node];
            assert_eq!((start, start + length), (offset, end_of(&sheet, offset)));
            offset += match sheet[offset] {
                0x14 | 0x16 | 0x18 | 0x1B => 1,
                0x1A => 3,
                _ => 2,
            };
        }
        assert_eq!(offset, sheet.len());
    }
}
