//! Document 02, L6: every element names the node that made it, and without its node it is the old
//! record.

use second::corpus::{any, grown, grown_large, named, Kind};
use second::editions;
use second::netlist::{written, written_length, Element, Netlist};
use second::random::Random;
use second::sheet::{Form, Sheet, Term, Type};
use second::translate::{call, wished};
use second::wide::flat;
use second::write::hex;
use second::{check, full, lean, read, terminals, word, Refusal, Wish};
use std::collections::HashMap;

const NODES: Wish = Wish { lean: false, plain: false, card: false };
const LEAN_NODES: Wish = Wish { lean: true, ..NODES };

#[test]
fn records_end_with_the_node() {
    let made = |sheet: &str, wish: Wish| wished(&hex(sheet), wish, 57_728, 32_768).unwrap();
    // P1: the constant is node 0
    assert_eq!(made("01 1A0000", NODES), hex("26 00 0000 0000  24 0000"));
    // P2: the function is node 0
    assert_eq!(made("01 030000 1301 1100", NODES), hex("25 0000 0000  24 0000  24 0100"));
    // P3: the linear function is node 1, zero node 4, reg node 5
    let p3 = "01 030000 040100 16 1502 14 1200 1A0000 1A0101";
    let elements = "25 0000 0100  25 0200 0100  26 00 0400 0400  26 01 0500 0500";
    let rest = "23 0400 0000  23 0100 0500  23 0600 0200  24 0300";
    assert_eq!(made(p3, NODES), hex(&format!("{elements} {rest}")));
    let lean = "26 00 0400 0400  26 01 0500 0500  23 0400 0500  24 0600";
    assert_eq!(made(p3, LEAN_NODES), hex(lean));
    // P7: both points are the fixed point's, node 0
    let p7 = "01 020000 1901 18 1100 1701 1100 1101";
    let full = "25 0000 0000  25 0200 0000  23 0300 0000  23 0100 0200  24 0300  24 0100";
    assert_eq!(made(p7, NODES), hex(full));
    assert_eq!(made(p7, LEAN_NODES), hex("25 0000 0000  23 0100 0000  24 0100  24 0100"));
    // a function of a ring: the function is node 1, the fixed point node 3, and lean keeps its point
    let tail = "01 030000 14 1301 1100 1900 1100";
    let full = "25 0000 0100  25 0200 0300  23 0300 0200  23 0300 0000  24 0100";
    assert_eq!(made(tail, NODES), hex(full));
    assert_eq!(made(tail, LEAN_NODES), hex("25 0200 0300  23 0300 0200  24 0300"));
}

#[test]
fn a_node_number_has_its_low_byte_first() {
    // a projection whose body, a zero, is the last of 2,048 nodes
    let inner = flat(2_046);
    let mut sheet = inner[..4].to_vec();
    sheet.push(0x18);
    sheet.extend(&inner[4..]);
    sheet.extend(hex("1A0000"));
    let bytes = wished(&sheet, LEAN_NODES, 57_728, 32_768).unwrap();
    let zero = bytes.iter().position(|&byte| byte == 0x26).expect("a part");
    assert_eq!(bytes[zero + 4..zero + 6], [0xFF, 0x07]);
}

#[test]
fn the_room_is_that_of_the_kinds_asked_for() {
    let p3 = hex("01 030000 040100 16 1502 14 1200 1A0000 1A0101");
    // two bytes more for each element: four in the full netlist, two in the lean one
    for (lean, plain, needed) in
        [(false, true, 32), (true, true, 16), (false, false, 40), (true, false, 20)]
    {
        let wish = Wish { lean, plain, card: false };
        assert_eq!(wished(&p3, wish, needed, 32_768).map(|bytes| bytes.len()), Ok(needed));
        let short = wished(&p3, wish, needed - 1, 32_768);
        assert_eq!(short, Err(Refusal::new(17, needed)));
        let (mut output, mut memory) = (vec![7u8; needed + 1], vec![9u16; 32_769]);
        assert_eq!(call(&p3, &mut output, &mut memory, wish), needed as u64);
        assert_eq!((output[needed], memory[32_767], memory[32_768]), (7, 0, 9));
        let answer = call(&p3, &mut output[..needed - 1], &mut memory, wish);
        assert_eq!(answer, word(Err(Refusal::new(17, needed))));
        memory.fill(9);
        assert_eq!(call(&p3, &mut output, &mut memory[..32_767], wish), 1 << 32);
        assert!(memory.iter().all(|&number| number == 9));
    }
}

/// Kinds 25 and 26 put back to 21 and 22, their last two bytes dropped.
fn dropped(bytes: &[u8]) -> Vec<u8> {
    let mut old = Vec::new();
    let mut at = 0;
    while at < bytes.len() {
        let (kind, body, node) = match bytes[at] {
            0x25 => (0x21, 2, 2),
            0x26 => (0x22, 3, 2),
            0x23 => (0x23, 4, 0),
            kind => (kind, 2, 0),
        };
        old.push(kind);
        old.extend(&bytes[at + 1..at + 1 + body]);
        at += 1 + body + node;
    }
    old
}

/// How many points, and which part, each node makes.
fn makers(sheet: &Sheet, term: &Term, made: &mut HashMap<usize, (usize, Option<u8>)>) {
    match &term.form {
        Form::Variable { .. } => {}
        Form::Constant { part, .. } => {
            made.insert(term.node, (0, Some(*part)));
        }
        Form::Function { written, body, .. } => {
            let Type::Arrow(_, left, _) = sheet.types[*written] else { panic!("no arrow") };
            made.insert(term.node, (sheet.sizes[left], None));
            makers(sheet, body, made);
        }
        Form::FixedPoint { written, body } => {
            made.insert(term.node, (sheet.sizes[*written], None));
            makers(sheet, body, made);
        }
        Form::Application { function: first, argument: second, .. }
        | Form::Pair { left: first, right: second, .. }
        | Form::Projection { pair: first, body: second }
        | Form::Naming { named: first, body: second } => {
            makers(sheet, first, made);
            makers(sheet, second, made);
        }
    }
}

fn each_element_names_its_maker(sheet: &Sheet, whole: &Netlist) {
    let mut due = HashMap::new();
    makers(sheet, &sheet.term, &mut due);
    for (element, node) in whole.elements.iter().zip(&whole.makers) {
        let (points, part) = due.get_mut(node).expect("a node that makes something");
        match element {
            Element::Point { .. } => *points -= 1,
            Element::Part { part: made, .. } => assert_eq!(part.take(), Some(*made)),
        }
    }
    assert!(due.values().all(|&(points, part)| points == 0 && part.is_none()));
}

fn every_promise_holds(sheet: &[u8]) -> bool {
    let Ok(sheet) = read(sheet) else { return false };
    if check(&sheet).is_err() || terminals(&sheet) > 8_192 {
        return false;
    }
    let whole = full(&sheet);
    let thin = lean(&whole);
    each_element_names_its_maker(&sheet, &whole);
    for netlist in [&whole, &thin] {
        let bytes = written(netlist, false);
        assert_eq!(bytes.len(), written_length(netlist, false));
        assert!(bytes.len() <= 7 * terminals(&sheet) + 384 && bytes.len() <= 57_728);
        assert!(dropped(&bytes) == written(netlist, true));
    }
    let of_first: HashMap<u16, usize> =
        whole.elements.iter().map(|element| element.first()).zip(whole.makers.clone()).collect();
    for (element, node) in thin.elements.iter().zip(&thin.makers) {
        assert_eq!(of_first[&element.first()], *node);
    }
    true
}

#[test]
fn generated_netlists_name_their_nodes() {
    for case in named(Kind::Making) {
        every_promise_holds(&case.sheet);
    }
    let mut random = Random::new(6);
    let small = (0..4_000).filter(|_| every_promise_holds(&grown(&mut random))).count();
    let large = (0..60).filter(|_| every_promise_holds(&grown_large(&mut random))).count();
    let others = (0..2_000).filter(|&at| every_promise_holds(&any(&mut random, at))).count();
    let second = (0..2_000).filter(|_| every_promise_holds(&editions::grown(&mut random))).count();
    assert!(second > 1_800, "{second}");
    assert!(small > 3_500 && large > 15 && others > 500, "{small} {large} {others}");
}
