//! Document 02, L7: netlists of the second edition, worked out on paper, and the first edition's
//! netlists unchanged behind a 31.

mod common;
use common::makes;
use second::corpus::grown;
use second::editions;
use second::random::Random;
use second::translate::wished;
use second::write::{hex, marked};
use second::{read, stretch, translate, Wish};
use std::collections::BTreeMap;

#[test]
fn a_name_makes_no_points() {
    let same = |name: &str, sheet: &str, netlist: &str| makes(name, sheet, netlist, netlist);
    // section 5.2: proj zero of x in and x x
    same(
        "and x x, of a named zero",
        "31 01 020000 030100 1B 1A0000 14 1A0202 1701 1100 1100",
        "zero 0, and 1, wire 0-1, wire 0-2, pin 3",
    );
    same("a name shown", "31 01 1B 1A0000 1100", "zero 0, pin 0");
    same("a name not used", "31 01 1B 1A0000 1A0600", "zero 0, one 1, pin 1");
    // zero 0 and one 1 are named together, taken apart and turned round
    same(
        "a named pair, turned",
        "31 01 020000 1B 1701 1A0000 1A0600 18 1100 1701 1100 1101",
        "zero 0, one 1, pins 1 0",
    );
    // the inner name is nearer
    same("two names", "31 01 020000 1B 1A0000 1B 1A0600 1701 1101 1100", "zero 0, one 1, pins 0 1");
    same("a ring through a name", "31 01 1900 1B 1100 1100", "point 0, wire 1-0, pin 1");
    makes(
        "f zero, named",
        "31 01 030000 040100 1502 1B 14 1200 1A0000 1100",
        "points 0 2, zero 4, wire 4-0, pins 1 2 3",
        "point 2, zero 4, pins 4 2 3",
    );
    makes(
        "inv of a name, then the name itself",
        "31 01 020000 030000 1B 1A0600 1701 14 1A0502 1100 1100",
        "one 0, inv 1, wire 0-1, pins 2 0",
        "one 0, inv 1, wire 0-1, pins 2 0",
    );
}

#[test]
fn gates_take_a_pair() {
    let same = |name: &str, sheet: &str, netlist: &str| makes(name, sheet, netlist, netlist);
    same("and alone", "31 01 020000 030100 1A0202", "and 0, pins 0 1 2");
    same(
        "or of a pair from outside",
        "31 01 020000 030100 1302 14 1A0302 1100",
        "points 0 2, or 4, wire 1-4, wire 3-5, pins 0 2 6",
    );
    same(
        "xor of zero and one",
        "31 01 020000 030100 14 1A0402 1701 1A0000 1A0600",
        "xor 0, zero 3, one 4, wire 3-0, wire 4-1, pin 2",
    );
    // P6 in the second edition: fix x. and (zero, reg x)
    makes(
        "feedback through reg",
        "31 01 020000 030100 030000 1900 14 1A0202 1701 1A0000 14 1A0103 1100",
        "point 0, and 2, zero 5, reg 6, wire 1-6, wire 5-2, wire 7-3, wire 4-0, pin 4",
        "and 2, zero 5, reg 6, wire 5-2, wire 7-3, wire 4-6, pin 4",
    );
    // f: (1 x 1) -> 1, given a pair gate
    makes(
        "f of two ones, of and",
        "31 01 020000 030100 040200 16 1503 14 1200 1701 1A0600 1A0600 1A0202",
        "points 0 2 4, one 6, one 7, and 8, wire 6-0, wire 7-2, wire 1-8, wire 3-9, wire 10-4, pin 5",
        "one 6, one 7, and 8, wire 6-8, wire 7-9, pin 10",
    );
}

#[test]
fn the_mark_shifts_the_stretches() {
    assert_eq!(stretch(&hex("31 01 1A0000"), 0), (2, 3));
    let sheet = hex("31 01 020000 1B 1701 1A0000 1A0600 1100");
    assert_eq!(stretch(&sheet, 0), (5, 11));
    assert_eq!(stretch(&sheet, 1), (6, 8));
    assert_eq!(stretch(&sheet, 3), (11, 3));
    assert_eq!(stretch(&sheet, 4), (14, 2));
    assert_eq!(stretch(&sheet, 5), (0, 0));
    assert_eq!(stretch(&hex("31"), 0), (0, 0));
}

#[test]
fn netlists_without_gates_are_the_same_in_both_editions() {
    let mut random = Random::new(7);
    let (mut same, mut other) = (0, 0);
    for _ in 0..4_000 {
        let sheet = grown(&mut random);
        for lean in [false, true] {
            let wish = Wish { lean, ..Wish::default() };
            let call = |sheet: &[u8]| wished(sheet, wish, 57_728, 32_768);
            match (call(&sheet), call(&marked(&sheet))) {
                (Ok(first), Ok(second)) => {
                    assert!(first == second, "{sheet:02x?}");
                    same += 1;
                }
                (Ok(_), Err(refusal)) => {
                    assert_eq!(refusal.number, 12);
                    let (start, _) = stretch(&marked(&sheet), refusal.place);
                    let gate = marked(&sheet)[start + 1];
                    assert!((2..=4).contains(&gate), "{refusal:?}");
                    other += 1;
                }
                (Err(first), Err(second)) => assert_eq!(first.number, second.number),
                (Err(first), Ok(_)) => panic!("{first:?} {sheet:02x?}"),
            }
        }
    }
    assert!(same > 2_000 && other > 1_000, "{same} {other}");
}

#[test]
fn every_refusal_and_both_new_things_occur_often() {
    let mut random = Random::new(13);
    let mut numbers: BTreeMap<usize, usize> = BTreeMap::new();
    let (mut names, mut gates) = (0, 0);
    for at in 0..6_000 {
        let sheet = editions::any(&mut random, at);
        let answer = translate(&sheet, true, 41_344, 32_768);
        let number = answer.as_ref().err().map_or(0, |refusal| refusal.number);
        *numbers.entry(number).or_default() += 1;
        if answer.is_ok() && sheet[0] == 0x31 {
            let nodes = read(&sheet).unwrap().stretches;
            names += usize::from(nodes.iter().any(|&(start, _)| sheet[start] == 0x1B));
            let gate = |start: usize| sheet[start] == 0x1A && (2..=4).contains(&sheet[start + 1]);
            gates += usize::from(nodes.iter().any(|&(start, _)| gate(start)));
        }
    }
    for number in [0, 3, 4, 5, 6, 7, 8, 9, 10, 11, 12, 13, 14, 15] {
        let count = numbers.get(&number).copied().unwrap_or(0);
        assert!(count >= 12, "{number} occurred {count} times: {numbers:?}");
    }
    assert!(names > 500 && gates > 500, "{names} names, {gates} gates");
}
