//! Document 02, L12: a sheet is refused by the profile exactly when one of its three rules is broken.

use second::circuits;
use second::edges_card;
use second::random::Random;
use second::sheet::{Sheet, Sort, Type};
use second::translate::{accepted, call, wished};
use second::write::hex;
use second::{bytes, lean, word, Refusal, Wish};
use std::collections::{BTreeMap, BTreeSet};

const CARD: Wish = Wish { lean: false, plain: false, card: true };

#[test]
fn each_edge_is_answered_as_expected() {
    let mut wrong = Vec::new();
    for edge in edges_card::edges() {
        for lean in [false, true] {
            let answer = wished(&edge.sheet, Wish { lean, ..CARD }, 57_728, 32_768);
            let refused = answer.err().map(|refusal| (refusal.number, refusal.place));
            if refused != edge.refused {
                wrong.push(format!("{}: {refused:?}, not {:?}", edge.name, edge.refused));
            }
        }
    }
    assert!(wrong.is_empty(), "{}", wrong.join("\n"));
}

#[test]
fn the_profile_is_asked_for_by_name_and_comes_before_17() {
    // a dropped one: refused 29 with the wish, 17 or accepted without it
    let sheet = hex("01 030000 14 1301 1A0000 1A0600");
    assert_eq!(wished(&sheet, CARD, 0, 32_768), Err(Refusal::new(29, 3)));
    let plain = Wish { plain: true, ..Wish::default() };
    // a point, two parts, a wire, a pin
    assert_eq!(wished(&sheet, plain, 0, 32_768), Err(Refusal::new(17, 19)));
    assert!(wished(&sheet, plain, 19, 32_768).is_ok());
    assert_eq!(wished(&sheet, CARD, 0, 32_767), Err(Refusal::new(1, 0)));
    let (mut output, mut memory) = (vec![7u8; 40], vec![9u16; 32_769]);
    assert_eq!(call(&sheet, &mut output, &mut memory, CARD), word(Err(Refusal::new(29, 3))));
    assert_eq!(output, [7; 40]);
    assert!(memory[..32_768].iter().all(|&number| number == 0) && memory[32_768] == 9);
    // P1 meets the profile: the length is that of the kinds asked for
    let p1 = hex("01 1A0000");
    assert_eq!(wished(&p1, CARD, 8, 32_768), Err(Refusal::new(17, 9)));
    assert_eq!(wished(&p1, Wish { plain: true, ..CARD }, 6, 32_768), Err(Refusal::new(17, 7)));
}

/// The arrows of a type from the root to the right, by sort.
fn spine(sheet: &Sheet, number: usize) -> Vec<Sort> {
    let mut sorts = Vec::new();
    let mut here = number;
    while let Type::Arrow(sort, _, right) = sheet.types[here] {
        sorts.push(sort);
        here = right;
    }
    sorts
}

/// The three rules over the records of the lean netlist's bytes.
fn broken(sheet: &[u8]) -> Option<(usize, usize)> {
    let accepted = accepted(sheet).ok()?;
    if spine(&accepted.sheet, accepted.root).contains(&Sort::Linear) {
        return Some((27, 0));
    }
    let bytes = bytes(&lean(&accepted.full));
    let number = |at: usize| usize::from(bytes[at]) + 256 * usize::from(bytes[at + 1]);
    let (mut points, mut outputs, mut read, mut pins) =
        (BTreeSet::new(), BTreeSet::new(), BTreeSet::new(), BTreeSet::new());
    let mut at = 0;
    while at < bytes.len() {
        match bytes[at] {
            0x21 => {
                points.insert(number(at + 1));
                at += 3;
            }
            0x22 => {
                let inputs = [0, 1, 2, 2, 2, 1, 0][usize::from(bytes[at + 1])];
                outputs.insert(number(at + 2) + inputs);
                at += 4;
            }
            0x23 => {
                read.insert(number(at + 1));
                at += 5;
            }
            _ => {
                pins.insert(number(at + 1));
                at += 3;
            }
        }
    }
    let ring = points.difference(&pins).next().map(|&input| (28, input));
    let unread = outputs.iter().find(|output| !read.contains(output) && !pins.contains(output));
    ring.or(unread.map(|&output| (29, output)))
}

#[test]
fn generated_sheets_are_refused_exactly_when_a_rule_is_broken() {
    let mut random = Random::new(12);
    let mut counts: BTreeMap<usize, usize> = BTreeMap::new();
    for at in 0..8_000 {
        let sheet = circuits::any(&mut random, at);
        let plain = wished(&sheet, Wish { card: false, ..CARD }, 57_728, 32_768);
        let card = wished(&sheet, CARD, 57_728, 32_768);
        let number = card.as_ref().err().map_or(0, |refusal| refusal.number);
        *counts.entry(number).or_default() += 1;
        match (plain, card) {
            (Ok(netlist), Ok(same)) => {
                assert_eq!(broken(&sheet), None, "{sheet:02x?}");
                assert!(netlist == same);
            }
            (Ok(_), Err(refusal)) => {
                assert_eq!(broken(&sheet), Some((refusal.number, refusal.place)), "{sheet:02x?}");
            }
            (plain, card) => assert_eq!(plain, card),
        }
    }
    for number in [0, 27, 28, 29] {
        assert!(counts.get(&number).copied().unwrap_or(0) > 300, "{counts:?}");
    }
}
