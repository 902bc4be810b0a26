//! Packed corpora: the format, the limit, and every refusal where it belongs.

use second::answers::answer;
use second::corpus::{named, pack, pack_cases, unpack, Kind};
use std::collections::BTreeSet;

const KINDS: [Kind; 4] = [Kind::Reading, Kind::Typing, Kind::Making, Kind::Whole];

fn numbers(kind: Kind, lines: &[String]) -> BTreeSet<usize> {
    let number = |line: &String| {
        let words: Vec<&str> = line.split(' ').collect();
        match (kind, words[0]) {
            (Kind::Whole, number) => number.parse().unwrap(),
            (_, "refused") => words[1].parse().unwrap(),
            _ => 0,
        }
    };
    lines.iter().map(number).collect()
}

#[test]
fn every_refusal_occurs_where_it_belongs() {
    for kind in KINDS {
        let (cases, left_out) = pack(kind, 1, 1_800, 700_000);
        assert_eq!(cases.len(), 1_800);
        assert_eq!(left_out, 0, "{kind:?}");
        let packed = pack_cases(&cases);
        assert!(packed.len() <= 700_000, "{kind:?}: {}", packed.len());
        assert!(unpack(&packed).as_ref() == Ok(&cases), "{kind:?}");
        let lines: Vec<String> = cases.iter().map(|case| answer(kind, case)).collect();
        let wanted: Vec<usize> = match kind {
            Kind::Reading => (0..=9).filter(|&number| number != 1).collect(),
            Kind::Typing => vec![0, 10, 11, 12, 13, 14, 15],
            Kind::Making => vec![0, 16],
            Kind::Whole => (0..=17).collect(),
        };
        let found = numbers(kind, &lines);
        assert!(wanted.iter().all(|number| found.contains(number)), "{kind:?}: {found:?}");
    }
}

#[test]
fn a_seed_gives_one_corpus_and_small_limits_are_kept() {
    for kind in KINDS {
        let twice = [pack(kind, 9, 1_700, 110_000).0, pack(kind, 9, 1_700, 110_000).0];
        assert!(twice[0] == twice[1], "{kind:?}");
        assert_eq!(twice[0].len(), 1_700);
        assert!(pack_cases(&twice[0]).len() <= 110_000);
        assert!(twice[0] != pack(kind, 10, 1_700, 110_000).0, "{kind:?}");
        assert!(pack_cases(&pack(kind, 3, 50, 2_100).0).len() <= 2_100);
    }
}

#[test]
fn named_cases_come_first() {
    for kind in KINDS {
        let edges = named(kind);
        let (cases, _) = pack(kind, 4, edges.len() + 10, 700_000);
        assert!(cases[..edges.len()] == edges[..], "{kind:?}");
    }
}

#[test]
fn the_stored_corpus_has_every_named_edge() {
    let path = concat!(env!("CARGO_MANIFEST_DIR"), "/../crates/corpus/stdin");
    let stored = unpack(&std::fs::read(path).unwrap()).unwrap();
    let whole = named(Kind::Whole);
    assert!(stored[..whole.len()] == whole[..]);
    let sheets: BTreeSet<&[u8]> = stored.iter().map(|case| &case.sheet[..]).collect();
    for kind in KINDS {
        assert!(named(kind).iter().all(|case| sheets.contains(&case.sheet[..])), "{kind:?}");
    }
    let lines: Vec<String> = stored.iter().map(|case| answer(Kind::Whole, case)).collect();
    assert_eq!(numbers(Kind::Whole, &lines), (0..=17).collect());
}

#[test]
fn a_cut_corpus_is_told() {
    let packed = pack_cases(&pack(Kind::Typing, 1, 5, 700).0);
    assert!(unpack(&packed[..packed.len() - 1]).is_err());
    assert!(unpack(&[1, 2, 3]).is_err());
    assert_eq!(unpack(&[]), Ok(vec![]));
}

#[test]
fn answers_are_lines_of_fields() {
    let case = |text: &str| unpack(&second::write::hex(text)).unwrap().remove(0);
    // room 9, memory 0, P1
    let p1 = case("0900 0000 0400 01 1A 00 00");
    assert_eq!(answer(Kind::Reading, &p1), "read 1 1 1 3 0 0 1 3 1 3 0 0");
    assert_eq!(answer(Kind::Typing, &p1), "type 0");
    assert!(answer(Kind::Making, &p1).starts_with("full 7 "));
    assert!(answer(Kind::Making, &p1).ends_with(" 22000000240000"));
    assert!(answer(Kind::Whole, &p1).starts_with("1 0 "));
    // P10 in room 0 and memory 0: nothing to sum up
    let p10 = case("0000 0000 0000");
    assert_eq!(answer(Kind::Reading, &p10), "refused 3 0 0 0 0 0");
    assert_eq!(answer(Kind::Whole, &p10), "1 0 0 0 1 0 0 0 0 0 0 0 0 0 0 0 0 0");
    // one output byte of 1: 0 * 257 + 1 + 1
    let one = case("0100 0000 0000");
    assert_eq!(answer(Kind::Whole, &one), "1 0 2 0 1 0 2 0 0 0 0 0 0 0 0 0 0 0");
    // P2 in room 0 and memory 0: the stretches of nodes 0, 1 and 0, its place
    let p2 = case("0000 0000 0800 01 03 00 00 13 01 11 00");
    assert_eq!(answer(Kind::Whole, &p2), "1 0 0 0 1 0 0 0 4 4 6 2 4 4 0 0 0 0");
}
