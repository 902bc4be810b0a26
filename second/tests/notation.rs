//! docs/NOTATION.md: named texts; the examples' texts and sheets; the room; generated texts, whose sheets
//! are read.

use second::edges_notation::{edges, within_the_limits};
use second::notation_make::{call, make, Made};
use second::notation_texts::{any, packed, unpacked};
use second::random::Random;
use second::write::hex;
use second::{check, read, translate};
use std::collections::BTreeSet;

#[test]
fn each_edge_is_answered_as_expected() {
    let mut wrong = Vec::new();
    for edge in edges() {
        let found = make(&edge.text)
            .map(|made| (made.sheet, made.places))
            .map_err(|why| (why.number, why.place));
        if found != edge.answer {
            wrong.push(format!("{}: {found:02x?}, not {:02x?}", edge.name, edge.answer));
        }
    }
    assert!(wrong.is_empty(), "{}", wrong.join("\n"));
}

#[test]
fn each_refusal_has_an_edge() {
    let refused: BTreeSet<usize> =
        edges().iter().filter_map(|edge| edge.answer.as_ref().err()).map(|why| why.0).collect();
    assert_eq!(refused, (30..=36).collect());
}

#[test]
fn the_limits_can_be_reached() {
    for (name, text) in within_the_limits() {
        let made = make(text.as_bytes()).unwrap_or_else(|why| panic!("{name}: {why:?}"));
        assert!(read(&made.sheet).is_ok(), "{name}");
    }
}

#[test]
fn room_memory_and_places() {
    let text = b"main = fun x : 1. x";
    let said = |output: usize, places: usize, memory: usize| {
        let (mut bytes, mut offsets) = (vec![7; output], vec![7; places]);
        let mut work = vec![7; memory];
        let answer = call(text, &mut bytes, &mut offsets, &mut work);
        let cleared = if memory < 32_768 { 0 } else { 32_768 };
        assert!(work[..cleared].iter().all(|&number| number == 0));
        assert!(work[cleared..].iter().all(|&number| number == 7));
        assert!(answer < 1 << 32 || (bytes == vec![7; output] && offsets == vec![7; places]));
        (answer, bytes, offsets)
    };
    let refused = |number: u64, place: u64| number << 32 | place;
    let (answer, bytes, places) = said(9, 3, 32_769);
    assert_eq!(answer, 8);
    assert_eq!(bytes, [1, 3, 0, 0, 0x13, 1, 0x11, 0, 7]);
    assert_eq!(places, [11, 18, 7]);
    assert_eq!(said(8, 2, 32_768).0, 8);
    assert_eq!(said(7, 1, 32_768).0, refused(17, 8));
    assert_eq!(said(8, 1, 32_768).0, refused(37, 2));
    assert_eq!(said(7, 1, 32_767).0, refused(1, 0));
}

/// "refusals 2 to 9 never come"; a variable is in scope and of its sort, and a part is known (10, 11, 15).
#[test]
fn every_sheet_that_is_made_is_read() {
    let mut random = Random::new(33);
    let mut accepted = 0;
    for index in 0..4_000 {
        let text = any(&mut random, index);
        let Ok(Made { sheet, places }) = make(&text) else { continue };
        let read = read(&sheet).unwrap_or_else(|why| panic!("{why:?}: {text:?}"));
        assert_eq!(read.nodes(), places.len());
        assert!(places.iter().all(|&place| place < text.len()));
        match check(&read) {
            Ok(_) => accepted += 1,
            Err(why) => assert!([12, 13, 14].contains(&why.number), "{why:?}: {text:?}"),
        }
    }
    assert!(accepted > 50, "{accepted}");
}

/// The examples' sheets, stored as bytes, are the sheets that are made of their texts.
#[test]
fn the_examples_texts_make_their_sheets() {
    let mut seen = 0;
    for entry in std::fs::read_dir("../examples").expect("the examples") {
        let path = entry.expect("a file").path();
        let Ok(stored) = std::fs::read_to_string(path.with_extension("hex")) else { continue };
        if path.extension().is_none_or(|extension| extension != "dw") {
            continue;
        }
        let made = make(&std::fs::read(&path).expect("a text")).expect("a sheet").sheet;
        let bytes: Vec<&str> =
            stored.lines().map(|line| line.split('#').next().unwrap_or("")).collect();
        assert!(translate(&made, false, 41_344, 32_768).is_ok(), "{}", path.display());
        assert_eq!(made, hex(&bytes.join(" ")), "{}", path.display());
        seen += 1;
    }
    assert!(seen >= 30, "{seen}");
}

#[test]
fn texts_are_packed_and_unpacked() {
    let mut random = Random::new(34);
    let texts: Vec<Vec<u8>> = (0..40).map(|index| any(&mut random, index)).collect();
    let bytes = packed(&texts);
    assert_eq!(unpacked(&bytes).expect("whole"), texts);
    assert!(unpacked(&bytes[..bytes.len() - 1]).is_none());
}
