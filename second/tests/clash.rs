//! Document 02, L3: refusal 12 names the two types that clash, no other refusal names any.

use second::corpus::{any, faulty, named, Kind};
use second::edges_clash::{cause, KINDS};
use second::editions;
use second::random::Random;
use second::refusal::FORM;
use second::sheet::Sheet;
use second::{check, edges_clash, edges_edition, read, translate, word, Refusal};
use std::collections::BTreeMap;

#[test]
fn each_cause_names_its_types() {
    let mut wrong = Vec::new();
    for edge in edges_clash::edges().into_iter().chain(edges_edition::clashes()) {
        for lean in [false, true] {
            let answer = translate(&edge.sheet, lean, 41_344, 32_768);
            if answer != Err(edge.refused) {
                wrong.push(format!("{}: {answer:?}, not {:?}", edge.name, edge.refused));
            }
        }
    }
    assert!(wrong.is_empty(), "{}", wrong.join("\n"));
}

#[test]
fn the_word_has_four_fields() {
    assert_eq!(word(Ok(41_344)), 41_344);
    assert_eq!(word(Err(Refusal::new(3, 0))), 0x0000_0003_0000_0000);
    assert_eq!(word(Err(Refusal::new(17, 41_344))), 0x0000_0011_0000_A180);
    // 12 at node 417, wanted 5, found 3
    assert_eq!(word(Err(Refusal::clash(417, 5, 3))), 0x0030_050C_0000_01A1);
    // 12 at node 2,047, wanted 256, found 255
    assert_eq!(word(Err(Refusal::clash(2_047, 256, 255))), 0x0FF1_000C_0000_07FF);
}

fn named_types_are_types(sheet: &Sheet, refusal: Refusal) {
    if refusal.number != 12 {
        assert_eq!((refusal.wanted, refusal.found), (0, 0));
        return;
    }
    let count = sheet.types.len();
    assert!(refusal.wanted != refusal.found && refusal.found < count, "{refusal:?}");
    assert!(refusal.wanted < count || refusal.wanted == FORM, "{refusal:?}");
}

#[test]
fn clashes_name_two_different_types() {
    let mut sheets: Vec<Vec<u8>> =
        [Kind::Typing, Kind::Reading].into_iter().flat_map(named).map(|case| case.sheet).collect();
    let mut random = Random::new(12);
    sheets.extend((0..4_000).map(|at| any(&mut random, at)));
    sheets.extend((0..2_000).map(|_| faulty(&mut random, 12)));
    sheets.extend((0..3_000).map(|at| editions::any(&mut random, at)));
    let mut causes: BTreeMap<(u8, bool), usize> = BTreeMap::new();
    for bytes in sheets {
        let sheet = match read(&bytes) {
            Ok(sheet) => sheet,
            Err(refusal) => {
                assert_eq!((refusal.wanted, refusal.found), (0, 0));
                continue;
            }
        };
        if let Err(refusal) = check(&sheet) {
            named_types_are_types(&sheet, refusal);
            if refusal.number == 12 {
                *causes.entry(cause(&bytes, refusal.place, refusal.wanted)).or_default() += 1;
            }
        }
    }
    let seldom: Vec<_> =
        KINDS.iter().filter(|cause| causes.get(cause).copied().unwrap_or(0) < 10).collect();
    assert!(seldom.is_empty(), "seldom: {seldom:x?} of {causes:x?}");
    assert_eq!(causes.len(), KINDS.len(), "{causes:x?}");
}
