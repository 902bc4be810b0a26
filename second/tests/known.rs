//! P1 to P11 of document 01, typed in from its table.

mod common;
use common::makes;
use second::write::hex;
use second::{listing, translate, Refusal};

#[test]
fn accepted_sheets_give_the_netlists_of_the_table() {
    makes("P1", "01 1A 00 00", "zero 0, pin 0", "zero 0, pin 0");
    makes("P2", "01 03 00 00 13 01 11 00", "point 0, pins 0 1", "point 0, pins 0 1");
    makes(
        "P3",
        "01 03 00 00 04 01 00 16 15 02 14 12 00 1A 00 00 1A 01 01",
        "point 0, point 2, zero 4, reg 5, wire 4-0, wire 1-5, wire 6-2, pin 3",
        "zero 4, reg 5, wire 4-5, pin 6",
    );
    makes("P4", "01 19 00 11 00", "point 0, wire 1-0, pin 1", "point 0, wire 1-0, pin 1");
    makes(
        "P5",
        "01 03 00 00 03 00 01 13 01 14 14 1A 02 02 11 00 11 00",
        "point 0, and 2, wire 1-2, wire 1-3, pins 0 4",
        "point 0, and 2, wire 1-2, wire 1-3, pins 0 4",
    );
    makes(
        "P6",
        "01 03 00 00 03 00 01 19 00 14 14 1A 02 02 1A 00 00 14 1A 01 01 11 00",
        "point 0, and 2, zero 5, reg 6, wire 5-2, wire 1-6, wire 7-3, wire 4-0, pin 4",
        "and 2, zero 5, reg 6, wire 5-2, wire 7-3, wire 4-6, pin 4",
    );
    makes(
        "P7",
        "01 02 00 00 19 01 18 11 00 17 01 11 00 11 01",
        "points 0 2, wire 3-0, wire 1-2, pins 3 1",
        "point 0, wire 1-0, pins 1 1",
    );
}

#[test]
fn bytes_are_those_of_the_text() {
    let p1 = translate(&hex("01 1A 00 00"), false, 7, 32_768);
    assert_eq!(p1, Ok(vec![0x22, 0, 0, 0, 0x24, 0, 0]));
    let p4 = translate(&hex("01 19 00 11 00"), true, 11, 32_768);
    assert_eq!(p4, Ok(vec![0x21, 0, 0, 0x23, 1, 0, 0, 0, 0x24, 1, 0]));
}

#[test]
fn refused_sheets_give_the_refusals_of_the_table() {
    for (name, sheet, number, place) in [
        ("P8", "01 03 00 00 04 01 00 15 02 14 12 00 14 12 00 1A 00 00", 13, 4),
        ("P9", "01 03 00 00 04 01 00 15 02 1A 00 00", 14, 0),
        ("P10", "", 3, 0),
        ("P11", "01 14 1A 00 00 1A 00 00", 12, 0),
    ] {
        for lean in [false, true] {
            let refused = translate(&hex(sheet), lean, 41_344, 32_768);
            assert_eq!(
                refused.map_err(|why| (why.number, why.place)),
                Err((number, place)),
                "{name}"
            );
        }
        assert_eq!(listing(&hex(sheet)), format!("refused {number} {place}\n"), "{name}");
    }
}

#[test]
fn p3_is_listed_whole() {
    let sheet = hex("01 03 00 00 04 01 00 16 15 02 14 12 00 1A 00 00 1A 01 01");
    let text = "full
point 0 1
point 2 3
part zero 4
part reg 5 6
wire 4 0
wire 1 5
wire 6 2
pin 3
lean
part zero 4
part reg 5 6
wire 4 5
pin 6
end
";
    assert_eq!(listing(&sheet), text);
}

#[test]
fn the_edges_of_room_and_memory() {
    let p3 = hex("01 03 00 00 04 01 00 16 15 02 14 12 00 1A 00 00 1A 01 01");
    // full: 2 points, 2 parts, 3 wires, 1 pin; lean: 2 parts, 1 wire, 1 pin
    for (lean, needed) in [(false, 32), (true, 16)] {
        assert_eq!(translate(&p3, lean, needed, 32_768).map(|b| b.len()), Ok(needed));
        let short = translate(&p3, lean, needed - 1, 32_768);
        assert_eq!(short, Err(Refusal::new(17, needed)));
        assert_eq!(translate(&p3, lean, 0, 32_768), Err(Refusal::new(17, needed)));
        assert_eq!(translate(&p3, lean, needed, 32_767), Err(Refusal::new(1, 0)));
    }
    let long = vec![0; 16_385];
    assert_eq!(translate(&long, false, 0, 0), Err(Refusal::new(1, 0)));
    assert_eq!(translate(&long, false, 0, 32_768), Err(Refusal::new(2, 0)));
    assert_eq!(listing(&long), "refused 2 0\n");
}

#[test]
fn lent_storage_is_left_as_the_text_says() {
    let lent = |sheet: &str, lean: bool, room: usize, memory: usize| {
        let (mut output, mut numbers) = (vec![7u8; room], vec![9u16; memory]);
        let result =
            second::translate::translate_into(&hex(sheet), lean, &mut output, &mut numbers);
        (result, output, numbers)
    };
    let (result, output, numbers) = lent("01 1A 00 00", false, 9, 32_770);
    assert_eq!(result, Ok(7));
    assert_eq!(output, [0x22, 0, 0, 0, 0x24, 0, 0, 7, 7]);
    assert!(numbers[..32_768].iter().all(|&number| number == 0));
    assert_eq!(numbers[32_768..], [9, 9]);
    let (result, output, numbers) = lent("01 1A 00 00", false, 6, 32_768);
    assert_eq!(result, Err(Refusal::new(17, 7)));
    assert_eq!(output, [7; 6]);
    assert!(numbers.iter().all(|&number| number == 0));
    let (result, output, numbers) = lent("", true, 3, 32_767);
    assert_eq!(result, Err(Refusal::new(1, 0)));
    assert_eq!(output, [7; 3]);
    assert!(numbers.iter().all(|&number| number == 9));
}
