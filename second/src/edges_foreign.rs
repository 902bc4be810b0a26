//! Document 02, L8: named netlists, with the answers worked out by hand.

use crate::write::{hex, Bytes};

/// A named netlist; what a call refuses it with when told that it is a full one, and a lean one.
pub struct Net {
    pub name: String,
    pub net: Bytes,
    pub full: Option<(usize, usize)>,
    pub lean: Option<(usize, usize)>,
}

/// Netlists of which a full and a lean one are answered alike: refusal and place, 0 0 where the
/// netlist is accepted.
#[rustfmt::skip]
const BOTH: &[(&str, &str, usize, usize)] = &[
    ("nothing", "", 0, 0), ("P1", "22 00 0000  24 0000", 0, 0), ("P2", "21 0000  24 0000  24 0100", 0, 0),
    ("P3", "21 0000 21 0200 22 00 0400 22 01 0500  23 0400 0000 23 0100 0500 23 0600 0200  24 0300", 0, 0),
    ("P4", "21 0000  23 0100 0000  24 0100", 0, 0),
    ("P7", "21 0000 21 0200  23 0300 0000 23 0100 0200  24 0300 24 0100", 0, 0),
    ("no pins", "22 00 0000", 0, 0), ("a ring, no pins", "21 0000  23 0100 0000", 0, 0),
    ("all seven parts", "22 00 0000 22 01 0100 22 02 0300 22 03 0600 22 04 0900 22 05 0C00 22 06 0E00       23 0000 0100 23 0000 0300 23 0000 0400 23 0000 0600 23 0000 0700 23 0000 0900 23 0000 0A00 23 0000 0C00", 0, 0),
    ("wires in falling order", "22 02 0000  23 0200 0100 23 0200 0000", 0, 0),
    ("an output pin twice", "22 00 0000  24 0000 24 0000", 0, 0),
    ("input pins in falling order", "22 02 0000  24 0100 24 0000", 0, 0),
    // 21: unknown kinds
    ("kind 00", "00", 21, 0), ("kind 01", "01", 21, 0), ("kind 20", "20 0000", 21, 0), ("kind FF", "FF", 21, 0),
    ("kind 25", "25 0000 0000", 21, 0), ("kind 26", "26 00 0000 0000", 21, 0), ("kind 27", "27", 21, 0),
    ("kind 31", "31 22 00 0000", 21, 0), ("kind 25 second", "22 00 0000 25 0100 0000", 21, 4),
    ("kind 26 behind wires", "21 0000 23 0100 0000 26 00 0200 0000", 21, 8),
    ("an unknown kind behind pins", "22 00 0000 24 0000 00", 21, 7),
    // 21: cut
    ("21 cut", "21", 21, 0), ("21 cut by one", "21 00", 21, 0), ("22 cut", "22", 21, 0), ("22 cut by two", "22 00", 21, 0),
    ("22 cut by one", "22 00 00", 21, 0), ("23 cut", "22 05 0000 23", 21, 4), ("23 cut by one", "22 05 0000 23 0100 00", 21, 4),
    ("24 cut", "22 00 0000 24", 21, 4), ("24 cut by one", "22 00 0000 24 00", 21, 4),
    ("a cut element that is misnumbered", "22 00 0000 22 00 00", 21, 4), ("a cut unknown part", "22 09", 21, 0),
    // 21: misplaced
    ("a part behind a wire", "22 05 0000 23 0100 0000 22 00 0200", 21, 9),
    ("a point behind a wire", "22 05 0000 23 0100 0000 21 0200", 21, 9),
    ("a part behind a pin", "22 00 0000 24 0000 22 00 0100", 21, 7),
    ("a wire behind a pin", "22 05 0000 24 0100 23 0100 0000", 21, 7),
    // 21: unknown part, before 22
    ("part 7", "22 07 0000", 21, 0), ("part FF", "22 FF 0000", 21, 0), ("part 7, misnumbered", "22 00 0000 22 07 0000", 21, 4),
    ("part 7, above 8,191", "22 07 FFFF", 21, 0),
    // 21 before 22 at the same record, the earlier record before the later
    ("a misplaced wire that goes nowhere", "22 00 0000 24 0000 23 0900 0900", 21, 7),
    ("a misplaced part, misnumbered", "22 00 0000 24 0000 22 00 0000", 21, 7),
    ("22, then 21", "22 00 0000 22 00 0000 FF", 22, 4), ("21, then 22", "22 00 0000 FF 22 00 0000", 21, 4),
    ("a bad wire, then a bad pin", "22 00 0000 23 0000 0000 24 0900", 22, 4),
    ("a bad pin, then a cut one", "22 00 0000 24 0900 24", 22, 4),
    // 22: numbering
    ("twice the same", "22 00 0000 22 00 0000", 22, 4), ("a point over a part's output", "22 05 0000 21 0100", 22, 4),
    ("a part over a point's output", "21 0000 22 00 0100", 22, 3),
    ("the third falls back", "22 00 0000 22 00 0100 22 00 0000", 22, 8),
    // 22: direction and ends
    ("a wire from an input", "22 05 0000 23 0000 0000", 22, 4), ("a wire to an output", "22 05 0000 23 0100 0100", 22, 4),
    ("a wire the wrong way round", "22 05 0000 23 0000 0100", 22, 4),
    ("a wire from nowhere", "22 05 0000 23 0200 0000", 22, 4), ("a wire to nowhere", "22 00 0000 23 0000 0100", 22, 4),
    ("a wire and no elements", "23 0000 0100", 22, 0), ("a wire from 65,535", "22 05 0000 23 FFFF 0000", 22, 4),
    ("a wire to 65,535", "22 05 0000 23 0100 FFFF", 22, 4), ("a wire to 8,192", "22 05 0000 23 0100 0020", 22, 4),
    ("the second wire is bad", "22 02 0000 23 0200 0000 23 0100 0100", 22, 9),
    ("a pin that is none", "22 00 0000 24 0100", 22, 4), ("a pin and no elements", "24 0000", 22, 0),
    ("pin 65,535", "22 00 0000 24 FFFF", 22, 4), ("pin 8,192", "22 00 0000 24 0020", 22, 4),
    ("pin 256 for 1", "22 05 0000 24 0001", 22, 4),
    // 23: drivers
    ("an input that nothing feeds", "21 0000", 23, 0), ("the second input", "22 02 0000 24 0000", 23, 1),
    ("the first input", "22 02 0000 24 0100", 23, 0), ("a wire and a pin", "21 0000 23 0100 0000 24 0000", 23, 0),
    ("two wires", "21 0000 23 0100 0000 23 0100 0000", 23, 0), ("two pins", "21 0000 24 0000 24 0000", 23, 0),
    ("two wires from two outputs", "22 05 0000 22 00 0200 23 0100 0000 23 0200 0000", 23, 0),
    ("the lowest of two", "22 02 0000 21 0300 24 0100", 23, 0), ("one fed twice, one not at all", "22 02 0000 23 0200 0100 24 0100", 23, 0),
    ("the higher one only", "21 0000 21 0200 24 0000", 23, 2),
    ("21 before 23", "21 0000 FF", 21, 3), ("22 before 23", "21 0000 24 0900", 22, 3),
];

/// Netlists with gaps: refused 22 as full ones at this offset, and as lean ones with the second
/// answer.
#[rustfmt::skip]
const GAPS: &[(&str, &str, usize, usize, usize)] = &[
    ("P3 lean", "22 00 0400 22 01 0500  23 0400 0500  24 0600", 0, 0, 0),
    ("P6 lean", "22 02 0200 22 00 0500 22 01 0600  23 0500 0200 23 0700 0300 23 0400 0600  24 0400", 0, 0, 0),
    ("from 1", "22 00 0100", 0, 0, 0), ("falling", "22 00 0100 22 00 0000", 0, 22, 4), ("a gap of one", "22 00 0000 22 00 0200", 4, 0, 0),
    ("a wire to a gap", "22 00 0000 22 05 0200 23 0000 0100", 4, 22, 8),
    ("a wire from a gap", "22 00 0000 22 05 0200 23 0100 0200", 4, 22, 8),
    ("a pin at a gap", "22 00 0000 22 00 0200 24 0100", 4, 22, 8),
    ("a gap, then a step back", "22 00 0000 22 00 0500 22 00 0300", 4, 22, 8),
    ("a gap, then unknown", "22 00 0100 25", 0, 21, 4), ("a gap, then unfed", "21 0100", 0, 23, 1),
    ("the last terminal", "22 00 FF1F", 0, 0, 0), ("8,192", "22 00 0020", 0, 22, 0), ("65,535", "22 00 FFFF", 0, 22, 0),
    ("a point at the end", "21 FE1F 24 FE1F", 0, 0, 0), ("a point over the end", "21 FF1F 24 FF1F", 0, 22, 0),
    ("a point at 65,535", "21 FFFF 24 FFFF", 0, 22, 0),
    ("a gate at the end", "22 02 FD1F 24 FD1F 24 FE1F", 0, 0, 0), ("a gate over the end", "22 02 FE1F 24 FE1F 24 FF1F", 0, 22, 0),
    ("a gate at 65,534", "22 02 FEFF", 0, 22, 0), ("behind the last terminal", "22 00 FF1F 22 00 0020", 0, 22, 4),
    ("unfed at the end", "22 05 FE1F", 0, 23, 8190),
];

pub fn edges() -> Vec<Net> {
    let answer = |number, place| (number != 0).then_some((number, place));
    let mut edges: Vec<Net> = Vec::new();
    let mut add = |name: &str, net: Bytes, full, lean| {
        edges.push(Net { name: name.to_string(), net, full, lean });
    };
    for &(name, text, number, place) in BOTH {
        let refused = answer(number, place);
        add(name, hex(text), refused, refused);
    }
    for &(name, text, offset, number, place) in GAPS {
        add(name, hex(text), Some((22, offset)), answer(number, place));
    }
    add("8,192 zeros", zeros(8_192), None, None);
    let one_more = Some((22, 4 * 8_192));
    add("8,193 zeros", zeros(8_193), one_more, one_more);
    let mut many_pins = hex("22 00 0000");
    many_pins.extend(hex("24 0000").repeat(30_000));
    add("30,000 pins", many_pins.clone(), None, None);
    many_pins.push(0x24);
    add("30,000 pins and a cut one", many_pins, Some((21, 90_004)), Some((21, 90_004)));
    edges
}

fn zeros(count: u16) -> Bytes {
    (0..count).flat_map(|first| [0x22, 0x00, first as u8, (first >> 8) as u8]).collect()
}
