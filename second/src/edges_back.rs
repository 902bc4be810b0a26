//! Document 02, L11: named netlists, with the sheet or the refusal worked out by hand.

use crate::write::{hex, Bytes};

pub struct BackEdge {
    pub name: String,
    pub net: Bytes,
    pub lean: bool,
    /// The sheet, or the refusal with its place.
    pub answer: Result<Bytes, (usize, usize)>,
}

/// The types that every sheet starts with.
const FIRST: &str = "01 030000 030001";

/// Name, netlist, what the types go on with, the term.
#[rustfmt::skip]
const ACCEPTED: &[(&str, &str, &str, &str)] = &[
    ("zero", "22 00 0000", "", "1900 1A0000"), ("one, shown twice", "22 06 0000 24 0000 24 0000", "", "1900 1A0600"),
    ("inv of a pin", "22 05 0000 24 0000 24 0100", "", "1301 1900 14 1A0501 1101"),
    ("reg of itself", "22 01 0000 23 0100 0000", "", "1900 14 1A0101 1100"),
    ("and of two pins", "22 02 0000 24 0100 24 0000", "", "1302 1301 1900 14 14 1A0202 1102 1101"),
    ("or of a pin and itself", "22 03 0000 23 0200 0100 24 0000", "", "1301 1900 14 14 1A0302 1101 1100"),
    ("xor of itself and a pin", "22 04 0000 23 0200 0000 24 0100", "", "1301 1900 14 14 1A0402 1100 1101"),
    ("xor of itself twice", "22 04 0000 23 0200 0100 23 0200 0000", "", "1900 14 14 1A0402 1100 1100"),
    ("inv of zero", "22 00 0000 22 05 0100 23 0000 0100", "020000", "1903 18 1100 1703 1A0000 14 1A0501 1101"),
    ("inv of what follows it", "22 05 0000 22 00 0200 23 0200 0000", "020000", "1903 18 1100 1703 14 1A0501 1100 1A0000"),
    ("two inverters round", "22 05 0000 22 05 0200 23 0300 0000 23 0100 0200", "020000",
      "1903 18 1100 1703 14 1A0501 1100 14 1A0501 1101"),
    ("inv and and, both open", "22 05 0000 22 02 0200 24 0300 24 0000 24 0200", "020000 030003 030004 030005",
      "1306 1305 1304 1903 18 1100 1703 14 1A0501 1105 14 14 1A0202 1104 1103"),
    ("xor, reg and inv", "22 04 0000 22 01 0300 22 05 0500 23 0200 0300 23 0400 0100 23 0400 0500 24 0000",
      "020000 020003 030004",
      "1305 1904 18 1100 18 1100 1704 14 14 1A0402 1105 1101 1703 14 1A0101 1103 14 1A0501 1101"),
    ("four zeros and ones", "22 00 0000 22 06 0100 22 06 0200 22 00 0300", "020000 020003 020004",
      "1905 18 1100 18 1100 18 1100 1705 1A0000 1704 1A0600 1703 1A0600 1A0000"),
];

/// Name, netlist, whether it is called lean, refusal and place.
#[rustfmt::skip]
const REFUSED: &[(&str, &str, bool, usize, usize)] = &[
    ("nothing", "", false, 26, 0), ("nothing, lean", "", true, 26, 0), ("one point", "21 0000 24 0000", false, 25, 0),
    ("a point behind a part", "22 00 0000 21 0100 23 0000 0100", false, 25, 4),
    ("the first of two points", "22 00 0000 21 0100 21 0300 23 0000 0100 23 0000 0300", false, 25, 4),
    ("a point in a ring", "21 0000 23 0100 0000", true, 25, 0),
    ("kind 25", "25 0000 0000 24 0000", false, 21, 0), ("a part of no number", "22 09 0000", false, 21, 0),
    ("a gap", "22 00 0000 22 00 0200", false, 22, 4), ("no driver", "22 05 0000", false, 23, 0),
    ("two drivers", "22 05 0000 23 0100 0000 24 0000", false, 23, 0),
    ("21 before 25", "21 0000 FF", false, 21, 3), ("23 before 25", "21 0000", false, 23, 0),
];

pub fn edges() -> Vec<BackEdge> {
    let mut edges = Vec::new();
    let mut add = |name: &str, net: Bytes, lean: bool, answer| {
        edges.push(BackEdge { name: name.to_string(), net, lean, answer });
    };
    for &(name, net, types, term) in ACCEPTED {
        for lean in [false, true] {
            add(name, hex(net), lean, Ok(hex(&format!("{FIRST} {types} {term}"))));
        }
    }
    for &(name, net, lean, number, place) in REFUSED {
        add(name, hex(net), lean, Err((number, place)));
    }
    let gaps = "22 05 0700 22 00 FF1F 23 FF1F 0700 24 FF1F";
    let sheet = format!("{FIRST} 020000 1903 18 1100 1703 14 1A0501 1100 1A0000");
    add("parts far apart", hex(gaps), true, Ok(hex(&sheet)));
    add("parts far apart, not called lean", hex(gaps), false, Err((22, 0)));
    for (name, parts, refused) in [
        ("16 zeros", vec![0; 16], None),
        ("17 zeros", vec![0; 17], Some((26, 0))),
        ("12 gates, 24 open", vec![2; 12], None),
        ("12 gates and inv, 25 open", [vec![3; 12], vec![5]].concat(), Some((26, 0))),
        ("8 gates and 8 registers, 24 open", [vec![4; 8], vec![1; 8]].concat(), None),
        ("13 gates, 26 open", vec![4; 13], Some((26, 0))),
        ("16 inverters, 16 open", vec![5; 16], None),
        ("17 inverters, 17 open", vec![5; 17], Some((26, 0))),
    ] {
        let (net, sheet) = all_open(&parts);
        add(name, net, false, refused.map_or(Ok(sheet), Err));
    }
    let mut point_too = all_open(&[0; 17]).0;
    point_too.extend(hex("21 1100 24 1100"));
    add("25 before 26", point_too, false, Err((25, 68)));
    edges
}

/// Parts whose inputs are all pins, and the sheet of that, written from the outside in.
fn all_open(parts: &[u8]) -> (Bytes, Bytes) {
    const INPUTS: [usize; 7] = [0, 1, 2, 2, 2, 1, 0];
    let (mut net, mut pins) = (Bytes::new(), Bytes::new());
    let mut next = 0;
    for &part in parts {
        net.extend([0x22, part, next, 0]);
        for _ in 0..INPUTS[usize::from(part)] {
            pins.extend([0x24, next, 0]);
            next += 1;
        }
        next += 1;
    }
    net.extend(&pins);
    let count = parts.len() as u8;
    let open = (pins.len() / 3) as u8;
    let mut sheet = hex(FIRST);
    // type 3 is the product of two, type count + 1 that of all; arrows to it follow
    let whole = count + 1;
    for product in 3..=whole {
        sheet.extend([0x02, 0x00, if product == 3 { 0 } else { product - 1 }]);
    }
    for arrow in 0..open {
        sheet.extend([0x03, 0x00, whole + arrow]);
    }
    for arrow in (0..open).rev() {
        sheet.extend([0x13, whole + 1 + arrow]);
    }
    sheet.extend([0x19, whole]);
    sheet.extend(hex("18 1100").repeat(usize::from(count) - 1));
    // 2 * (count - 1) names and the fixed point are nearer than the innermost function
    let mut binder = 2 * (count - 1) + 1 + open;
    for (index, &part) in parts.iter().enumerate() {
        if index + 1 < parts.len() {
            sheet.extend([0x17, whole - index as u8]);
        }
        let inputs = INPUTS[usize::from(part)];
        sheet.extend(vec![0x14; inputs]);
        sheet.extend([0x1A, part, inputs as u8]);
        for _ in 0..inputs {
            binder -= 1;
            sheet.extend([0x11, binder]);
        }
    }
    (net, sheet)
}
