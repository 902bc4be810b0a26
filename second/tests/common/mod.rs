//! Netlists as the tests write them: "point 0, and 2, wire 1-2, pins 0 4", to bytes.

/// The bytes of a netlist in words, by the table of document 01 and not by the library.
pub fn written(text: &str) -> Vec<u8> {
    const NAMES: [&str; 7] = ["zero", "reg", "and", "or", "xor", "inv", "one"];
    let mut bytes = Vec::new();
    for item in text.split(',').map(str::trim).filter(|item| !item.is_empty()) {
        let (word, rest) = item.split_once(' ').expect("a word and numbers");
        let numbers = rest.split([' ', '-']).map(|number| number.parse::<u16>().expect("a number"));
        let low_first: Vec<[u8; 2]> = numbers.map(|n| [(n % 256) as u8, (n / 256) as u8]).collect();
        match word {
            "point" | "points" => low_first.iter().for_each(|n| bytes.extend([0x21, n[0], n[1]])),
            "wire" => bytes.extend([
                0x23,
                low_first[0][0],
                low_first[0][1],
                low_first[1][0],
                low_first[1][1],
            ]),
            "pin" | "pins" => low_first.iter().for_each(|n| bytes.extend([0x24, n[0], n[1]])),
            part => {
                let number = NAMES.iter().position(|name| *name == part).expect("a part");
                bytes.extend([0x22, number as u8, low_first[0][0], low_first[0][1]]);
            }
        }
    }
    bytes
}

/// Both netlists of a sheet in hex are as written down.
pub fn makes(name: &str, sheet: &str, full: &str, lean: &str) {
    let sheet = second::write::hex(sheet);
    for (wanted, is_lean) in [(full, false), (lean, true)] {
        let found = second::translate(&sheet, is_lean, 41_344, 32_768);
        assert_eq!(found, Ok(written(wanted)), "{name}, lean {is_lean}");
    }
}
