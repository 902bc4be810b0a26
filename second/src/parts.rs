//! Document 01, "The sheet", the paragraph on parts: names, terminals and types.

#[derive(Debug, PartialEq, Eq)]
pub struct Part {
    pub name: &'static str,
    /// Each input is the left side of a sharable arrow from a single bit; in the second edition two
    /// inputs are the left side of one sharable arrow from a pair.
    pub inputs: usize,
}

impl Part {
    /// Every part has one output after its inputs.
    pub fn terminals(&self) -> usize {
        self.inputs + 1
    }
}

pub const PARTS: [Part; 7] = [
    Part { name: "zero", inputs: 0 },
    Part { name: "reg", inputs: 1 },
    Part { name: "and", inputs: 2 },
    Part { name: "or", inputs: 2 },
    Part { name: "xor", inputs: 2 },
    Part { name: "inv", inputs: 1 },
    Part { name: "one", inputs: 0 },
];
