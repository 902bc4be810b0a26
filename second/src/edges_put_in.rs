//! Document 02, L13: named sheets, and each with one linear application put in, worked out by hand.

use crate::write::*;

pub struct PutEdge {
    pub name: String,
    pub sheet: Bytes,
    /// The sheets with one application put in.
    pub put: Vec<Bytes>,
}

/// 0: 1; 1: 1 x 1; 2: 1 -> 1; 3: (1 -> 1) -o 1; 4: (1 -> 1) -o (1 -> 1); 5: 1 -> (1 -> 1);
/// 6: ((1 -> 1) -o 1) -o 1; 7: (1 -> 1) -o ((1 -> 1) -o 1); 8: (1 -> 1) -o (1 x 1)
const TABLE: &str = "01 020000 030000 040200 040202 030002 040300 040203 040201";

/// Name, a term over the table, and the terms it becomes.
#[rustfmt::skip]
const SMALL: &[(&str, &str, &[&str])] = &[
    ("P3", "16 1503 14 1200 1A0000 1A0102", &["14 1A0102 1A0000"]),
    ("nothing applied", "1503 14 1200 1A0000", &[]), ("a sharable function applied", "14 1302 1100 1A0000", &[]),
    ("a variable applied", "1506 16 1200 1A0502", &[]),
    ("an identity", "16 1504 1200 1A0502", &["1A0502"]),
    ("a variable of outside in the body", "1302 16 1503 14 1200 1101 1A0102", &["1302 14 1A0102 1100"]),
    ("a variable of outside in the argument", "1302 16 1503 14 1200 1A0000 1302 1101", &["1302 14 1302 1101 1A0000"]),
    ("behind a binder", "1305 16 1504 1302 14 1201 1100 1302 1101", &["1305 1302 14 1302 1102 1100"]),
    ("a variable of outside behind a binder", "1305 16 1504 1302 14 1201 1102 1A0102", &["1305 1302 14 1A0102 1101"]),
    ("behind a projection", "1302 16 1503 18 1701 1A0000 1101 14 1202 1100 1302 1101",
      &["1302 18 1701 1A0000 1100 14 1302 1103 1100"]),
    ("in a projection's first subterm", "16 1503 18 1701 14 1200 1A0000 1A0600 1101 1A0502",
      &["18 1701 14 1A0502 1A0000 1A0600 1101"]),
    ("behind a fixed point", "1302 16 1503 1900 14 1201 1100 14 1A0305 1100", &["1302 1900 14 14 1A0305 1101 1100"]),
    ("in a pair", "16 1508 1701 14 1200 1A0000 1A0600 1A0102", &["1701 14 1A0102 1A0000 1A0600"]),
    ("a bound variable of the argument stays", "16 1503 1900 14 1201 1100 1302 14 1A0502 1100",
      &["1900 14 1302 14 1A0502 1100 1100"]),
    ("a linear variable as argument", "1503 16 1503 14 1200 1A0000 1200", &["1503 14 1200 1A0000"]),
    ("a linear variable as argument, behind a binder", "1504 16 1504 1302 14 1201 1100 1200", &["1504 1302 14 1201 1100"]),
    ("two arguments", "16 16 1507 1503 14 1201 14 1200 1A0000 1A0102 1A0502",
      &["16 1503 14 1A0102 14 1200 1A0000 1A0502"]),
    ("a function of a function", "16 1506 16 1200 1A0502 1503 14 1200 1A0600", &["16 1503 14 1200 1A0600 1A0502"]),
    ("in the argument of another", "16 1503 14 1200 1A0000 16 1504 1200 1A0102",
      &["14 16 1504 1200 1A0102 1A0000", "16 1503 14 1200 1A0000 1A0102"]),
    ("in the body of another", "16 1503 16 1503 14 1200 1A0000 1200 1A0502",
      &["16 1503 14 1200 1A0000 1A0502", "16 1503 14 1200 1A0000 1A0502"]),
    ("on both sides of a pair", "1701 16 1503 14 1200 1A0000 1A0102 16 1503 14 1200 1A0600 1A0502",
      &["1701 14 1A0102 1A0000 16 1503 14 1200 1A0600 1A0502", "1701 16 1503 14 1200 1A0000 1A0102 14 1A0502 1A0600"]),
];

pub fn edges() -> Vec<PutEdge> {
    let sheet = |term: &str| hex(&format!("{TABLE} {term}"));
    let mut edges: Vec<PutEdge> = SMALL
        .iter()
        .map(|(name, term, put)| PutEdge {
            name: name.to_string(),
            sheet: sheet(term),
            put: put.iter().map(|term| sheet(term)).collect(),
        })
        .collect();
    edges.push(deep(30));
    edges.push(deep(31));
    edges
}

/// A body whose variable stands below so many inverters, and an argument whose deepest node does
/// too: put in, the sheet is 64 deep for 30, and 66 for 31.
fn deep(count: usize) -> PutEdge {
    let mut types = Types::new();
    let bit = types.bit();
    let reg = types.reg();
    let arrow = types.lolli(reg, bit);
    let inverted = |term: Bytes| (0..count).fold(term, |rest, _| apply(&constant(5, reg), &rest));
    let argument = function(reg, &inverted(inverted_once(reg)));
    let zero = constant(0, bit);
    let body = inverted(apply(&linear_variable(0), &zero));
    let sheet = types.sheet(&linear_apply(&linear_function(arrow, &body), &argument));
    let put = types.sheet(&inverted(apply(&argument, &zero)));
    PutEdge { name: format!("{count} deep, twice"), sheet, put: vec![put] }
}

fn inverted_once(reg: usize) -> Bytes {
    apply(&constant(5, reg), &variable(0))
}
