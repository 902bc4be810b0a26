//! Document 01, "The sheet", the other way round: type tables and terms to bytes, for the
//! generated sheets. A term is just its bytes, as prefix order asks for no more.

use crate::sheet::*;
use std::collections::HashMap;

pub type Bytes = Vec<u8>;

/// A type table that gives each type one number.
#[derive(Clone, Default)]
pub struct Types {
    pub records: Vec<Type>,
    pub sizes: Vec<usize>,
    numbers: HashMap<Type, TypeNumber>,
}

impl Types {
    pub fn new() -> Types {
        Types::default()
    }

    /// The number of a type, or None where the table is full or the type too large.
    pub fn number(&mut self, record: Type) -> Option<TypeNumber> {
        if let Some(&number) = self.numbers.get(&record) {
            return Some(number);
        }
        let size = match record {
            Type::Bit => 1,
            Type::Product(left, right) | Type::Arrow(_, left, right) => {
                self.sizes[left] + self.sizes[right]
            }
        };
        let number = self.records.len();
        if number == TYPES || size > SIZE {
            return None;
        }
        self.records.push(record);
        self.sizes.push(size);
        self.numbers.insert(record, number);
        Some(number)
    }

    pub fn bit(&mut self) -> TypeNumber {
        self.number(Type::Bit).expect("the first type fits")
    }

    pub fn product(&mut self, left: TypeNumber, right: TypeNumber) -> TypeNumber {
        self.number(Type::Product(left, right)).expect("a product within the limits")
    }

    pub fn to(&mut self, left: TypeNumber, right: TypeNumber) -> TypeNumber {
        self.number(Type::Arrow(Sort::Sharable, left, right)).expect("an arrow within the limits")
    }

    pub fn lolli(&mut self, left: TypeNumber, right: TypeNumber) -> TypeNumber {
        self.number(Type::Arrow(Sort::Linear, left, right)).expect("an arrow within the limits")
    }

    /// The product of 2^level single bits, in halves.
    pub fn bits(&mut self, level: usize) -> TypeNumber {
        if level == 0 {
            return self.bit();
        }
        let half = self.bits(level - 1);
        self.product(half, half)
    }

    /// 1 -> (1 -> .. 1) of this size.
    pub fn arrows(&mut self, size: usize) -> TypeNumber {
        let bit = self.bit();
        (1..size).fold(bit, |rest, _| self.to(bit, rest))
    }

    /// The type of reg and inv.
    pub fn reg(&mut self) -> TypeNumber {
        self.arrows(2)
    }

    /// The type of the two-input gates in the first edition.
    pub fn gate(&mut self) -> TypeNumber {
        self.arrows(3)
    }

    /// The type of the two-input gates in the second edition.
    pub fn pair_gate(&mut self) -> TypeNumber {
        let bit = self.bit();
        let two = self.product(bit, bit);
        self.to(two, bit)
    }

    /// The table's bytes, then the term's.
    pub fn sheet(&self, term: &[u8]) -> Bytes {
        let mut bytes = Bytes::new();
        for record in &self.records {
            bytes.extend(type_record(*record));
        }
        bytes.extend(term);
        bytes
    }
}

/// The bytes of a sheet's types, then of a term over them.
pub fn rewritten(sheet: &Sheet, term: &Term) -> Bytes {
    let mut bytes = vec![SECOND_EDITION; sheet.edition.mark()];
    for record in &sheet.types {
        bytes.extend(type_record(*record));
    }
    write_term(term, &mut bytes);
    bytes
}

/// A node's record, then its subterms' records.
fn write_term(term: &Term, bytes: &mut Bytes) {
    match (&term.form, sort_of(&term.form)) {
        (Form::Variable { binder, .. }, Sort::Sharable) => bytes.extend(variable(*binder)),
        (Form::Variable { binder, .. }, Sort::Linear) => bytes.extend(linear_variable(*binder)),
        (Form::Function { written, .. }, Sort::Sharable) => bytes.extend([0x13, *written as u8]),
        (Form::Function { written, .. }, Sort::Linear) => bytes.extend([0x15, *written as u8]),
        (Form::Application { .. }, Sort::Sharable) => bytes.push(0x14),
        (Form::Application { .. }, Sort::Linear) => bytes.push(0x16),
        (Form::Pair { written, .. }, _) => bytes.extend([0x17, *written as u8]),
        (Form::Projection { .. }, _) => bytes.push(0x18),
        (Form::FixedPoint { written, .. }, _) => bytes.extend([0x19, *written as u8]),
        (Form::Constant { part, written }, _) => bytes.extend(constant(*part, *written)),
        (Form::Naming { .. }, _) => bytes.push(0x1B),
    }
    for subterm in term.subterms() {
        write_term(subterm, bytes);
    }
}

fn sort_of(form: &Form) -> Sort {
    match form {
        Form::Variable { sort, .. }
        | Form::Function { sort, .. }
        | Form::Application { sort, .. } => *sort,
        _ => Sort::Sharable,
    }
}

/// The same bytes behind the mark of the second edition.
pub fn marked(sheet: &[u8]) -> Bytes {
    node(&[SECOND_EDITION], &[sheet])
}

fn type_record(record: Type) -> Bytes {
    match record {
        Type::Bit => vec![0x01],
        Type::Product(left, right) => vec![0x02, left as u8, right as u8],
        Type::Arrow(Sort::Sharable, left, right) => vec![0x03, left as u8, right as u8],
        Type::Arrow(Sort::Linear, left, right) => vec![0x04, left as u8, right as u8],
    }
}

fn node(record: &[u8], subterms: &[&[u8]]) -> Bytes {
    let mut bytes = record.to_vec();
    for subterm in subterms {
        bytes.extend_from_slice(subterm);
    }
    bytes
}

pub fn variable(binder: usize) -> Bytes {
    vec![0x11, binder as u8]
}

pub fn linear_variable(binder: usize) -> Bytes {
    vec![0x12, binder as u8]
}

pub fn function(written: TypeNumber, body: &[u8]) -> Bytes {
    node(&[0x13, written as u8], &[body])
}

pub fn apply(function: &[u8], argument: &[u8]) -> Bytes {
    node(&[0x14], &[function, argument])
}

pub fn linear_function(written: TypeNumber, body: &[u8]) -> Bytes {
    node(&[0x15, written as u8], &[body])
}

pub fn linear_apply(function: &[u8], argument: &[u8]) -> Bytes {
    node(&[0x16], &[function, argument])
}

pub fn pair(written: TypeNumber, left: &[u8], right: &[u8]) -> Bytes {
    node(&[0x17, written as u8], &[left, right])
}

pub fn project(pair: &[u8], body: &[u8]) -> Bytes {
    node(&[0x18], &[pair, body])
}

/// Second edition: the body's one variable names the first subterm.
pub fn name(named: &[u8], body: &[u8]) -> Bytes {
    node(&[0x1B], &[named, body])
}

pub fn fix(written: TypeNumber, body: &[u8]) -> Bytes {
    node(&[0x19, written as u8], &[body])
}

pub fn constant(part: u8, written: TypeNumber) -> Bytes {
    vec![0x1A, part, written as u8]
}

/// Bytes written in hex; anything but hex digits between them is skipped.
pub fn hex(text: &str) -> Bytes {
    let digits: Vec<u8> = text.chars().filter_map(|c| c.to_digit(16)).map(|d| d as u8).collect();
    digits.chunks(2).map(|two| two[0] << 4 | two.get(1).copied().unwrap_or(0)).collect()
}
