//! Document 01, "The sheet" and refusals 2 to 9: bytes to trees, records in byte order,
//! "each by kind, body, count (8), depth (8), type numbers (5), form (6), repeat (7), size (8)";
//! and document 02, L7: the edition.

use crate::refusal::{need, Refusal};
use crate::sheet::*;
use std::collections::HashSet;

/// Read a whole sheet; refusals 2 to 9.
pub fn read(bytes: &[u8]) -> Result<Sheet, Refusal> {
    need(bytes.len() <= SHEET_BYTES, 2, 0)?;
    let mut reader = Reader::over(bytes);
    reader.type_records()?;
    let term = reader.term(1)?;
    need(reader.at == bytes.len(), 9, reader.at)?;
    let Reader { edition, types, sizes, stretches, .. } = reader;
    Ok(Sheet { edition, types, sizes, term, stretches })
}

/// The start and length of a node's bytes; (0, 0) when the sheet or the number is refused.
pub fn stretch(bytes: &[u8], node: usize) -> (usize, usize) {
    match read(bytes) {
        Ok(sheet) => sheet.stretches.get(node).copied().unwrap_or((0, 0)),
        Err(_) => (0, 0),
    }
}

/// The body length of a node's record, if the byte is the kind of a node in this edition.
pub fn node_body(kind: u8, edition: Edition) -> Option<usize> {
    match kind {
        0x11 | 0x12 | 0x13 | 0x15 | 0x17 | 0x19 => Some(1),
        0x14 | 0x16 | 0x18 => Some(0),
        0x1A => Some(2),
        0x1B if edition == Edition::Second => Some(0),
        _ => None,
    }
}

/// The body length of a type's record, if the byte is the kind of a type.
pub fn type_body(kind: u8) -> Option<usize> {
    match kind {
        0x01 => Some(0),
        0x02..=0x04 => Some(2),
        _ => None,
    }
}

struct Reader<'a> {
    bytes: &'a [u8],
    edition: Edition,
    at: usize,
    types: Vec<Type>,
    sizes: Vec<usize>,
    seen: HashSet<Type>,
    stretches: Vec<(usize, usize)>,
}

impl<'a> Reader<'a> {
    fn over(bytes: &'a [u8]) -> Reader<'a> {
        let edition = Edition::of(bytes);
        Reader {
            bytes,
            edition,
            at: edition.mark(),
            types: Vec::new(),
            sizes: Vec::new(),
            seen: HashSet::new(),
            stretches: Vec::new(),
        }
    }

    /// "the first byte that isn't 01 to 04 ends them"
    fn type_records(&mut self) -> Result<(), Refusal> {
        while let Some(&kind) = self.bytes.get(self.at) {
            let Some(length) = type_body(kind) else { break };
            self.type_record(kind, length)?;
        }
        Ok(())
    }

    fn type_record(&mut self, kind: u8, length: usize) -> Result<(), Refusal> {
        let offset = self.at;
        let body = self.body(length)?;
        need(self.types.len() < TYPES, 8, offset)?;
        for &number in body {
            self.type_number(number, offset)?;
        }
        let record = match (kind, body) {
            (0x01, _) => Type::Bit,
            (0x02, &[left, right]) => Type::Product(left.into(), right.into()),
            (0x03, &[left, right]) => Type::Arrow(Sort::Sharable, left.into(), right.into()),
            (_, &[left, right]) => Type::Arrow(Sort::Linear, left.into(), right.into()),
            _ => unreachable!("a type's body has no or two bytes"),
        };
        need(self.is_formed(record), 6, offset)?;
        need(self.seen.insert(record), 7, offset)?;
        let size = match record {
            Type::Bit => 1,
            Type::Product(left, right) | Type::Arrow(_, left, right) => {
                self.sizes[left] + self.sizes[right]
            }
        };
        need(size <= SIZE, 8, offset)?;
        self.types.push(record);
        self.sizes.push(size);
        Ok(())
    }

    /// The table's left and right rules.
    fn is_formed(&self, record: Type) -> bool {
        match record {
            Type::Bit => true,
            Type::Product(left, right) => {
                self.types[left].is_sharable() && self.types[right].is_sharable()
            }
            Type::Arrow(Sort::Sharable, left, _) => self.types[left].is_sharable(),
            Type::Arrow(Sort::Linear, left, _) => self.types[left].is_arrow(),
        }
    }

    /// One term in prefix order, its root at the given depth.
    fn term(&mut self, depth: usize) -> Result<Term, Refusal> {
        let offset = self.at;
        let kind = *self.bytes.get(offset).ok_or(Refusal::new(3, offset))?;
        let length = node_body(kind, self.edition).ok_or(Refusal::new(4, offset))?;
        let body = self.body(length)?;
        let node = self.stretches.len();
        need(node < NODES, 8, offset)?;
        need(depth <= DEPTH, 8, offset)?;
        self.stretches.push((offset, 0));
        let sort = match kind {
            0x11 | 0x13 | 0x14 => Sort::Sharable,
            _ => Sort::Linear,
        };
        let form = match kind {
            0x11 | 0x12 => Form::Variable { sort, binder: body[0].into() },
            0x13 | 0x15 => {
                let written = self.type_number(body[0], offset)?;
                Form::Function { sort, written, body: self.subterm(depth)? }
            }
            0x14 | 0x16 => {
                let function = self.subterm(depth)?;
                Form::Application { sort, function, argument: self.subterm(depth)? }
            }
            0x17 => {
                let written = self.type_number(body[0], offset)?;
                let left = self.subterm(depth)?;
                Form::Pair { written, left, right: self.subterm(depth)? }
            }
            0x18 => {
                let pair = self.subterm(depth)?;
                Form::Projection { pair, body: self.subterm(depth)? }
            }
            0x1B => {
                let named = self.subterm(depth)?;
                Form::Naming { named, body: self.subterm(depth)? }
            }
            0x19 => {
                let written = self.type_number(body[0], offset)?;
                Form::FixedPoint { written, body: self.subterm(depth)? }
            }
            _ => Form::Constant { part: body[0], written: self.type_number(body[1], offset)? },
        };
        self.stretches[node].1 = self.at - offset;
        Ok(Term { node, form })
    }

    fn subterm(&mut self, depth: usize) -> Result<Box<Term>, Refusal> {
        Ok(Box::new(self.term(depth + 1)?))
    }

    /// Step over a record's kind and body, and give the body.
    fn body(&mut self, length: usize) -> Result<&'a [u8], Refusal> {
        let offset = self.at;
        let end = offset + 1 + length;
        let body = self.bytes.get(offset + 1..end).ok_or(Refusal::new(3, offset))?;
        self.at = end;
        Ok(body)
    }

    fn type_number(&self, number: u8, offset: usize) -> Result<TypeNumber, Refusal> {
        let number = TypeNumber::from(number);
        need(number < self.types.len(), 5, offset)?;
        Ok(number)
    }
}
