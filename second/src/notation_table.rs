//! docs/NOTATION.md: "The table of types begins with **1**. Then come the types of the `table` lines,
//! then each type when it is first needed, behind its sides."

use crate::notation_tree::Joint;
use crate::refusal::{need, Refusal};
use crate::sheet::{Sort, Type, TypeNumber, SIZE, TYPES};

pub const BIT: TypeNumber = 0;

#[derive(Clone, Debug)]
pub struct TypeTable {
    types: Vec<Type>,
    sizes: Vec<usize>,
}

impl TypeTable {
    pub fn new() -> TypeTable {
        TypeTable { types: vec![Type::Bit], sizes: vec![1] }
    }

    pub fn is_sharable(&self, number: TypeNumber) -> bool {
        self.types[number].is_sharable()
    }

    pub fn get(&self, number: TypeNumber) -> Type {
        self.types[number]
    }

    /// "the rule of sides": document 01's left and right rules.
    pub fn sides_fit(&self, joint: Joint, left: TypeNumber, right: TypeNumber) -> bool {
        match joint {
            Joint::Product => self.is_sharable(left) && self.is_sharable(right),
            Joint::Sharable => self.is_sharable(left),
            Joint::Linear => !self.is_sharable(left),
        }
    }

    /// The number of a type whose sides fit; 34 at the place where it is one type or one bit too many.
    pub fn joined(
        &mut self,
        joint: Joint,
        (left, right): (TypeNumber, TypeNumber),
        at: usize,
    ) -> Result<TypeNumber, Refusal> {
        let joined = match joint {
            Joint::Product => Type::Product(left, right),
            Joint::Sharable => Type::Arrow(Sort::Sharable, left, right),
            Joint::Linear => Type::Arrow(Sort::Linear, left, right),
        };
        if let Some(number) = self.types.iter().position(|&known| known == joined) {
            return Ok(number);
        }
        let size = self.sizes[left] + self.sizes[right];
        need(size <= SIZE && self.types.len() < TYPES, 34, at)?;
        self.types.push(joined);
        self.sizes.push(size);
        Ok(self.types.len() - 1)
    }

    /// The arrow of a function that binds this type.
    pub fn function(
        &mut self,
        bound: TypeNumber,
        result: TypeNumber,
        at: usize,
    ) -> Result<TypeNumber, Refusal> {
        let joint = if self.is_sharable(bound) { Joint::Sharable } else { Joint::Linear };
        self.joined(joint, (bound, result), at)
    }

    pub fn records(&self) -> Vec<u8> {
        self.types.iter().flat_map(|&record| type_record(record)).collect()
    }
}

fn type_record(record: Type) -> Vec<u8> {
    let sides = |kind: u8, left: usize, right: usize| vec![kind, left as u8, right as u8];
    match record {
        Type::Bit => vec![0x01],
        Type::Product(left, right) => sides(0x02, left, right),
        Type::Arrow(Sort::Sharable, left, right) => sides(0x03, left, right),
        Type::Arrow(Sort::Linear, left, right) => sides(0x04, left, right),
    }
}
