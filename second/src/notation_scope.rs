//! docs/NOTATION.md, "Meaning": which clause a name means, what its parameters stand for, and the limits
//! on entries and costs.

use crate::notation_tree::*;
use crate::notation_words::MOST_NUMBER;
use crate::refusal::{need, Refusal};
use crate::sheet::TypeNumber;

pub const ENTRIES: usize = 1_024;
pub const COSTS: usize = 32_767;

/// What a variable goes by.
#[derive(Clone, Copy, Debug, PartialEq, Eq)]
pub enum Called<'a> {
    Name(&'a [u8]),
    /// The variable of a list, by the list's parenthesis: no text can name it.
    List(usize),
    /// The rest of a pair that is taken apart further.
    Rest,
}

#[derive(Clone, Copy, Debug)]
pub enum Entry<'a> {
    Variable(Called<'a>, TypeNumber),
    Type(&'a [u8], TypeNumber),
    Number(&'a [u8], usize),
    /// An argument that waits for later ones.
    Waiting,
}

/// Where a stretch of text is worked out.
#[derive(Clone, Copy, Debug)]
pub struct Place {
    /// How many clauses are known here.
    pub known: usize,
    /// The first entry of its own clause.
    pub own: usize,
    /// The levels around its clause.
    pub around: usize,
}

/// The names in scope, those of the definitions around below the own ones.
#[derive(Clone, Debug, Default)]
pub struct Scope<'a> {
    pub entries: Vec<Entry<'a>>,
}

impl<'a> Scope<'a> {
    /// So many entries more are no more than there may be.
    pub fn room(&self, more: usize, at: usize) -> Result<(), Refusal> {
        need(self.entries.len() + more <= ENTRIES, 34, at)
    }

    /// "the nearest variable of its own definition": its binder number and its type.
    pub fn variable(&self, place: Place, sought: Called) -> Option<(usize, TypeNumber)> {
        let variables = self.entries[place.own..].iter().rev().filter_map(|entry| match *entry {
            Entry::Variable(called, of_type) => Some((called, of_type)),
            _ => None,
        });
        let mut numbered = variables.enumerate();
        numbered
            .find(|(_, (called, _))| *called == sought)
            .map(|(binder, (_, of_type))| (binder, of_type))
    }

    /// Of two parameters of one name the first is meant.
    pub fn type_parameter(&self, place: Place, sought: &[u8]) -> Option<TypeNumber> {
        self.entries[place.own..].iter().find_map(|entry| match *entry {
            Entry::Type(name, number) if name == sought => Some(number),
            _ => None,
        })
    }

    /// `k`, `n` or `n + k` as an argument.
    pub fn number(&self, place: Place, count: &Count) -> Result<usize, Refusal> {
        let Some(Named { name: sought, at }) = &count.name else { return Ok(count.more) };
        let found = self.entries[place.own..].iter().find_map(|entry| match entry {
            Entry::Number(name, number) if name == sought => Some(*number),
            _ => None,
        });
        let sum = found.ok_or(Refusal::new(33, *at))? + count.more;
        need(sum <= MOST_NUMBER, 34, *at)?;
        Ok(sum)
    }
}

/// What a parameter's name stands for where it fits the number; a bare number binds nothing.
pub fn fits(parameter: &Count, number: usize) -> bool {
    match parameter.name {
        Some(_) => number >= parameter.more,
        None => number == parameter.more,
    }
}

impl<'a> Text<'a> {
    /// "*The first clause that fits* is meant, of those that are known."
    pub fn meant(
        &self,
        known: usize,
        of_type: bool,
        name: &[u8],
        types: usize,
        numbers: &[usize],
    ) -> Option<usize> {
        self.clauses[..known].iter().position(|Clause { head, .. }| {
            head.of_type == of_type
                && head.named.name == name
                && head.types.len() == types
                && head.numbers.len() == numbers.len()
                && head
                    .numbers
                    .iter()
                    .zip(numbers)
                    .all(|(parameter, &number)| fits(parameter, number))
        })
    }

    /// "A clause knows the clauses above it. If it has number parameters it knows all clauses up to the last one
    /// of its own name, so itself too."
    pub fn known_to(&self, clause: usize) -> usize {
        let own = &self.clauses[clause].head;
        if own.numbers.is_empty() {
            return clause;
        }
        let of_own_name = |clause: &Clause| {
            clause.head.of_type == own.of_type && clause.head.named.name == own.named.name
        };
        self.clauses.iter().rposition(of_own_name).map_or(clause, |last| last + 1)
    }
}

impl Clause<'_> {
    pub fn has_parameters(&self) -> bool {
        !self.head.types.is_empty() || !self.head.numbers.is_empty()
    }

    /// "1 each, and 1 for each 32 bytes of the clause"
    pub fn cost(&self) -> usize {
        1 + self.bytes / 32
    }
}
