//! Document 01, "Numbers of the refusals", 10 to 15: the typing walk in prefix order; and document
//! 02, L3: the two types that clash, and L7: the second edition.

use crate::parts::{Part, PARTS};
use crate::refusal::{need, Refusal, FORM};
use crate::sheet::*;

/// The type number of the root's type, or the first of refusals 10 to 15.
pub fn check(sheet: &Sheet) -> Result<TypeNumber, Refusal> {
    Walk { edition: sheet.edition, types: &sheet.types, scope: Vec::new() }.term(&sheet.term)
}

struct Binder {
    sort: Sort,
    bound: TypeNumber,
    used: bool,
}

struct Walk<'a> {
    edition: Edition,
    types: &'a [Type],
    /// The binders in scope, the nearest last; both sorts share the count.
    scope: Vec<Binder>,
}

impl Walk<'_> {
    fn term(&mut self, term: &Term) -> Result<TypeNumber, Refusal> {
        let node = term.node;
        match &term.form {
            Form::Variable { sort, binder } => self.variable(*sort, *binder, node),
            Form::Constant { part, written } => self.constant(*part, *written, node),
            Form::Function { sort, written, body } => {
                let (left, right) = self.arrow(*sort, *written, node)?;
                self.bind(*sort, left);
                let found = self.term(body)?;
                let binder = self.scope.pop().expect("the binder pushed above");
                need(*sort == Sort::Sharable || binder.used, 14, node)?;
                same(right, found, node)?;
                Ok(*written)
            }
            Form::Application { sort, function, argument } => {
                let function = self.term(function)?;
                let argument = self.term(argument)?;
                let (left, right) = self.arrow(*sort, function, node)?;
                same(left, argument, node)?;
                Ok(right)
            }
            Form::Pair { written, left, right } => {
                let (wanted_left, wanted_right) = self.product(*written, node)?;
                let found_left = self.term(left)?;
                let found_right = self.term(right)?;
                same(wanted_left, found_left, node)?;
                same(wanted_right, found_right, node)?;
                Ok(*written)
            }
            Form::Projection { pair, body } => {
                let found = self.term(pair)?;
                let (left, right) = self.product(found, node)?;
                self.bind(Sort::Sharable, left);
                self.bind(Sort::Sharable, right);
                let result = self.term(body)?;
                self.scope.truncate(self.scope.len() - 2);
                Ok(result)
            }
            Form::Naming { named, body } => {
                let found = self.term(named)?;
                self.sharable(found, node)?;
                self.bind(Sort::Sharable, found);
                let result = self.term(body)?;
                self.scope.pop();
                Ok(result)
            }
            Form::FixedPoint { written, body } => {
                self.sharable(*written, node)?;
                self.bind(Sort::Sharable, *written);
                let found = self.term(body)?;
                self.scope.pop();
                same(*written, found, node)?;
                Ok(*written)
            }
        }
    }

    /// The two sides of an arrow of this sort.
    fn arrow(
        &self,
        sort: Sort,
        found: TypeNumber,
        node: usize,
    ) -> Result<(TypeNumber, TypeNumber), Refusal> {
        match self.types[found] {
            Type::Arrow(arrow, left, right) if arrow == sort => Ok((left, right)),
            _ => Err(Refusal::clash(node, FORM, found)),
        }
    }

    /// The two halves of a product.
    fn product(&self, found: TypeNumber, node: usize) -> Result<(TypeNumber, TypeNumber), Refusal> {
        match self.types[found] {
            Type::Product(left, right) => Ok((left, right)),
            _ => Err(Refusal::clash(node, FORM, found)),
        }
    }

    fn sharable(&self, found: TypeNumber, node: usize) -> Result<(), Refusal> {
        if self.types[found].is_sharable() {
            Ok(())
        } else {
            Err(Refusal::clash(node, FORM, found))
        }
    }

    fn bind(&mut self, sort: Sort, bound: TypeNumber) {
        self.scope.push(Binder { sort, bound, used: false });
    }

    /// "On entering a node: 10, 11, 13 for a variable"
    fn variable(&mut self, sort: Sort, number: usize, node: usize) -> Result<TypeNumber, Refusal> {
        need(number < self.scope.len(), 10, node)?;
        let nearest = self.scope.len() - 1;
        let binder = &mut self.scope[nearest - number];
        need(binder.sort == sort, 11, node)?;
        if sort == Sort::Linear {
            need(!binder.used, 13, node)?;
            binder.used = true;
        }
        Ok(binder.bound)
    }

    /// "15, then 12 for a constant"
    fn constant(&self, part: u8, written: TypeNumber, node: usize) -> Result<TypeNumber, Refusal> {
        let part = PARTS.get(usize::from(part)).ok_or(Refusal::new(15, node))?;
        let wanted = self.part_type(part).unwrap_or(FORM);
        same(wanted, written, node)?;
        Ok(written)
    }

    /// The number of a part's type, if that stands in the sheet: in the first edition a sharable
    /// arrow from a single bit for each input; in the second the two-input gates take a pair.
    fn part_type(&self, part: &Part) -> Option<TypeNumber> {
        let number = |wanted: Type| self.types.iter().position(|&record| record == wanted);
        let arrow = |left, right| number(Type::Arrow(Sort::Sharable, left, right));
        let bit = number(Type::Bit)?;
        match (self.edition, part.inputs) {
            (Edition::Second, 2) => arrow(number(Type::Product(bit, bit))?, bit),
            (_, inputs) => (0..inputs).try_fold(bit, |rest, _| arrow(bit, rest)),
        }
    }
}

/// As no record occurs twice, equal types have equal numbers.
fn same(wanted: TypeNumber, found: TypeNumber, node: usize) -> Result<(), Refusal> {
    if wanted == found {
        Ok(())
    } else {
        Err(Refusal::clash(node, wanted, found))
    }
}
