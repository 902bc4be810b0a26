//! Document 01, "Typing", the other way round: well-typed sheets of both editions, grown from a
//! wanted type. Each subterm is given the linear variables it must use, so that every split is made
//! on purpose.

use crate::random::Random;
use crate::sheet::*;
use crate::write::*;

/// How large a grown sheet may become, roughly.
#[derive(Clone, Copy, Debug)]
pub struct Wish {
    pub nodes: usize,
    pub size: usize,
    pub depth: usize,
    pub unused: usize,
}

/// A well-typed sheet; it may pass a limit of refusals 8 and 16, and no other refusal fits it.
pub fn grow(random: &mut Random, wish: Wish) -> Bytes {
    grow_edition(random, wish, Edition::First)
}

/// The same in either edition.
pub fn grow_edition(random: &mut Random, wish: Wish, edition: Edition) -> Bytes {
    grow_as(random, wish, edition, false)
}

/// The same, where each fixed point is over a single bit and goes through a part, so that no ring
/// is one of points alone.
pub fn grow_guarded(random: &mut Random, wish: Wish, edition: Edition) -> Bytes {
    grow_as(random, wish, edition, true)
}

fn grow_as(random: &mut Random, wish: Wish, edition: Edition, guarded: bool) -> Bytes {
    loop {
        let (types, scope) = (Types::new(), Vec::new());
        let mut grower = Grower { random, wish, edition, guarded, types, scope, nodes: 0 };
        if let Some(sheet) = grower.sheet() {
            return match edition {
                Edition::First => sheet,
                Edition::Second => marked(&sheet),
            };
        }
    }
}

struct Bound {
    sort: Sort,
    bound: TypeNumber,
}

/// Linear variables to be used in a subterm, by their place in the scope.
type Due = Vec<usize>;

struct Grower<'a> {
    random: &'a mut Random,
    wish: Wish,
    edition: Edition,
    guarded: bool,
    types: Types,
    scope: Vec<Bound>,
    nodes: usize,
}

impl Grower<'_> {
    fn sheet(&mut self) -> Option<Bytes> {
        self.types.bit();
        for _ in 0..self.wish.unused {
            self.any_type(self.wish.size)?;
        }
        let goal = self.any_type(self.wish.size)?;
        let term = self.term(goal, Due::new(), 1)?;
        Some(self.types.sheet(&term))
    }

    fn sharable_type(&mut self, most: usize) -> Option<TypeNumber> {
        let size = self.random.within(1, most.max(1));
        if size == 1 {
            return Some(self.types.bit());
        }
        let left = self.random.within(1, size - 1);
        let (left, right) = (self.sharable_type(left)?, self.sharable_type(size - left)?);
        self.types.number(Type::Product(left, right))
    }

    fn arrow_type(&mut self, most: usize) -> Option<TypeNumber> {
        let size = self.random.within(2, most.max(2));
        let left = self.random.within(1, size - 1);
        let (sort, left_side) = if left >= 2 && self.random.once_in(2) {
            (Sort::Linear, self.arrow_type(left)?)
        } else {
            (Sort::Sharable, self.sharable_type(left)?)
        };
        let right = self.any_type(size - left)?;
        self.types.number(Type::Arrow(sort, left_side, right))
    }

    fn any_type(&mut self, most: usize) -> Option<TypeNumber> {
        if most < 2 || self.random.once_in(3) {
            self.sharable_type(most)
        } else {
            self.arrow_type(most)
        }
    }

    /// A term of the wanted type that uses just the due linear variables.
    fn term(&mut self, goal: TypeNumber, due: Due, depth: usize) -> Option<Bytes> {
        if depth > DEPTH + 6 || self.nodes > 2 * NODES {
            return None;
        }
        self.nodes += 1;
        let shape = self.types.records[goal];
        if due.len() == 1 && self.scope[due[0]].bound == goal && self.random.once_in(2) {
            return Some(self.linear(due[0]));
        }
        if self.nodes >= self.wish.nodes || depth >= self.wish.depth {
            return self.short_term(goal, due, depth);
        }
        if self.edition == Edition::Second && self.random.once_in(6) {
            return self.use_name(goal, due, depth);
        }
        match self.random.below(12) {
            0 => self.use_function(goal, due, depth),
            1 => self.use_linear_function(goal, due, depth),
            2 | 3 => self.use_projection(goal, due, depth),
            4 if !due.is_empty() => self.spend(goal, due, depth),
            5 | 6 if self.guarded && shape == Type::Bit => self.use_guarded_fix(due, depth),
            5 | 6 if self.guarded => self.introduce(goal, due, depth),
            5 | 6 if shape.is_sharable() => {
                let body = self.under(&[(Sort::Sharable, goal)], goal, due, depth)?;
                Some(fix(goal, &body))
            }
            7 if due.is_empty() => self.short_term(goal, due, depth),
            8..=10 if shape == Type::Bit || self.is_bits_to_bit(goal) => {
                self.use_part(goal, due, depth)
            }
            _ => self.introduce(goal, due, depth),
        }
    }

    /// The form that makes a value of the type: a pair or a function.
    fn introduce(&mut self, goal: TypeNumber, mut due: Due, depth: usize) -> Option<Bytes> {
        match self.types.records[goal] {
            Type::Bit => self.use_part(goal, due, depth),
            Type::Product(left, right) => {
                let (first, second) = self.split(due);
                let left = self.term(left, first, depth + 1)?;
                let right = self.term(right, second, depth + 1)?;
                Some(pair(goal, &left, &right))
            }
            Type::Arrow(Sort::Sharable, left, right) => {
                let body = self.under(&[(Sort::Sharable, left)], right, due, depth)?;
                Some(function(goal, &body))
            }
            Type::Arrow(Sort::Linear, left, right) => {
                due.push(self.scope.len());
                let body = self.under(&[(Sort::Linear, left)], right, due, depth)?;
                Some(linear_function(goal, &body))
            }
        }
    }

    /// A part, applied to as many arguments as the wanted type leaves over.
    fn use_part(&mut self, goal: TypeNumber, due: Due, depth: usize) -> Option<Bytes> {
        if self.types.records.len() + 3 > TYPES {
            return None;
        }
        if self.edition == Edition::Second {
            return self.use_pair_part(goal, due, depth);
        }
        let left_over = self.types.sizes[goal] - 1;
        let inputs = if due.is_empty() {
            self.random.within(left_over, 2)
        } else if left_over == 2 {
            return self.introduce(goal, due, depth);
        } else {
            self.random.within(left_over + 1, 2)
        };
        let part = match inputs {
            0 => *self.random.pick(&[0, 6]),
            1 => *self.random.pick(&[1, 5]),
            _ => *self.random.pick(&[2, 3, 4]),
        };
        let written = self.types.arrows(inputs + 1);
        let mut term = constant(part, written);
        let mut rest = due;
        let bit = self.types.bit();
        for left in (left_over..inputs).rev() {
            let (here, later) =
                if left == left_over { (rest, Due::new()) } else { self.split(rest) };
            rest = later;
            let argument = self.term(bit, here, depth + 1 + left - left_over)?;
            term = apply(&term, &argument);
        }
        Some(term)
    }

    /// The same in the second edition, where gates take a pair.
    fn use_pair_part(&mut self, goal: TypeNumber, due: Due, depth: usize) -> Option<Bytes> {
        let bit = self.types.bit();
        let reg = self.types.reg();
        let gate = self.types.pair_gate();
        if goal != bit && !due.is_empty() {
            return self.introduce(goal, due, depth);
        }
        let of_one = constant(*self.random.pick(&[1, 5]), reg);
        let of_two = constant(*self.random.pick(&[2, 3, 4]), gate);
        if goal != bit {
            return Some(if goal == reg { of_one } else { of_two });
        }
        match self.random.below(6) {
            0 if due.is_empty() => Some(constant(*self.random.pick(&[0, 6]), bit)),
            0..=2 => Some(apply(&of_one, &self.term(bit, due, depth + 1)?)),
            _ => {
                let two = self.types.product(bit, bit);
                Some(apply(&of_two, &self.term(two, due, depth + 1)?))
            }
        }
    }

    /// A fixed point through a register, or now and then through an inverter.
    fn use_guarded_fix(&mut self, due: Due, depth: usize) -> Option<Bytes> {
        let bit = self.types.bit();
        let reg = self.types.number(Type::Arrow(Sort::Sharable, bit, bit))?;
        let body = self.under(&[(Sort::Sharable, bit)], bit, due, depth + 1)?;
        let part = if self.random.once_in(6) { 5 } else { 1 };
        Some(fix(bit, &apply(&constant(part, reg), &body)))
    }

    /// A name for a value of a sharable type.
    fn use_name(&mut self, goal: TypeNumber, due: Due, depth: usize) -> Option<Bytes> {
        let bound = self.sharable_type(self.wish.size)?;
        let (first, second) = self.split(due);
        let named = self.term(bound, first, depth + 1)?;
        let body = self.under(&[(Sort::Sharable, bound)], goal, second, depth)?;
        Some(name(&named, &body))
    }

    /// A function applied at once; half of the functions are introduced, the others grown.
    fn use_function(&mut self, goal: TypeNumber, due: Due, depth: usize) -> Option<Bytes> {
        let bound = self.sharable_type(self.wish.size)?;
        self.call(Sort::Sharable, bound, goal, due, depth)
    }

    fn use_linear_function(&mut self, goal: TypeNumber, due: Due, depth: usize) -> Option<Bytes> {
        let bound = self.arrow_type(self.wish.size)?;
        self.call(Sort::Linear, bound, goal, due, depth)
    }

    fn call(
        &mut self,
        sort: Sort,
        bound: TypeNumber,
        goal: TypeNumber,
        due: Due,
        depth: usize,
    ) -> Option<Bytes> {
        let Some(arrow) = self.types.number(Type::Arrow(sort, bound, goal)) else {
            return self.short_term(goal, due, depth);
        };
        let (first, second) = self.split(due);
        let called = if self.random.once_in(2) {
            self.introduce(arrow, first, depth + 1)?
        } else {
            self.term(arrow, first, depth + 1)?
        };
        let argument = self.term(bound, second, depth + 1)?;
        Some(match sort {
            Sort::Sharable => apply(&called, &argument),
            Sort::Linear => linear_apply(&called, &argument),
        })
    }

    fn use_projection(&mut self, goal: TypeNumber, due: Due, depth: usize) -> Option<Bytes> {
        let products: Vec<TypeNumber> = (0..self.types.records.len())
            .filter(|&number| matches!(self.types.records[number], Type::Product(..)))
            .collect();
        let product = if products.is_empty() || self.random.once_in(4) {
            let half = (self.wish.size / 2).max(1);
            let (left, right) = (self.sharable_type(half)?, self.sharable_type(half)?);
            self.types.number(Type::Product(left, right))?
        } else {
            *self.random.pick(&products)
        };
        let Type::Product(left, right) = self.types.records[product] else { return None };
        let (first, second) = self.split(due);
        let whole = self.term(product, first, depth + 1)?;
        let halves = [(Sort::Sharable, left), (Sort::Sharable, right)];
        let body = self.under(&halves, goal, second, depth)?;
        Some(project(&whole, &body))
    }

    /// The least term: a variable, a constant, an empty fixed point, bare functions.
    fn short_term(&mut self, goal: TypeNumber, due: Due, depth: usize) -> Option<Bytes> {
        let shape = self.types.records[goal];
        if due.len() == 1 && self.scope[due[0]].bound == goal {
            return Some(self.linear(due[0]));
        }
        if shape.is_arrow() {
            if due.is_empty() && self.is_bits_to_bit(goal) && self.random.once_in(2) {
                return self.use_part(goal, due, depth);
            }
            return self.introduce(goal, due, depth);
        }
        if !due.is_empty() {
            return self.spend(goal, due, depth);
        }
        let known: Vec<usize> = (0..self.scope.len())
            .filter(|&at| self.scope[at].sort == Sort::Sharable && self.scope[at].bound == goal)
            .collect();
        if !known.is_empty() && !self.random.once_in(6) {
            let at = *self.random.pick(&known);
            return Some(variable(self.scope.len() - 1 - at));
        }
        match shape {
            Type::Product(left, right) if self.guarded => {
                let left = self.short_term(left, Due::new(), depth + 1)?;
                Some(pair(goal, &left, &self.short_term(right, Due::new(), depth + 1)?))
            }
            Type::Bit if self.guarded || !self.random.once_in(8) => {
                Some(constant(*self.random.pick(&[0, 6]), goal))
            }
            _ => Some(fix(goal, &variable(0))),
        }
    }

    /// Apply one of the due variables until its result fits or is sharable, and bind the result
    /// where it doesn't fit.
    fn spend(&mut self, goal: TypeNumber, mut due: Due, depth: usize) -> Option<Bytes> {
        let at = due.swap_remove(self.random.below(due.len()));
        let (mut mine, others) = self.split(due);
        let mut term = self.linear(at);
        let mut found = self.scope[at].bound;
        let mut arguments = self.types.sizes[found];
        while let Type::Arrow(sort, left, right) = self.types.records[found] {
            if found == goal && mine.is_empty() && others.is_empty() && self.random.once_in(2) {
                return Some(term);
            }
            let last = self.types.records[right].is_sharable();
            let (here, later) = if last { (mine, Due::new()) } else { self.split(mine) };
            mine = later;
            let argument = self.term(left, here, depth + 2 + arguments.min(8))?;
            arguments -= self.types.sizes[left];
            term = match sort {
                Sort::Sharable => apply(&term, &argument),
                Sort::Linear => linear_apply(&term, &argument),
            };
            found = right;
        }
        if found == goal && others.is_empty() && !self.random.once_in(8) {
            return Some(term);
        }
        if let Type::Product(left, right) = self.types.records[found] {
            if self.random.once_in(2) {
                let halves = [(Sort::Sharable, left), (Sort::Sharable, right)];
                return Some(project(&term, &self.under(&halves, goal, others, depth)?));
            }
        }
        let arrow = self.types.number(Type::Arrow(Sort::Sharable, found, goal))?;
        let body = self.under(&[(Sort::Sharable, found)], goal, others, depth + 1)?;
        Some(apply(&function(arrow, &body), &term))
    }

    /// A term with more binders in scope, the nearest last.
    fn under(
        &mut self,
        more: &[(Sort, TypeNumber)],
        goal: TypeNumber,
        due: Due,
        depth: usize,
    ) -> Option<Bytes> {
        let outside = self.scope.len();
        for &(sort, bound) in more {
            self.scope.push(Bound { sort, bound });
        }
        let body = self.term(goal, due, depth + 1);
        self.scope.truncate(outside);
        body
    }

    fn linear(&self, at: usize) -> Bytes {
        linear_variable(self.scope.len() - 1 - at)
    }

    fn split(&mut self, due: Due) -> (Due, Due) {
        due.into_iter().partition(|_| self.random.once_in(2))
    }

    /// Is it the type of a part with inputs?
    fn is_bits_to_bit(&self, goal: TypeNumber) -> bool {
        if self.edition == Edition::Second {
            return self.is_pair_part(goal);
        }
        match self.types.records[goal] {
            Type::Arrow(Sort::Sharable, left, right) => {
                self.types.records[left] == Type::Bit
                    && match self.types.records[right] {
                        Type::Bit => true,
                        Type::Arrow(Sort::Sharable, second, last) => {
                            self.types.records[second] == Type::Bit
                                && self.types.records[last] == Type::Bit
                        }
                        _ => false,
                    }
            }
            _ => false,
        }
    }

    fn is_pair_part(&self, goal: TypeNumber) -> bool {
        let is_bit = |number: TypeNumber| self.types.records[number] == Type::Bit;
        match self.types.records[goal] {
            Type::Arrow(Sort::Sharable, left, right) if is_bit(right) => {
                match self.types.records[left] {
                    Type::Bit => true,
                    Type::Product(one, other) => is_bit(one) && is_bit(other),
                    Type::Arrow(..) => false,
                }
            }
            _ => false,
        }
    }
}
