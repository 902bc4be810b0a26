//! Document 01, "The sheet", and document 02, L7: types, terms and the limits, as owned trees.

/// The limits of refusals 1, 2, 8 and 16.
pub const MEMORY: usize = 32_768;
pub const SHEET_BYTES: usize = 16_384;
pub const TYPES: usize = 256;
pub const SIZE: usize = 128;
pub const NODES: usize = 2_048;
pub const DEPTH: usize = 64;
pub const TERMINALS: usize = 8_192;

/// "A second-edition sheet starts with kind 31, no body."
#[derive(Clone, Copy, Debug, PartialEq, Eq, Hash)]
pub enum Edition {
    First,
    Second,
}

/// The byte that a second-edition sheet starts with.
pub const SECOND_EDITION: u8 = 0x31;

impl Edition {
    pub fn of(sheet: &[u8]) -> Edition {
        match sheet.first() {
            Some(&SECOND_EDITION) => Edition::Second,
            _ => Edition::First,
        }
    }

    /// How many bytes stand before the first record.
    pub fn mark(self) -> usize {
        match self {
            Edition::First => 0,
            Edition::Second => 1,
        }
    }
}

/// A type number counts the type records from 0.
pub type TypeNumber = usize;

/// Variables, functions, applications and arrows are of one of two sorts.
#[derive(Clone, Copy, Debug, PartialEq, Eq, Hash)]
pub enum Sort {
    Sharable,
    Linear,
}

/// A type record. As no record occurs twice, equal types have equal numbers.
#[derive(Clone, Copy, Debug, PartialEq, Eq, Hash)]
pub enum Type {
    Bit,
    Product(TypeNumber, TypeNumber),
    Arrow(Sort, TypeNumber, TypeNumber),
}

impl Type {
    /// The kinds 01 and 02 make sharable types.
    pub fn is_sharable(self) -> bool {
        !self.is_arrow()
    }

    /// The kinds 03 and 04 make linear types.
    pub fn is_arrow(self) -> bool {
        matches!(self, Type::Arrow(..))
    }
}

/// A term with the node number of its first record.
#[derive(Clone, Debug, PartialEq, Eq)]
pub struct Term {
    pub node: usize,
    pub form: Form,
}

impl Term {
    /// The subterms in prefix order.
    pub fn subterms(&self) -> Vec<&Term> {
        match &self.form {
            Form::Variable { .. } | Form::Constant { .. } => vec![],
            Form::Function { body, .. } | Form::FixedPoint { body, .. } => vec![body],
            Form::Application { function: first, argument: second, .. }
            | Form::Pair { left: first, right: second, .. }
            | Form::Projection { pair: first, body: second }
            | Form::Naming { named: first, body: second } => vec![first, second],
        }
    }

    /// How many variables each of the subterms is bound under.
    pub fn binds(&self) -> Vec<usize> {
        match &self.form {
            Form::Variable { .. } | Form::Constant { .. } => vec![],
            Form::Function { .. } | Form::FixedPoint { .. } => vec![1],
            Form::Application { .. } | Form::Pair { .. } => vec![0, 0],
            Form::Projection { .. } => vec![0, 2],
            Form::Naming { .. } => vec![0, 1],
        }
    }

    /// The same node over other subterms, as many as it has.
    pub fn over(&self, subterms: Vec<Term>) -> Term {
        let mut given = subterms.into_iter().map(Box::new);
        let mut next = || given.next().expect("as many subterms as the node has");
        let form = match self.form.clone() {
            form @ (Form::Variable { .. } | Form::Constant { .. }) => form,
            Form::Function { sort, written, .. } => Form::Function { sort, written, body: next() },
            Form::FixedPoint { written, .. } => Form::FixedPoint { written, body: next() },
            Form::Application { sort, .. } => {
                Form::Application { sort, function: next(), argument: next() }
            }
            Form::Pair { written, .. } => Form::Pair { written, left: next(), right: next() },
            Form::Projection { .. } => Form::Projection { pair: next(), body: next() },
            Form::Naming { .. } => Form::Naming { named: next(), body: next() },
        };
        Term { node: self.node, form }
    }
}

#[derive(Clone, Debug, PartialEq, Eq)]
pub enum Form {
    Variable {
        sort: Sort,
        binder: usize,
    },
    Function {
        sort: Sort,
        written: TypeNumber,
        body: Box<Term>,
    },
    Application {
        sort: Sort,
        function: Box<Term>,
        argument: Box<Term>,
    },
    Pair {
        written: TypeNumber,
        left: Box<Term>,
        right: Box<Term>,
    },
    Projection {
        pair: Box<Term>,
        body: Box<Term>,
    },
    /// Second edition: the body's one variable names the first subterm.
    Naming {
        named: Box<Term>,
        body: Box<Term>,
    },
    FixedPoint {
        written: TypeNumber,
        body: Box<Term>,
    },
    Constant {
        part: u8,
        written: TypeNumber,
    },
}

/// A sheet that refusals 2 to 9 let pass.
#[derive(Clone, Debug, PartialEq, Eq)]
pub struct Sheet {
    pub edition: Edition,
    pub types: Vec<Type>,
    /// For each type its number of single bits.
    pub sizes: Vec<usize>,
    pub term: Term,
    /// For each node the start and the length of its bytes, subterms included.
    pub stretches: Vec<(usize, usize)>,
}

impl Sheet {
    pub fn nodes(&self) -> usize {
        self.stretches.len()
    }
}
