//! docs/NOTATION.md, "Grammar": what the grammar gives, as owned trees. Every tree has the place
//! of its first word, and its level: how deep it stands in its clause.

#[derive(Clone, Debug)]
pub struct Named<'a> {
    pub name: &'a [u8],
    pub at: usize,
}

/// Two members or more in parentheses, and where the first parenthesis stands.
#[derive(Clone, Debug)]
pub struct List<'a> {
    pub at: usize,
    pub members: Vec<Member<'a>>,
}

/// What a list binds at one of its places: a name, or a variable that is taken apart into a list.
#[derive(Clone, Debug)]
pub enum Member<'a> {
    Name(Named<'a>),
    List(List<'a>),
}

impl Member<'_> {
    /// Its word: the name, or the list's parenthesis.
    pub fn at(&self) -> usize {
        match self {
            Member::Name(name) => name.at,
            Member::List(list) => list.at,
        }
    }
}

impl List<'_> {
    /// The lists in it, in the order in which they open.
    pub fn inner(&self) -> Vec<&Self> {
        let lists = self.members.iter().filter_map(|member| match member {
            Member::Name(_) => None,
            Member::List(list) => Some(list),
        });
        lists.flat_map(|list| [vec![list], list.inner()].concat()).collect()
    }
}

/// `k`, or `n + k`.
#[derive(Clone, Debug)]
pub struct Count<'a> {
    pub name: Option<Named<'a>>,
    pub more: usize,
    pub at: usize,
}

/// A name with its arguments.
#[derive(Clone, Debug)]
pub struct Use<'a> {
    pub named: Named<'a>,
    pub types: Vec<TypeTree<'a>>,
    pub numbers: Vec<Count<'a>>,
}

impl Use<'_> {
    pub fn is_bare(&self) -> bool {
        self.types.is_empty() && self.numbers.is_empty()
    }
}

#[derive(Clone, Debug)]
pub struct TypeTree<'a> {
    pub at: usize,
    pub level: usize,
    pub form: TypeForm<'a>,
}

#[derive(Clone, Copy, Debug, PartialEq, Eq)]
pub enum Joint {
    Product,
    Sharable,
    Linear,
}

#[derive(Clone, Debug)]
pub enum TypeForm<'a> {
    Bit,
    /// So many bits in a row; the sign's place stands beside it.
    Row(Count<'a>, usize),
    Use(Use<'a>),
    /// The sign's place stands beside it.
    Joined(Joint, usize, Box<TypeTree<'a>>, Box<TypeTree<'a>>),
    Parenthesis(Box<TypeTree<'a>>),
}

#[derive(Clone, Debug)]
pub struct TermTree<'a> {
    pub at: usize,
    pub level: usize,
    pub form: TermForm<'a>,
}

#[derive(Clone, Debug)]
pub enum TermForm<'a> {
    Function(Vec<Named<'a>>, TypeTree<'a>, Box<TermTree<'a>>),
    /// `fun (x, y, ..)`
    Taken(List<'a>, TypeTree<'a>, Box<TermTree<'a>>),
    FixedPoint(Named<'a>, TypeTree<'a>, Box<TermTree<'a>>),
    Let(Named<'a>, Box<TermTree<'a>>, Box<TermTree<'a>>),
    /// `let (x, y, ..)`
    Apart(List<'a>, Box<TermTree<'a>>, Box<TermTree<'a>>),
    Atoms(Vec<TermTree<'a>>),
    Use(Use<'a>),
    Part(u8),
    /// One term is a parenthesis; more are pairs. Each stands with the place of the sign before it.
    Tuple(Vec<(usize, TermTree<'a>)>),
}

#[derive(Clone, Debug)]
pub enum Body<'a> {
    Term(TermTree<'a>),
    Type(TypeTree<'a>),
}

#[derive(Clone, Debug)]
pub struct Head<'a> {
    pub named: Named<'a>,
    pub of_type: bool,
    pub types: Vec<Named<'a>>,
    pub numbers: Vec<Count<'a>>,
}

#[derive(Clone, Debug)]
pub struct Clause<'a> {
    pub head: Head<'a>,
    pub body: Body<'a>,
    /// From the first byte of the name to the first byte of the word behind the clause.
    pub bytes: usize,
}

#[derive(Clone, Debug)]
pub struct Table<'a> {
    /// How many clauses stand above it.
    pub above: usize,
    pub types: Vec<TypeTree<'a>>,
}

#[derive(Clone, Debug)]
pub struct Text<'a> {
    pub second: bool,
    pub clauses: Vec<Clause<'a>>,
    pub tables: Vec<Table<'a>>,
    pub end: usize,
}
