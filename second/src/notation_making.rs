//! docs/NOTATION.md, "Meaning": trees to records; 33, 34 and 35 in the order in which they are met.

use crate::notation_grammar::LEVELS;
use crate::notation_scope::*;
use crate::notation_table::{TypeTable, BIT};
use crate::notation_tree::*;
use crate::parts::PARTS;
use crate::refusal::{need, Refusal};
use crate::sheet::{Sort, Type, TypeNumber, DEPTH, NODES};

/// One node: where its word begins, and its record.
#[derive(Clone, Debug)]
pub struct Node {
    pub place: usize,
    pub record: Vec<u8>,
}

/// A made term: its nodes in prefix order, and its type.
#[derive(Clone, Debug)]
pub struct MadeTerm {
    pub nodes: Vec<Node>,
    pub of_type: TypeNumber,
    /// How many nodes stand in one another, this one and its deepest leaf counted.
    pub height: usize,
}

type Answer = Result<MadeTerm, Refusal>;

#[derive(Clone, Debug)]
pub struct Maker<'t, 'a> {
    pub text: &'t Text<'a>,
    pub table: TypeTable,
    pub cost: usize,
    pub nodes: usize,
    pub scope: Scope<'a>,
}

impl<'t, 'a> Maker<'t, 'a> {
    pub fn new(text: &'t Text<'a>) -> Maker<'t, 'a> {
        Maker { text, table: TypeTable::new(), cost: 0, nodes: 0, scope: Scope::default() }
    }

    /// A clause without parameters, as if it were named at this place, with nothing around it.
    pub fn clause(&mut self, clause: usize, at: usize) -> Result<Option<MadeTerm>, Refusal> {
        let place = self.put_in(clause, at, 0)?;
        match &self.text.clauses[clause].body {
            Body::Term(body) => self.term(place, body).map(Some),
            Body::Type(body) => self.type_of(place, body).map(|_| None),
        }
    }

    /// What a definition costs; and where its body is worked out.
    fn put_in(&mut self, clause: usize, at: usize, around: usize) -> Result<Place, Refusal> {
        self.cost += self.text.clauses[clause].cost();
        need(self.cost <= COSTS, 34, at)?;
        Ok(Place { known: self.text.known_to(clause), own: self.scope.entries.len(), around })
    }

    fn entered(&self, place: Place, level: usize, at: usize) -> Result<(), Refusal> {
        need(place.around + level <= LEVELS, 34, at)
    }

    /// Arguments first; then the clause that is meant; then its parameters are in scope.
    fn used(
        &mut self,
        place: Place,
        one: &Use<'a>,
        level: usize,
        of_type: bool,
    ) -> Result<(usize, Place), Refusal> {
        let before = self.scope.entries.len();
        let mut types = Vec::new();
        for argument in &one.types {
            self.scope.room(1, one.named.at)?;
            types.push(self.type_of(place, argument)?);
            self.scope.entries.push(Entry::Waiting);
        }
        let mut numbers = Vec::new();
        for argument in &one.numbers {
            self.scope.room(1, one.named.at)?;
            numbers.push(self.scope.number(place, argument)?);
            self.scope.entries.push(Entry::Waiting);
        }
        let meant = self.text.meant(place.known, of_type, one.named.name, types.len(), &numbers);
        let clause = meant.ok_or(Refusal::new(33, one.named.at))?;
        self.scope.entries.truncate(before);
        let place = self.put_in(clause, one.named.at, place.around + level)?;
        self.parameters(clause, &types, &numbers);
        Ok((clause, place))
    }

    fn parameters(&mut self, clause: usize, types: &[TypeNumber], numbers: &[usize]) {
        let head = &self.text.clauses[clause].head;
        for (parameter, &number) in head.types.iter().zip(types) {
            self.scope.entries.push(Entry::Type(parameter.name, number));
        }
        for (parameter, &number) in head.numbers.iter().zip(numbers) {
            self.scope.entries.push(match &parameter.name {
                Some(Named { name, .. }) => Entry::Number(name, number - parameter.more),
                None => Entry::Waiting,
            });
        }
    }

    pub fn type_of(&mut self, place: Place, tree: &TypeTree<'a>) -> Result<TypeNumber, Refusal> {
        self.entered(place, tree.level, tree.at)?;
        match &tree.form {
            TypeForm::Bit => Ok(BIT),
            TypeForm::Row(count, sign) => self.row(place, count, *sign),
            TypeForm::Parenthesis(inside) => self.type_of(place, inside),
            TypeForm::Joined(joint, sign, left, right) => {
                let left = self.type_of(place, left)?;
                let right = self.type_of(place, right)?;
                need(self.table.sides_fit(*joint, left, right), 35, *sign)?;
                self.table.joined(*joint, (left, right), *sign)
            }
            TypeForm::Use(one) => self.type_use(place, one, tree.level),
        }
    }

    /// The innermost product first; no bits are no type.
    fn row(&mut self, place: Place, count: &Count, sign: usize) -> Result<TypeNumber, Refusal> {
        let bits = self.scope.number(place, count)?;
        need(bits > 0, 33, count.at)?;
        (1..bits).try_fold(BIT, |row, _| self.table.joined(Joint::Product, (BIT, row), sign))
    }

    fn type_use(
        &mut self,
        place: Place,
        one: &Use<'a>,
        level: usize,
    ) -> Result<TypeNumber, Refusal> {
        let parameter = self.scope.type_parameter(place, one.named.name);
        if let Some(number) = parameter.filter(|_| one.is_bare()) {
            return Ok(number);
        }
        let before = self.scope.entries.len();
        let (clause, inside) = self.used(place, one, level, true)?;
        let Body::Type(body) = &self.text.clauses[clause].body else {
            unreachable!("a type's clause")
        };
        let number = self.type_of(inside, body)?;
        self.scope.entries.truncate(before);
        Ok(number)
    }

    /// A node is made when its subterms are: then it is counted, and its depth above the deepest leaf is judged.
    fn node(
        &mut self,
        at: usize,
        record: Vec<u8>,
        of_type: TypeNumber,
        subterms: Vec<MadeTerm>,
    ) -> Answer {
        let height = 1 + subterms.iter().map(|subterm| subterm.height).max().unwrap_or(0);
        self.nodes += 1;
        need(self.nodes <= NODES && height <= DEPTH, 34, at)?;
        let mut nodes = vec![Node { place: at, record }];
        for subterm in subterms {
            nodes.extend(subterm.nodes);
        }
        Ok(MadeTerm { nodes, of_type, height })
    }

    pub fn term(&mut self, place: Place, tree: &TermTree<'a>) -> Answer {
        let at = tree.at;
        self.entered(place, tree.level, at)?;
        match &tree.form {
            TermForm::Function(names, written, body) => {
                self.functions(place, at, names, written, body)
            }
            TermForm::Taken(list, written, body) => self.taken(place, at, list, written, body),
            TermForm::FixedPoint(name, written, body) => self.fixed(place, at, name, written, body),
            TermForm::Let(name, named, body) => self.naming(place, at, name, named, body),
            TermForm::Apart(list, named, body) => self.apart(place, at, list, named, body),
            TermForm::Atoms(atoms) => self.applied(place, atoms),
            TermForm::Use(one) => self.term_use(place, one, tree.level),
            TermForm::Part(part) => self.part(*part, at),
            TermForm::Tuple(row) => self.tuple(place, row),
        }
    }

    fn bind(&mut self, called: Called<'a>, of_type: TypeNumber) {
        self.scope.entries.push(Entry::Variable(called, of_type));
    }

    fn functions(
        &mut self,
        place: Place,
        at: usize,
        names: &[Named<'a>],
        written: &TypeTree<'a>,
        body: &TermTree<'a>,
    ) -> Answer {
        let bound = self.type_of(place, written)?;
        self.scope.room(names.len(), at)?;
        let before = self.scope.entries.len();
        for name in names {
            self.bind(Called::Name(name.name), bound);
        }
        let body = self.term(place, body)?;
        self.scope.entries.truncate(before);
        names.iter().rev().try_fold(body, |made, name| self.function(bound, made, name.at))
    }

    fn function(&mut self, bound: TypeNumber, body: MadeTerm, at: usize) -> Answer {
        let of_type = self.table.function(bound, body.of_type, at)?;
        let kind = if self.table.is_sharable(bound) { 0x13 } else { 0x15 };
        self.node(at, vec![kind, of_type as u8], of_type, vec![body])
    }

    /// `fun p : t. let (x, y, ..) = p in e`, where p has no name.
    fn taken(
        &mut self,
        place: Place,
        at: usize,
        list: &List<'a>,
        written: &TypeTree<'a>,
        body: &TermTree<'a>,
    ) -> Answer {
        let bound = self.type_of(place, written)?;
        self.scope.room(1, at)?;
        let before = self.scope.entries.len();
        self.bind(Called::List(list.at), bound);
        let made = self.lists(place, &[vec![list], list.inner()].concat(), body)?;
        self.scope.entries.truncate(before);
        self.function(bound, made, list.at)
    }

    /// The lists' variables, each taken apart in the body of the one before, and a level deeper than it: so the body stands
    /// as many levels deeper than it is written.
    fn lists(&mut self, place: Place, lists: &[&List<'a>], body: &TermTree<'a>) -> Answer {
        let [list, later @ ..] = lists else { return self.term(place, body) };
        self.entered(place, body.level + 1, list.at)?;
        let bound = self.scope.variable(place, Called::List(list.at));
        let (binder, of_type) =
            bound.expect("a list's variable is bound before its list is opened");
        let pair = self.variable(binder, of_type, list.at)?;
        self.scope.room(2 * list.members.len(), list.at)?;
        let place = Place { around: place.around + 1, ..place };
        self.projected(place, &list.members, pair, later, body)
    }

    fn fixed(
        &mut self,
        place: Place,
        at: usize,
        name: &Named<'a>,
        written: &TypeTree<'a>,
        body: &TermTree<'a>,
    ) -> Answer {
        let bound = self.type_of(place, written)?;
        self.scope.room(1, at)?;
        self.bind(Called::Name(name.name), bound);
        let made = self.term(place, body)?;
        self.scope.entries.pop();
        self.node(name.at, vec![0x19, bound as u8], bound, vec![made])
    }

    /// The named term is made first, then room is asked for.
    fn naming(
        &mut self,
        place: Place,
        at: usize,
        name: &Named<'a>,
        named: &TermTree<'a>,
        body: &TermTree<'a>,
    ) -> Answer {
        let named = self.term(place, named)?;
        self.scope.room(1, at)?;
        let before = self.scope.entries.len();
        let made = self.named(place, name, named, body);
        self.scope.entries.truncate(before);
        made
    }

    /// The same with a list, whose k members are asked 2 k entries of room.
    fn apart(
        &mut self,
        place: Place,
        at: usize,
        list: &List<'a>,
        named: &TermTree<'a>,
        body: &TermTree<'a>,
    ) -> Answer {
        let named = self.term(place, named)?;
        self.scope.room(2 * list.members.len(), at)?;
        let before = self.scope.entries.len();
        let made = self.projected(place, &list.members, named, &list.inner(), body);
        self.scope.entries.truncate(before);
        made
    }

    /// 1B in the second edition where the named term is sharable; else a function applied.
    fn named(
        &mut self,
        place: Place,
        name: &Named<'a>,
        named: MadeTerm,
        body: &TermTree<'a>,
    ) -> Answer {
        self.bind(Called::Name(name.name), named.of_type);
        let body = self.term(place, body)?;
        let (at, of_type) = (name.at, body.of_type);
        let sharable = self.table.is_sharable(named.of_type);
        if self.text.second && sharable {
            return self.node(at, vec![0x1B], of_type, vec![named, body]);
        }
        let function = self.function(named.of_type, body, at)?;
        let kind = if sharable { 0x14 } else { 0x16 };
        self.node(at, vec![kind], of_type, vec![function, named])
    }

    fn bind_member(&mut self, member: &Member<'a>, of_type: TypeNumber) {
        let called = match member {
            Member::Name(name) => Called::Name(name.name),
            Member::List(list) => Called::List(list.at),
        };
        self.bind(called, of_type);
    }

    /// "with more members, one projection for each comma: the rest of the pair is taken apart in the body"; the later lists are
    /// taken apart below them all.
    fn projected(
        &mut self,
        place: Place,
        members: &[Member<'a>],
        pair: MadeTerm,
        later: &[&List<'a>],
        body: &TermTree<'a>,
    ) -> Answer {
        let (left, right) = match self.table.get(pair.of_type) {
            Type::Product(left, right) => (left, right),
            _ => (BIT, BIT),
        };
        self.bind_member(&members[0], left);
        let made = if let [_, last] = members {
            self.bind_member(last, right);
            self.lists(place, later, body)?
        } else {
            self.bind(Called::Rest, right);
            let rest = self.variable(0, right, members[1].at())?;
            self.projected(place, &members[1..], rest, later, body)?
        };
        let of_type = made.of_type;
        self.node(members[0].at(), vec![0x18], of_type, vec![pair, made])
    }

    /// "application, to the left"
    fn applied(&mut self, place: Place, atoms: &[TermTree<'a>]) -> Answer {
        let at = atoms[0].at;
        let mut function = self.term(place, &atoms[0])?;
        for argument in &atoms[1..] {
            let argument = self.term(place, argument)?;
            let (kind, of_type) = match self.table.get(function.of_type) {
                Type::Arrow(Sort::Sharable, _, right) => (0x14, right),
                Type::Arrow(Sort::Linear, _, right) => (0x16, right),
                _ if self.table.is_sharable(argument.of_type) => (0x14, BIT),
                _ => (0x16, BIT),
            };
            function = self.node(at, vec![kind], of_type, vec![function, argument])?;
        }
        Ok(function)
    }

    fn term_use(&mut self, place: Place, one: &Use<'a>, level: usize) -> Answer {
        let variable = self.scope.variable(place, Called::Name(one.named.name));
        if let Some((binder, of_type)) = variable.filter(|_| one.is_bare()) {
            return self.variable(binder, of_type, one.named.at);
        }
        let before = self.scope.entries.len();
        let (clause, inside) = self.used(place, one, level, false)?;
        let Body::Term(body) = &self.text.clauses[clause].body else {
            unreachable!("a term's clause")
        };
        let made = self.term(inside, body)?;
        self.scope.entries.truncate(before);
        Ok(made)
    }

    fn variable(&mut self, binder: usize, of_type: TypeNumber, at: usize) -> Answer {
        let kind = if self.table.is_sharable(of_type) { 0x11 } else { 0x12 };
        self.node(at, vec![kind, binder as u8], of_type, vec![])
    }

    fn part(&mut self, part: u8, at: usize) -> Answer {
        let of_type = match PARTS[usize::from(part)].inputs {
            0 => BIT,
            1 => self.table.function(BIT, BIT, at)?,
            _ if self.text.second => {
                let pair = self.table.joined(Joint::Product, (BIT, BIT), at)?;
                self.table.function(pair, BIT, at)?
            }
            _ => {
                let reg = self.table.function(BIT, BIT, at)?;
                self.table.function(BIT, reg, at)?
            }
        };
        self.node(at, vec![0x1A, part, of_type as u8], of_type, vec![])
    }

    /// In a pair's type **1** stands for a side that is not sharable.
    fn side(&self, of_type: TypeNumber) -> TypeNumber {
        match self.table.is_sharable(of_type) {
            true => of_type,
            false => BIT,
        }
    }

    /// "(a, b, c) is (a, (b, c))"
    fn tuple(&mut self, place: Place, row: &[(usize, TermTree<'a>)]) -> Answer {
        let [(_, left), others @ ..] = row else { unreachable!("a row is not empty") };
        let left = self.term(place, left)?;
        let Some(&(comma, _)) = others.first() else { return Ok(left) };
        let right = self.tuple(place, others)?;
        let sides = (self.side(left.of_type), self.side(right.of_type));
        let of_type = self.table.joined(Joint::Product, sides, comma)?;
        self.node(comma, vec![0x17, of_type as u8], of_type, vec![left, right])
    }
}
