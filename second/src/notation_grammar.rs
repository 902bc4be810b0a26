//! docs/NOTATION.md, "Grammar": words to trees; 32, 34 and 36 in the order of the text.

use crate::notation_tree::*;
use crate::notation_words::{words, Key, Kind, Word};
use crate::refusal::{need, Refusal};

pub const LEVELS: usize = 80;
pub const CLAUSES: usize = 256;

/// "32, 34 and 36 in the order of the text"
pub fn parsed(text: &[u8]) -> Result<Text<'_>, Refusal> {
    let words = words(text)?;
    let mut parser = Parser { words: &words, next: 0 };
    let second = parser.edition()?;
    let (mut clauses, mut tables) = (Vec::new(), Vec::new());
    while parser.word().kind != Kind::End {
        if parser.takes("table") {
            tables.push(Table {
                above: clauses.len(),
                types: parser.row(|parser| parser.type_tree(1))?,
            });
        } else {
            let clause = parser.clause(&clauses)?;
            clauses.push(clause);
        }
    }
    Ok(Text { second, clauses, tables, end: text.len() })
}

struct Parser<'w, 'a> {
    words: &'w [Word<'a>],
    next: usize,
}

impl<'a> Parser<'_, 'a> {
    fn word(&self) -> Word<'a> {
        self.words[self.next]
    }

    fn is(&self, key: Key) -> bool {
        self.word().kind == Kind::Key(key)
    }

    fn takes(&mut self, key: Key) -> bool {
        let there = self.is(key);
        self.next += usize::from(there);
        there
    }

    fn due<T>(&self) -> Result<T, Refusal> {
        Err(Refusal::new(32, self.word().at))
    }

    fn key(&mut self, key: Key) -> Result<(), Refusal> {
        if self.takes(key) {
            Ok(())
        } else {
            self.due()
        }
    }

    fn name(&mut self) -> Result<Named<'a>, Refusal> {
        let Word { at, kind: Kind::Name(name) } = self.word() else { return self.due() };
        self.next += 1;
        Ok(Named { name, at })
    }

    fn number(&mut self) -> Result<usize, Refusal> {
        let Kind::Number(number) = self.word().kind else { return self.due() };
        self.next += 1;
        Ok(number)
    }

    /// One or more, with commas.
    fn row<T>(&mut self, one: impl Fn(&mut Self) -> Result<T, Refusal>) -> Result<Vec<T>, Refusal> {
        let mut row = vec![one(self)?];
        while self.takes(",") {
            row.push(one(self)?);
        }
        Ok(row)
    }

    /// A row in brackets, or none.
    fn group<T>(
        &mut self,
        open: Key,
        close: Key,
        one: impl Fn(&mut Self) -> Result<T, Refusal>,
    ) -> Result<Vec<T>, Refusal> {
        if !self.takes(open) {
            return Ok(Vec::new());
        }
        let row = self.row(one)?;
        self.key(close)?;
        Ok(row)
    }

    fn edition(&mut self) -> Result<bool, Refusal> {
        if !self.takes("edition") {
            return Ok(false);
        }
        match self.word().kind {
            Kind::Number(edition @ 1..=2) => {
                self.next += 1;
                Ok(edition == 2)
            }
            _ => self.due(),
        }
    }

    /// 34 and 36 stand at the name, and are judged when the clause has been read whole.
    fn clause(&mut self, above: &[Clause<'a>]) -> Result<Clause<'a>, Refusal> {
        let of_type = self.takes("type");
        let head = self.head(of_type)?;
        let at = head.named.at;
        self.key("=")?;
        let body = match of_type {
            true => Body::Type(self.type_tree(1)?),
            false => Body::Term(self.term(1)?),
        };
        need(above.len() < CLAUSES, 34, at)?;
        need(!above.iter().any(|earlier| shuts_out(&earlier.head, &head)), 36, at)?;
        Ok(Clause { head, body, bytes: self.word().at - at })
    }

    fn head(&mut self, of_type: bool) -> Result<Head<'a>, Refusal> {
        let named = self.name()?;
        let types = self.group("[", "]", Self::name)?;
        let numbers = self.group("{", "}", Self::count)?;
        Ok(Head { named, of_type, types, numbers })
    }

    fn count(&mut self) -> Result<Count<'a>, Refusal> {
        let at = self.word().at;
        if let Kind::Number(_) = self.word().kind {
            return Ok(Count { name: None, more: self.number()?, at });
        }
        let name = Some(self.name()?);
        let more = if self.takes("+") { self.number()? } else { 0 };
        Ok(Count { name, more, at })
    }

    fn name_with_arguments(&mut self, level: usize) -> Result<Use<'a>, Refusal> {
        let named = self.name()?;
        let types = self.group("[", "]", |parser| parser.type_tree(level + 1))?;
        let numbers = self.group("{", "}", Self::count)?;
        Ok(Use { named, types, numbers })
    }

    fn entered(&self, level: usize) -> Result<usize, Refusal> {
        let at = self.word().at;
        need(level <= LEVELS, 34, at)?;
        Ok(at)
    }

    fn type_tree(&mut self, level: usize) -> Result<TypeTree<'a>, Refusal> {
        let at = self.entered(level)?;
        let left = self.factor(level)?;
        let joint = match self.word().kind {
            Kind::Key("->") => Joint::Sharable,
            Kind::Key("-o") => Joint::Linear,
            _ => return Ok(left),
        };
        let sign = self.word().at;
        self.next += 1;
        let right = self.type_tree(level + 1)?;
        let form = TypeForm::Joined(joint, sign, Box::new(left), Box::new(right));
        Ok(TypeTree { at, level, form })
    }

    fn factor(&mut self, level: usize) -> Result<TypeTree<'a>, Refusal> {
        let at = self.entered(level)?;
        let left = self.single(level)?;
        let sign = self.word().at;
        if !self.takes("*") {
            return Ok(left);
        }
        let right = self.factor(level + 1)?;
        let form = TypeForm::Joined(Joint::Product, sign, Box::new(left), Box::new(right));
        Ok(TypeTree { at, level, form })
    }

    fn single(&mut self, level: usize) -> Result<TypeTree<'a>, Refusal> {
        let at = self.entered(level)?;
        let form = match self.word().kind {
            Kind::Number(1) => {
                self.next += 1;
                let sign = self.word().at;
                match self.takes("^") {
                    true => TypeForm::Row(self.count()?, sign),
                    false => TypeForm::Bit,
                }
            }
            Kind::Name(_) => TypeForm::Use(self.name_with_arguments(level)?),
            Kind::Key("(") => {
                self.next += 1;
                let inside = self.type_tree(level + 1)?;
                self.key(")")?;
                TypeForm::Parenthesis(Box::new(inside))
            }
            _ => return self.due(),
        };
        Ok(TypeTree { at, level, form })
    }

    fn term(&mut self, level: usize) -> Result<TermTree<'a>, Refusal> {
        let at = self.entered(level)?;
        let form = if self.takes("fun") {
            self.function(level)?
        } else if self.takes("fix") {
            let name = self.name()?;
            let (written, body) = self.bound(level)?;
            TermForm::FixedPoint(name, written, body)
        } else if self.takes("let") {
            self.naming(level)?
        } else {
            self.atoms(level)?
        };
        Ok(TermTree { at, level, form })
    }

    fn function(&mut self, level: usize) -> Result<TermForm<'a>, Refusal> {
        if self.is("(") {
            return self.taken(level);
        }
        let mut names = vec![self.name()?];
        while !self.is(":") {
            names.push(self.name()?);
        }
        let (written, body) = self.bound(level)?;
        Ok(TermForm::Function(names, written, body))
    }

    /// A list: the variable has no name, and is taken apart.
    fn taken(&mut self, level: usize) -> Result<TermForm<'a>, Refusal> {
        let list = self.list(level)?;
        let (written, body) = self.bound(level)?;
        Ok(TermForm::Taken(list, written, body))
    }

    /// Two members or more; a list in a list has one level more.
    fn list(&mut self, level: usize) -> Result<List<'a>, Refusal> {
        let at = self.entered(level)?;
        self.key("(")?;
        let mut members = vec![self.member(level)?];
        self.key(",")?;
        members.extend(self.row(|parser| parser.member(level))?);
        self.key(")")?;
        Ok(List { at, members })
    }

    fn member(&mut self, level: usize) -> Result<Member<'a>, Refusal> {
        match self.is("(") {
            true => self.list(level + 1).map(Member::List),
            false => self.name().map(Member::Name),
        }
    }

    /// What stands behind the names of `fun` and `fix`.
    fn bound(&mut self, level: usize) -> Result<(TypeTree<'a>, Box<TermTree<'a>>), Refusal> {
        self.key(":")?;
        let written = self.type_tree(level + 1)?;
        self.key(".")?;
        Ok((written, Box::new(self.term(level + 1)?)))
    }

    fn naming(&mut self, level: usize) -> Result<TermForm<'a>, Refusal> {
        if self.is("(") {
            let list = self.list(level)?;
            let (named, body) = self.named(level)?;
            return Ok(TermForm::Apart(list, named, body));
        }
        let name = self.name()?;
        let (named, body) = self.named(level)?;
        Ok(TermForm::Let(name, named, body))
    }

    /// What stands behind the name or the list of `let`.
    fn named(&mut self, level: usize) -> Result<(Box<TermTree<'a>>, Box<TermTree<'a>>), Refusal> {
        self.key("=")?;
        let named = Box::new(self.term(level + 1)?);
        self.key("in")?;
        Ok((named, Box::new(self.term(level + 1)?)))
    }

    fn atoms(&mut self, level: usize) -> Result<TermForm<'a>, Refusal> {
        let mut atoms = vec![self.atom(level)?];
        while self.atom_begins() {
            atoms.push(self.atom(level)?);
        }
        Ok(TermForm::Atoms(atoms))
    }

    fn atom_begins(&self) -> bool {
        match self.word().kind {
            Kind::Name(_) => !self.head_begins(),
            Kind::Part(_) | Kind::Key("(") => true,
            _ => false,
        }
    }

    /// "behind a name the bracketed groups are skipped, and `=` tells"
    fn head_begins(&self) -> bool {
        let mut open = 0;
        for word in &self.words[self.next + 1..] {
            match word.kind {
                Kind::Key("[" | "{") => open += 1,
                Kind::Key("]" | "}") if open > 0 => open -= 1,
                Kind::End => return false,
                _ if open > 0 => (),
                kind => return kind == Kind::Key("="),
            }
        }
        false
    }

    /// Each term stands behind its sign: a parenthesis, then commas.
    fn tuple(&mut self, level: usize) -> Result<Vec<(usize, TermTree<'a>)>, Refusal> {
        let mut row = Vec::new();
        while row.is_empty() || self.is(",") {
            let sign = self.word().at;
            self.next += 1;
            row.push((sign, self.term(level + 1)?));
        }
        self.key(")")?;
        Ok(row)
    }

    fn atom(&mut self, level: usize) -> Result<TermTree<'a>, Refusal> {
        let at = self.entered(level)?;
        let form = match self.word().kind {
            Kind::Name(_) => TermForm::Use(self.name_with_arguments(level)?),
            Kind::Part(part) => {
                self.next += 1;
                TermForm::Part(part)
            }
            Kind::Key("(") => TermForm::Tuple(self.tuple(level)?),
            _ => return self.due(),
        };
        Ok(TermTree { at, level, form })
    }
}

/// 36: an earlier clause of this name covers it, or has not as many parameters.
fn shuts_out(earlier: &Head, later: &Head) -> bool {
    earlier.of_type == later.of_type
        && earlier.named.name == later.named.name
        && (earlier.types.len() != later.types.len()
            || earlier.numbers.len() != later.numbers.len()
            || earlier.numbers.iter().zip(&later.numbers).all(|(one, other)| covers(one, other)))
}

/// Every number that fits the second parameter fits the first.
fn covers(earlier: &Count, later: &Count) -> bool {
    match earlier.name {
        Some(_) => earlier.more <= later.more,
        None => later.name.is_none() && earlier.more == later.more,
    }
}
