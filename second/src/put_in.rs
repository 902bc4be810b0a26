//! Document 02, L13: "putting a linear argument straight into the body at the one place where its
//! variable stands", the binder numbers adjusted.

use crate::sheet::*;
use crate::write::{rewritten, Bytes};

/// A sheet with one linear application put in.
#[derive(Clone, Debug, PartialEq, Eq)]
pub struct PutIn {
    pub sheet: Bytes,
    /// For each constant of it, in record order, the node that it had before.
    pub constants: Vec<usize>,
}

/// For each linear function applied to an argument, anywhere in an accepted sheet's term and in
/// prefix order of the applications, the sheet with this argument put in. It may pass the limits.
pub fn put_in(sheet: &Sheet) -> Vec<PutIn> {
    rewrites(&sheet.term)
        .iter()
        .map(|term| {
            let mut nodes = Vec::new();
            constants(term, &mut nodes);
            PutIn { sheet: rewritten(sheet, term), constants: nodes }
        })
        .collect()
}

/// The term with one application put in, for each that it has. Nodes keep their old numbers.
fn rewrites(term: &Term) -> Vec<Term> {
    let mut all: Vec<Term> = at_the_top(term).into_iter().collect();
    let subterms = term.subterms();
    for (at, subterm) in subterms.iter().enumerate() {
        for changed in rewrites(subterm) {
            let mut others: Vec<Term> = subterms.iter().map(|&other| other.clone()).collect();
            others[at] = changed;
            all.push(term.over(others));
        }
    }
    all
}

fn at_the_top(term: &Term) -> Option<Term> {
    let Form::Application { sort: Sort::Linear, function, argument } = &term.form else {
        return None;
    };
    match &function.form {
        Form::Function { sort: Sort::Linear, body, .. } => Some(replaced(body, 0, argument)),
        _ => None,
    }
}

/// The body with the argument at its variable, which `inside` binders stand between; the binder
/// itself is gone.
fn replaced(body: &Term, inside: usize, argument: &Term) -> Term {
    match body.form {
        Form::Variable { binder, .. } if binder == inside => raised(argument, 0, inside),
        Form::Variable { sort, binder } if binder > inside => {
            let form = Form::Variable { sort, binder: binder - 1 };
            Term { node: body.node, form }
        }
        _ => below(body, |subterm, binds| replaced(subterm, inside + binds, argument)),
    }
}

/// A term with so much added to the variables that are bound outside of it.
fn raised(term: &Term, inside: usize, by: usize) -> Term {
    match term.form {
        Form::Variable { sort, binder } if binder >= inside => {
            let form = Form::Variable { sort, binder: binder + by };
            Term { node: term.node, form }
        }
        _ => below(term, |subterm, binds| raised(subterm, inside + binds, by)),
    }
}

/// The node over its subterms, each changed.
fn below(term: &Term, change: impl Fn(&Term, usize) -> Term) -> Term {
    let subterms = term.subterms().into_iter().zip(term.binds());
    term.over(subterms.map(|(subterm, binds)| change(subterm, binds)).collect())
}

fn constants(term: &Term, nodes: &mut Vec<usize>) {
    if let Form::Constant { .. } = term.form {
        nodes.push(term.node);
    }
    for subterm in term.subterms() {
        constants(subterm, nodes);
    }
}
