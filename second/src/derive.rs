//! Document 01, "Typing", after Figure 2 of document 000, and document 02, L7: the relation with its
//! split of the linear context, decided without the walk. For each subterm we find its type, as a
//! tree of its own, and the linear variables that its linear context must hold; a rule with two
//! premises asks that the two contexts have nothing in common.

use crate::sheet::*;
use std::collections::BTreeSet;
use std::rc::Rc;

/// Is there a derivation with empty contexts at the root?
pub fn derivable(sheet: &Sheet) -> bool {
    let mut shapes: Vec<Rc<Shape>> = Vec::new();
    for record in &sheet.types {
        let shape = match *record {
            Type::Bit => Shape::One,
            Type::Product(l, r) => Shape::Times(shapes[l].clone(), shapes[r].clone()),
            Type::Arrow(Sort::Sharable, l, r) => Shape::To(shapes[l].clone(), shapes[r].clone()),
            Type::Arrow(Sort::Linear, l, r) => Shape::Lolli(shapes[l].clone(), shapes[r].clone()),
        };
        shapes.push(Rc::new(shape));
    }
    let rules = Rules { edition: sheet.edition, shapes };
    match rules.judge(&sheet.term, &mut Vec::new()) {
        Some((_, linear)) => linear.is_empty(),
        None => false,
    }
}

#[derive(Debug, PartialEq, Eq)]
enum Shape {
    One,
    Times(Rc<Shape>, Rc<Shape>),
    To(Rc<Shape>, Rc<Shape>),
    Lolli(Rc<Shape>, Rc<Shape>),
}

#[derive(Clone)]
enum Assumed {
    Gamma(Rc<Shape>),
    Delta(Rc<Shape>),
}

/// A linear variable is named by how many binders stand around its own.
type Linear = BTreeSet<usize>;

struct Rules {
    edition: Edition,
    shapes: Vec<Rc<Shape>>,
}

impl Rules {
    fn judge(&self, term: &Term, context: &mut Vec<Assumed>) -> Option<(Rc<Shape>, Linear)> {
        match &term.form {
            Form::Variable { sort, binder } => {
                let name = context.len().checked_sub(binder + 1)?;
                match (sort, &context[name]) {
                    (Sort::Sharable, Assumed::Gamma(shape)) => Some((shape.clone(), Linear::new())),
                    (Sort::Linear, Assumed::Delta(shape)) => {
                        Some((shape.clone(), Linear::from([name])))
                    }
                    _ => None,
                }
            }
            Form::Constant { part, written } => {
                let shape = self.shapes[*written].clone();
                (*shape == constant(*part, self.edition)?).then_some((shape, Linear::new()))
            }
            Form::Function { sort: Sort::Sharable, written, body } => {
                let shape = self.shapes[*written].clone();
                let Shape::To(theta, tau) = &*shape else { return None };
                let (found, linear) =
                    self.under(vec![Assumed::Gamma(theta.clone())], body, context)?;
                (found == *tau).then_some((shape, linear))
            }
            Form::Function { sort: Sort::Linear, written, body } => {
                let shape = self.shapes[*written].clone();
                let Shape::Lolli(kappa, tau) = &*shape else { return None };
                let name = context.len();
                let (found, mut linear) =
                    self.under(vec![Assumed::Delta(kappa.clone())], body, context)?;
                (linear.remove(&name) && found == *tau).then_some((shape, linear))
            }
            Form::Application { sort, function, argument } => {
                let (function, first) = self.judge(function, context)?;
                let (argument, second) = self.judge(argument, context)?;
                let linear = joined(first, second)?;
                match (sort, &*function) {
                    (Sort::Sharable, Shape::To(left, tau))
                    | (Sort::Linear, Shape::Lolli(left, tau)) => {
                        (*left == argument).then_some((tau.clone(), linear))
                    }
                    _ => None,
                }
            }
            Form::Pair { written, left, right } => {
                let (left, first) = self.judge(left, context)?;
                let (right, second) = self.judge(right, context)?;
                let linear = joined(first, second)?;
                let shape = self.shapes[*written].clone();
                (*shape == Shape::Times(left, right)).then_some((shape, linear))
            }
            Form::Projection { pair, body } => {
                let (pair, first) = self.judge(pair, context)?;
                let Shape::Times(left, right) = &*pair else { return None };
                let halves = vec![Assumed::Gamma(left.clone()), Assumed::Gamma(right.clone())];
                let (found, second) = self.under(halves, body, context)?;
                Some((found, joined(first, second)?))
            }
            // the rule xE' of document 000, section 5.2
            Form::Naming { named, body } => {
                let (theta, first) = self.judge(named, context)?;
                if !is_sharable(&theta) {
                    return None;
                }
                let (found, second) = self.under(vec![Assumed::Gamma(theta)], body, context)?;
                Some((found, joined(first, second)?))
            }
            Form::FixedPoint { written, body } => {
                let shape = self.shapes[*written].clone();
                if !is_sharable(&shape) {
                    return None;
                }
                let (found, linear) =
                    self.under(vec![Assumed::Gamma(shape.clone())], body, context)?;
                (found == shape).then_some((shape, linear))
            }
        }
    }

    /// Judge a body under more assumptions, the nearest last.
    fn under(
        &self,
        more: Vec<Assumed>,
        body: &Term,
        context: &mut Vec<Assumed>,
    ) -> Option<(Rc<Shape>, Linear)> {
        let outside = context.len();
        context.extend(more);
        let judged = self.judge(body, context);
        context.truncate(outside);
        judged
    }
}

/// The two parts of a split have no variable in common.
fn joined(mut first: Linear, second: Linear) -> Option<Linear> {
    if first.is_disjoint(&second) {
        first.extend(second);
        Some(first)
    } else {
        None
    }
}

fn is_sharable(shape: &Shape) -> bool {
    matches!(shape, Shape::One | Shape::Times(..))
}

fn constant(part: u8, edition: Edition) -> Option<Shape> {
    let one = || Rc::new(Shape::One);
    let reg = || Shape::To(one(), one());
    match part {
        0 | 6 => Some(Shape::One),
        1 | 5 => Some(reg()),
        2..=4 => Some(match edition {
            Edition::First => Shape::To(one(), Rc::new(reg())),
            Edition::Second => Shape::To(Rc::new(Shape::Times(one(), one())), one()),
        }),
        _ => None,
    }
}
