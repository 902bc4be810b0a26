//! Document 01, "The full netlist", after Figures 3 to 5 of document 000, and document 02, L7: a name
//! makes no points, and gates of the second edition take a pair. Interfaces are the paper's trees:
//! O ::= o | O x O | I -> O, and I the reverse. A terminal's own sort tells whether its bit is
//! turned.

use crate::netlist::*;
use crate::sheet::*;
use std::rc::Rc;

/// How many terminals the full netlist of an accepted sheet has.
pub fn terminals(sheet: &Sheet) -> usize {
    count(sheet, &sheet.term)
}

fn count(sheet: &Sheet, term: &Term) -> usize {
    match &term.form {
        Form::Variable { .. } => 0,
        Form::Constant { part, .. } => part_of(*part).terminals(),
        Form::Function { written, body, .. } => {
            2 * sheet.sizes[left_side(sheet, *written)] + count(sheet, body)
        }
        Form::FixedPoint { written, body } => 2 * sheet.sizes[*written] + count(sheet, body),
        Form::Application { function, argument, .. } => {
            count(sheet, function) + count(sheet, argument)
        }
        Form::Pair { left, right, .. } => count(sheet, left) + count(sheet, right),
        Form::Projection { pair: first, body } | Form::Naming { named: first, body } => {
            count(sheet, first) + count(sheet, body)
        }
    }
}

fn left_side(sheet: &Sheet, arrow: TypeNumber) -> TypeNumber {
    match sheet.types[arrow] {
        Type::Arrow(_, left, _) => left,
        _ => unreachable!("a function's written type is an arrow"),
    }
}

/// The full netlist of a sheet that `check` accepts and that has at most 8,192 terminals.
pub fn full(sheet: &Sheet) -> Netlist {
    let mut maker = Maker { sheet, next: 0, made: Netlist::default(), scope: Vec::new() };
    let interface = maker.term(&sheet.term);
    let mut made = maker.made;
    interface.list(&mut made.pins);
    made
}

/// An output or an input interface.
#[derive(Clone, Debug)]
enum Interface {
    Terminal(Terminal),
    Product(Rc<Interface>, Rc<Interface>),
    Arrow(Rc<Interface>, Rc<Interface>),
}

impl Interface {
    /// The terminals, left to right.
    fn list(&self, terminals: &mut Vec<Terminal>) {
        match self {
            Interface::Terminal(terminal) => terminals.push(*terminal),
            Interface::Product(left, right) | Interface::Arrow(left, right) => {
                left.list(terminals);
                right.list(terminals);
            }
        }
    }
}

struct Maker<'a> {
    sheet: &'a Sheet,
    next: u16,
    made: Netlist,
    /// The output interfaces of the variables in scope, the nearest last.
    scope: Vec<Rc<Interface>>,
}

impl Maker<'_> {
    /// Make the term's elements and wires, and give its output interface.
    fn term(&mut self, term: &Term) -> Rc<Interface> {
        match &term.form {
            Form::Variable { binder, .. } => self.scope[self.scope.len() - 1 - binder].clone(),
            Form::Constant { part, .. } => self.part(*part, term.node),
            Form::Function { written, body, .. } => {
                let (input, output) = self.points(left_side(self.sheet, *written), term.node);
                let result = self.under(&[output], body);
                Rc::new(Interface::Arrow(input, result))
            }
            Form::FixedPoint { written, body } => {
                let (input, output) = self.points(*written, term.node);
                let result = self.under(&[output], body);
                self.connect(&result, &input);
                result
            }
            Form::Application { function, argument, .. } => {
                let function = self.term(function);
                let argument = self.term(argument);
                let Interface::Arrow(input, rest) = &*function else {
                    unreachable!("a function has an arrow's interface")
                };
                self.connect(&argument, input);
                rest.clone()
            }
            Form::Pair { left, right, .. } => {
                let left = self.term(left);
                let right = self.term(right);
                Rc::new(Interface::Product(left, right))
            }
            Form::Projection { pair, body } => {
                let pair = self.term(pair);
                let Interface::Product(left, right) = &*pair else {
                    unreachable!("a projection's first subterm has a product's interface")
                };
                self.under(&[left.clone(), right.clone()], body)
            }
            Form::Naming { named, body } => {
                let named = self.term(named);
                self.under(&[named], body)
            }
        }
    }

    /// The body with more variables in scope, the nearest last.
    fn under(&mut self, more: &[Rc<Interface>], body: &Term) -> Rc<Interface> {
        let outside = self.scope.len();
        self.scope.extend_from_slice(more);
        let result = self.term(body);
        self.scope.truncate(outside);
        result
    }

    /// Figure 4: a point for each single bit, shared out to an input and an output interface.
    fn points(&mut self, bound: TypeNumber, node: usize) -> (Rc<Interface>, Rc<Interface>) {
        match self.sheet.types[bound] {
            Type::Bit => {
                let (input, output) = (Input(self.next), Output(self.next + 1));
                self.next += 2;
                self.made.elements.push(Element::Point { input });
                self.made.makers.push(node);
                (
                    Rc::new(Interface::Terminal(Terminal::Input(input))),
                    Rc::new(Interface::Terminal(Terminal::Output(output))),
                )
            }
            Type::Product(left, right) => {
                let (left_in, left_out) = self.points(left, node);
                let (right_in, right_out) = self.points(right, node);
                (
                    Rc::new(Interface::Product(left_in, right_in)),
                    Rc::new(Interface::Product(left_out, right_out)),
                )
            }
            Type::Arrow(_, left, right) => {
                let (left_in, left_out) = self.points(left, node);
                let (right_in, right_out) = self.points(right, node);
                (
                    Rc::new(Interface::Arrow(left_out, right_in)),
                    Rc::new(Interface::Arrow(left_in, right_out)),
                )
            }
        }
    }

    fn part(&mut self, part: u8, node: usize) -> Rc<Interface> {
        let element = Element::Part { part, first: self.next };
        self.next += element.terminals() as u16;
        self.made.elements.push(element);
        self.made.makers.push(node);
        let output = Rc::new(Interface::Terminal(Terminal::Output(element.output())));
        let inputs: Vec<Rc<Interface>> = element
            .inputs()
            .map(|input| Rc::new(Interface::Terminal(Terminal::Input(input))))
            .collect();
        match (self.sheet.edition, &inputs[..]) {
            (Edition::Second, [one, other]) => {
                let pair = Rc::new(Interface::Product(one.clone(), other.clone()));
                Rc::new(Interface::Arrow(pair, output))
            }
            _ => inputs
                .into_iter()
                .rev()
                .fold(output, |rest, input| Rc::new(Interface::Arrow(input, rest))),
        }
    }

    /// One wire for each single bit, left to right: from the output interface to the input
    /// interface at an unturned bit, the other way at a turned one.
    fn connect(&mut self, output: &Interface, input: &Interface) {
        match (output, input) {
            (Interface::Terminal(one), Interface::Terminal(other)) => {
                let wire = match (*one, *other) {
                    (Terminal::Output(from), Terminal::Input(to))
                    | (Terminal::Input(to), Terminal::Output(from)) => Wire { from, to },
                    _ => unreachable!("a wire has an output end and an input end"),
                };
                self.made.wires.push(wire);
            }
            (Interface::Product(left, right), Interface::Product(other_left, other_right))
            | (Interface::Arrow(left, right), Interface::Arrow(other_left, other_right)) => {
                self.connect(left, other_left);
                self.connect(right, other_right);
            }
            _ => unreachable!("connected interfaces have the same type"),
        }
    }
}
