//! "The full netlist" of document 01 once more, to the letter: interfaces are lists of terminals,
//! bits are turned by the arrows around them, wires follow the turned bits. The library's trees
//! give the same netlists.

use second::corpus::{grown, grown_large, named, Kind};
use second::editions;
use second::netlist::*;
use second::parts::PARTS;
use second::random::Random;
use second::sheet::{Form, Sheet, Term, Type};
use second::{check, full, read, terminals};

/// A term's type and its interface.
type Made = (usize, Vec<Terminal>);

struct Lists<'a> {
    sheet: &'a Sheet,
    next: u16,
    netlist: Netlist,
    scope: Vec<Made>,
}

/// For each single bit, left to right: does it stand left of an odd number of arrows?
fn turned(sheet: &Sheet, number: usize) -> Vec<bool> {
    match sheet.types[number] {
        Type::Bit => vec![false],
        Type::Product(left, right) => [turned(sheet, left), turned(sheet, right)].concat(),
        Type::Arrow(_, left, right) => {
            let left: Vec<bool> = turned(sheet, left).into_iter().map(|odd| !odd).collect();
            [left, turned(sheet, right)].concat()
        }
    }
}

fn sides(sheet: &Sheet, number: usize) -> (usize, usize) {
    match sheet.types[number] {
        Type::Product(left, right) | Type::Arrow(_, left, right) => (left, right),
        Type::Bit => panic!("a single bit has no sides"),
    }
}

impl Lists<'_> {
    /// The input and the output interface of a new variable.
    fn points(&mut self, bound: usize, node: usize) -> (Vec<Terminal>, Vec<Terminal>) {
        let (mut inputs, mut outputs) = (Vec::new(), Vec::new());
        for odd in turned(self.sheet, bound) {
            self.netlist.elements.push(Element::Point { input: Input(self.next) });
            self.netlist.makers.push(node);
            let input = Terminal::Input(Input(self.next));
            let output = Terminal::Output(Output(self.next + 1));
            self.next += 2;
            outputs.push(if odd { input } else { output });
            inputs.push(if odd { output } else { input });
        }
        (inputs, outputs)
    }

    fn wire(&mut self, from: Terminal, to: Terminal) {
        let (Terminal::Output(from), Terminal::Input(to)) = (from, to) else {
            panic!("a wire runs from an output to an input")
        };
        self.netlist.wires.push(Wire { from, to });
    }

    fn bound(&mut self, more: Vec<Made>, body: &Term) -> Made {
        let outside = self.scope.len();
        self.scope.extend(more);
        let made = self.make(body);
        self.scope.truncate(outside);
        made
    }

    fn make(&mut self, term: &Term) -> Made {
        match &term.form {
            Form::Variable { binder, .. } => self.scope[self.scope.len() - 1 - binder].clone(),
            Form::Constant { part, written } => {
                let first = self.next;
                let inputs = PARTS[usize::from(*part)].inputs as u16;
                self.next += inputs + 1;
                self.netlist.elements.push(Element::Part { part: *part, first });
                self.netlist.makers.push(term.node);
                let mut interface: Vec<Terminal> =
                    (0..inputs).map(|at| Terminal::Input(Input(first + at))).collect();
                interface.push(Terminal::Output(Output(first + inputs)));
                (*written, interface)
            }
            Form::Function { written, body, .. } => {
                let (left, _) = sides(self.sheet, *written);
                let (inputs, outputs) = self.points(left, term.node);
                let (_, rest) = self.bound(vec![(left, outputs)], body);
                (*written, [inputs, rest].concat())
            }
            Form::FixedPoint { written, body } => {
                let (inputs, outputs) = self.points(*written, term.node);
                let (_, result) = self.bound(vec![(*written, outputs)], body);
                for (&from, &to) in result.iter().zip(&inputs) {
                    self.wire(from, to);
                }
                (*written, result)
            }
            Form::Application { function, argument, .. } => {
                let (arrow, function) = self.make(function);
                let (left, argument) = self.make(argument);
                for (at, odd) in turned(self.sheet, left).into_iter().enumerate() {
                    if odd {
                        self.wire(function[at], argument[at]);
                    } else {
                        self.wire(argument[at], function[at]);
                    }
                }
                (sides(self.sheet, arrow).1, function[argument.len()..].to_vec())
            }
            Form::Pair { written, left, right } => {
                let (_, left) = self.make(left);
                let (_, right) = self.make(right);
                (*written, [left, right].concat())
            }
            Form::Naming { named, body } => {
                let named = self.make(named);
                self.bound(vec![named], body)
            }
            Form::Projection { pair, body } => {
                let (product, both) = self.make(pair);
                let (left, right) = sides(self.sheet, product);
                let (first, second) = both.split_at(self.sheet.sizes[left]);
                let halves = vec![(left, first.to_vec()), (right, second.to_vec())];
                self.bound(halves, body)
            }
        }
    }
}

fn by_lists(sheet: &Sheet) -> Netlist {
    let mut lists = Lists { sheet, next: 0, netlist: Netlist::default(), scope: Vec::new() };
    let (_, pins) = lists.make(&sheet.term);
    lists.netlist.pins = pins;
    lists.netlist
}

fn agrees(sheet: &[u8]) -> bool {
    let Ok(sheet) = read(sheet) else { return false };
    if check(&sheet).is_err() || terminals(&sheet) > 8_192 {
        return false;
    }
    assert!(full(&sheet) == by_lists(&sheet), "{:?}", sheet.term);
    true
}

#[test]
fn trees_and_lists_make_the_same_netlists() {
    let named = named(Kind::Making);
    assert!(named.iter().filter(|case| agrees(&case.sheet)).count() > 40);
    let mut random = Random::new(31);
    let second = (0..4_000).filter(|_| agrees(&editions::grown(&mut random))).count();
    assert!(second > 3_500, "{second} second-edition sheets were accepted");
    let small = (0..8_000).filter(|_| agrees(&grown(&mut random))).count();
    let large = (0..60).filter(|_| agrees(&grown_large(&mut random))).count();
    assert!(small > 7_000 && large > 15, "{small} small and {large} large sheets were accepted");
}
