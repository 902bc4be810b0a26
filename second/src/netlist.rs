//! Document 01, "The full netlist", its last paragraph: elements, wires, pins and their bytes; and
//! document 02, L6: the node that made an element.

use crate::parts::{Part, PARTS};
use crate::sheet::TERMINALS;

/// "Seven times the terminals plus 384 bytes": the room that always does, in either kinds.
pub const ENOUGH: usize = 7 * TERMINALS + 384;

/// Input and output terminals are never taken for each other.
#[derive(Clone, Copy, Debug, PartialEq, Eq, PartialOrd, Ord, Hash)]
pub struct Input(pub u16);

#[derive(Clone, Copy, Debug, PartialEq, Eq, PartialOrd, Ord, Hash)]
pub struct Output(pub u16);

#[derive(Clone, Copy, Debug, PartialEq, Eq, Hash)]
pub enum Terminal {
    Input(Input),
    Output(Output),
}

impl Terminal {
    pub fn number(self) -> u16 {
        match self {
            Terminal::Input(Input(number)) | Terminal::Output(Output(number)) => number,
        }
    }
}

#[derive(Clone, Copy, Debug, PartialEq, Eq)]
pub enum Element {
    /// A point by its input; its output is one more.
    Point { input: Input },
    /// A part by its number and its first terminal.
    Part { part: u8, first: u16 },
}

impl Element {
    pub fn terminals(self) -> usize {
        match self {
            Element::Point { .. } => 2,
            Element::Part { part, .. } => part_of(part).terminals(),
        }
    }

    pub fn first(self) -> u16 {
        match self {
            Element::Point { input: Input(first) } | Element::Part { first, .. } => first,
        }
    }

    pub fn inputs(self) -> impl Iterator<Item = Input> {
        let first = self.first();
        (first..first + self.terminals() as u16 - 1).map(Input)
    }

    pub fn output(self) -> Output {
        Output(self.first() + self.terminals() as u16 - 1)
    }
}

#[derive(Clone, Copy, Debug, PartialEq, Eq)]
pub struct Wire {
    pub from: Output,
    pub to: Input,
}

#[derive(Clone, Debug, Default, PartialEq, Eq)]
pub struct Netlist {
    pub elements: Vec<Element>,
    /// For each element the node that made it.
    pub makers: Vec<usize>,
    pub wires: Vec<Wire>,
    pub pins: Vec<Terminal>,
}

/// The part with this number, in an accepted sheet.
pub fn part_of(number: u8) -> &'static Part {
    &PARTS[usize::from(number)]
}

/// The length of `written` without making it.
pub fn written_length(netlist: &Netlist, plain: bool) -> usize {
    let elements: usize = netlist
        .elements
        .iter()
        .map(|element| match element {
            Element::Point { .. } => 3,
            Element::Part { .. } => 4,
        })
        .sum();
    let nodes = if plain { 0 } else { 2 * netlist.elements.len() };
    elements + nodes + 5 * netlist.wires.len() + 3 * netlist.pins.len()
}

/// Elements, then wires, then pins; two-byte numbers low byte first. Points and parts have the
/// plain kinds 21 and 22, or 25 and 26 and their node last.
pub fn written(netlist: &Netlist, plain: bool) -> Vec<u8> {
    let mut written = Vec::with_capacity(written_length(netlist, plain));
    for (at, element) in netlist.elements.iter().enumerate() {
        match *element {
            Element::Point { input } => {
                written.push(if plain { 0x21 } else { 0x25 });
                written.extend(input.0.to_le_bytes());
            }
            Element::Part { part, first } => {
                written.extend([if plain { 0x22 } else { 0x26 }, part]);
                written.extend(first.to_le_bytes());
            }
        }
        if !plain {
            written.extend((netlist.makers[at] as u16).to_le_bytes());
        }
    }
    for Wire { from, to } in &netlist.wires {
        written.push(0x23);
        written.extend(from.0.to_le_bytes());
        written.extend(to.0.to_le_bytes());
    }
    for pin in &netlist.pins {
        written.push(0x24);
        written.extend(pin.number().to_le_bytes());
    }
    written
}

/// The bytes in plain kinds, and their length.
pub fn bytes(netlist: &Netlist) -> Vec<u8> {
    written(netlist, true)
}

pub fn length(netlist: &Netlist) -> usize {
    written_length(netlist, true)
}
