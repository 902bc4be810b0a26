//! Document 02, L12: a profile for the card, three rules on the root's type and the lean netlist.

use crate::lean::ring_point;
use crate::netlist::*;
use crate::refusal::{need, Refusal};
use crate::sheet::*;
use std::collections::HashSet;

/// Refusals 27, 28 and 29, in this order.
pub fn profile(sheet: &Sheet, root: TypeNumber, lean: &Netlist) -> Result<(), Refusal> {
    need(is_chain(sheet, root), 27, 0)?;
    if let Some(input) = ring_point(lean) {
        return Err(Refusal::new(28, input.0.into()));
    }
    match unread_output(lean) {
        Some(output) => Err(Refusal::new(29, output.0.into())),
        None => Ok(()),
    }
}

/// "a chain of zero or more sharable arrows, ending in a sharable type"
fn is_chain(sheet: &Sheet, number: TypeNumber) -> bool {
    match sheet.types[number] {
        Type::Arrow(Sort::Sharable, _, right) => is_chain(sheet, right),
        Type::Arrow(Sort::Linear, ..) => false,
        Type::Bit | Type::Product(..) => true,
    }
}

/// The lowest output of a part that drives no wire and is no pin.
fn unread_output(lean: &Netlist) -> Option<Output> {
    let mut read: HashSet<Output> = lean.wires.iter().map(|wire| wire.from).collect();
    for pin in &lean.pins {
        if let Terminal::Output(output) = *pin {
            read.insert(output);
        }
    }
    let parts = lean.elements.iter().filter(|element| matches!(element, Element::Part { .. }));
    parts.map(|part| part.output()).filter(|output| !read.contains(output)).min()
}
