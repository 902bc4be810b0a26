//! Document 01, the end of "Sheets with known results": what the listing program prints.

use crate::lean::lean;
use crate::netlist::*;
use crate::translate::netlist;
use std::fmt::Write;

/// Both netlists of a sheet in words, or the refusal; never 1 or 17.
pub fn listing(sheet: &[u8]) -> String {
    match netlist(sheet, false) {
        Ok(full) => {
            let mut text = String::from("full\n");
            list(&full, &mut text);
            text.push_str("lean\n");
            list(&lean(&full), &mut text);
            text.push_str("end\n");
            text
        }
        Err(refusal) => format!("refused {} {}\n", refusal.number, refusal.place),
    }
}

fn list(netlist: &Netlist, text: &mut String) {
    for element in &netlist.elements {
        match element {
            Element::Point { .. } => text.push_str("point"),
            Element::Part { part, .. } => {
                text.push_str("part ");
                text.push_str(part_of(*part).name);
            }
        }
        for input in element.inputs() {
            say(text, input.0);
        }
        say(text, element.output().0);
        text.push('\n');
    }
    for Wire { from, to } in &netlist.wires {
        text.push_str("wire");
        say(text, from.0);
        say(text, to.0);
        text.push('\n');
    }
    for pin in &netlist.pins {
        text.push_str("pin");
        say(text, pin.number());
        text.push('\n');
    }
}

fn say(text: &mut String, number: u16) {
    write!(text, " {number}").expect("a string takes any text");
}
