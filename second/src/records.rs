//! Document 01, "When a record of bits is possible", as document 02, L2 mends it: the definition,
//! tried on all bits there are. Only for small netlists.

use crate::netlist::*;
use std::collections::BTreeSet;

/// A record seen from outside: for each tick the pin positions, then the part terminals.
pub type Outside = Vec<bool>;

/// The bits of all terminals, tick after tick.
struct Record<'a> {
    terminals: usize,
    bits: &'a dyn Fn(usize) -> bool,
}

impl Record<'_> {
    fn at(&self, terminal: u16, tick: usize) -> bool {
        (self.bits)(tick * self.terminals + usize::from(terminal))
    }
}

/// All possible outside records over so many ticks, where terminals run from 0 to `terminals` - 1.
/// Terminals that the netlist doesn't have are held at 0.
pub fn possible(netlist: &Netlist, terminals: usize, ticks: usize) -> BTreeSet<Outside> {
    let mut own: Vec<u16> = Vec::new();
    for element in &netlist.elements {
        own.extend(element.inputs().map(|input| input.0));
        own.push(element.output().0);
    }
    let free = own.len() * ticks;
    assert!(free < 32, "too many bits to try them all");
    let mut place = vec![None; terminals * ticks];
    for tick in 0..ticks {
        for (index, &terminal) in own.iter().enumerate() {
            place[tick * terminals + usize::from(terminal)] = Some(tick * own.len() + index);
        }
    }
    let mut seen = BTreeSet::new();
    for choice in 0u64..1 << free {
        let bits = |index: usize| place[index].is_some_and(|bit| choice >> bit & 1 == 1);
        let record = Record { terminals, bits: &bits };
        if is_possible(netlist, &record, ticks) {
            seen.insert(outside(netlist, &record, ticks));
        }
    }
    seen
}

fn is_possible(netlist: &Netlist, record: &Record, ticks: usize) -> bool {
    (0..ticks).all(|tick| {
        netlist.wires.iter().all(|w| record.at(w.from.0, tick) == record.at(w.to.0, tick))
            && netlist.elements.iter().all(|&element| behaves(element, record, tick))
    })
}

fn behaves(element: Element, record: &Record, tick: usize) -> bool {
    let first = element.first();
    let out = record.at(element.output().0, tick);
    match element {
        Element::Point { .. } => out == record.at(first, tick),
        Element::Part { part, .. } => match part_of(part).name {
            "zero" => !out,
            "one" => out,
            "inv" => out != record.at(first, tick),
            // "at tick 0 a register's output may be either bit"
            "reg" => tick == 0 || out == record.at(first, tick - 1),
            "and" => out == (record.at(first, tick) & record.at(first + 1, tick)),
            "or" => out == (record.at(first, tick) | record.at(first + 1, tick)),
            "xor" => out == (record.at(first, tick) ^ record.at(first + 1, tick)),
            other => unreachable!("no part is named {other}"),
        },
    }
}

fn outside(netlist: &Netlist, record: &Record, ticks: usize) -> Outside {
    let mut seen = Vec::new();
    for tick in 0..ticks {
        for pin in &netlist.pins {
            seen.push(record.at(pin.number(), tick));
        }
        for &element in &netlist.elements {
            if let Element::Part { .. } = element {
                seen.extend(element.inputs().map(|input| record.at(input.0, tick)));
                seen.push(record.at(element.output().0, tick));
            }
        }
    }
    seen
}
