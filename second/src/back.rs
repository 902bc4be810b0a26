//! Document 02, L11: from a netlist back to a sheet. "functions for the undriven inputs in rising
//! order, one fixed point over all part outputs as pairs nested to the right, projections to name
//! them, then the parts applied to their drivers in rising order"

use crate::foreign::{lent, Foreign};
use crate::lent::leave;
use crate::netlist::*;
use crate::refusal::{need, word, Refusal};
use crate::sheet::TypeNumber;
use crate::write::*;
use std::collections::HashMap;

/// "with 1 to 16 parts, no points and at most 24 undriven inputs"
const PARTS: usize = 16;
const OPEN_INPUTS: usize = 24;

/// The call: the answer's value is the number of bytes written.
pub fn call(net: &[u8], output: &mut [u8], memory: &mut [u16], lean: bool) -> u64 {
    let result = back(net, lean, output.len(), memory.len());
    word(leave(result, output, memory))
}

/// "those of L8; then 25 for a point, place the first one's offset; 26 for a count beyond the limits,
/// place 0; then 17"
pub fn back(net: &[u8], lean: bool, room: usize, memory: usize) -> Result<Bytes, Refusal> {
    let Foreign { netlist, offsets } = lent(net, memory, lean)?;
    for (element, &offset) in netlist.elements.iter().zip(&offsets) {
        need(matches!(element, Element::Part { .. }), 25, offset)?;
    }
    let (parts, open) = (netlist.elements.len(), open_inputs(&netlist).len());
    need((1..=PARTS).contains(&parts) && open <= OPEN_INPUTS, 26, 0)?;
    let sheet = sheet(&netlist);
    need(sheet.len() <= room, 17, sheet.len())?;
    Ok(sheet)
}

/// The inputs that are pins, in rising order.
fn open_inputs(netlist: &Netlist) -> Vec<Input> {
    let mut open: Vec<Input> = netlist
        .pins
        .iter()
        .filter_map(|pin| match pin {
            Terminal::Input(input) => Some(*input),
            Terminal::Output(_) => None,
        })
        .collect();
    open.sort();
    open
}

/// The sheet of a netlist within the limits.
pub fn sheet(netlist: &Netlist) -> Bytes {
    let open = open_inputs(netlist);
    let table = Table::of(netlist.elements.len(), open.len());
    let names = Names::of(netlist, &open);
    let applied: Vec<Bytes> = netlist.elements.iter().map(|part| names.applied(*part)).collect();
    let mut term = table.pairs(&applied);
    for _ in 1..applied.len() {
        // the nearest variable is the fixed point's or what the projection before left over
        term = project(&variable(0), &term);
    }
    term = fix(table.whole(), &term);
    for &arrow in &table.functions {
        term = function(arrow, &term);
    }
    table.types.sheet(&term)
}

/// "Type records are 01, 03 00 00, 03 00 01, then the products and then the arrows still missing,
/// smallest first."
struct Table {
    types: Types,
    /// The types of the last output, of the last two, .. of all.
    products: Vec<TypeNumber>,
    /// The functions' types, the innermost first.
    functions: Vec<TypeNumber>,
}

impl Table {
    fn of(parts: usize, open: usize) -> Table {
        let mut types = Types::new();
        let bit = types.bit();
        types.reg();
        types.gate();
        let mut products = vec![bit];
        for _ in 1..parts {
            let rest = products[products.len() - 1];
            products.push(types.product(bit, rest));
        }
        let mut result = products[products.len() - 1];
        let mut functions = Vec::new();
        for _ in 0..open {
            result = types.to(bit, result);
            functions.push(result);
        }
        Table { types, products, functions }
    }

    /// The type of all outputs.
    fn whole(&self) -> TypeNumber {
        self.products[self.products.len() - 1]
    }

    /// The terms as pairs nested to the right.
    fn pairs(&self, terms: &[Bytes]) -> Bytes {
        match terms {
            [last] => last.clone(),
            [first, rest @ ..] => pair(self.products[rest.len()], first, &self.pairs(rest)),
            [] => unreachable!("there is a part"),
        }
    }
}

/// The variable that stands for each output and for each open input.
struct Names {
    of_output: HashMap<Output, Bytes>,
    of_input: HashMap<Input, Bytes>,
}

impl Names {
    /// Binders from outside: a function for each open input, the fixed point, then for each
    /// projection the output that it names and the rest.
    fn of(netlist: &Netlist, open: &[Input]) -> Names {
        let parts = netlist.elements.len();
        let binders = open.len() + 1 + 2 * (parts - 1);
        let at = |from_outside: usize| variable(binders - 1 - from_outside);
        let mut names = Names { of_output: HashMap::new(), of_input: HashMap::new() };
        for (index, &input) in open.iter().enumerate() {
            names.of_input.insert(input, at(index));
        }
        for (index, part) in netlist.elements.iter().enumerate() {
            // the last output is the rest that the last projection leaves, or the fixed point itself
            let last = index + 1 == parts;
            let name = if last { variable(0) } else { at(open.len() + 1 + 2 * index) };
            names.of_output.insert(part.output(), name);
        }
        for wire in &netlist.wires {
            let name = names.of_output[&wire.from].clone();
            names.of_input.insert(wire.to, name);
        }
        names
    }

    /// A part applied to its drivers.
    fn applied(&self, element: Element) -> Bytes {
        let Element::Part { part, .. } = element else { unreachable!("points are refused") };
        // types 0, 1 and 2 are those of the parts with no, one and two inputs
        let constant = constant(part, element.inputs().count());
        element.inputs().fold(constant, |term, input| apply(&term, &self.of_input[&input]))
    }
}
