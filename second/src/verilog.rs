//! Document 02, L1 (without initial values, L2): the lean netlist as one module of structural
//! Verilog, to the byte. A terminal is the net t and four digits, a pin position the port p and four
//! digits.

use crate::lean::{lean, ring_point};
use crate::lent::leave;
use crate::netlist::*;
use crate::refusal::{need, word, Refusal};
use crate::sheet::MEMORY;
use crate::translate::accepted;

/// The call: the answer's value is the number of bytes written.
pub fn call(sheet: &[u8], output: &mut [u8], memory: &mut [u16]) -> u64 {
    let result = exported(sheet, output.len(), memory.len());
    word(leave(result, output, memory))
}

/// Refusals 1, 2 to 16, "18 for a kept ring point, place the lowest such input; then 17 for too
/// little room".
pub fn exported(sheet: &[u8], room: usize, memory: usize) -> Result<Vec<u8>, Refusal> {
    need(memory >= MEMORY, 1, 0)?;
    let lean = lean(&accepted(sheet)?.full);
    if let Some(input) = ring_point(&lean) {
        return Err(Refusal::new(18, input.0.into()));
    }
    let text = module(&lean).into_bytes();
    need(text.len() <= room, 17, text.len())?;
    Ok(text)
}

/// "a clock port, then one port for each pin position", elements, wires, pins.
pub fn module(lean: &Netlist) -> String {
    let mut text = String::from("module circuit (\n  input clock");
    for (position, pin) in lean.pins.iter().enumerate() {
        text += &port(position, *pin);
    }
    text += "\n);\n";
    for element in &lean.elements {
        text += &declared(*element);
    }
    for Wire { from, to } in &lean.wires {
        text += &format!("assign {} = {};\n", net(to.0), net(from.0));
    }
    for (position, pin) in lean.pins.iter().enumerate() {
        text += &joined(position, *pin);
    }
    text + "endmodule\n"
}

fn net(terminal: u16) -> String {
    format!("t{terminal:04}")
}

/// "inputs for input terminals and outputs for the others"
fn port(position: usize, pin: Terminal) -> String {
    match pin {
        Terminal::Input(_) => format!(",\n  input p{position:04}"),
        Terminal::Output(_) => format!(",\n  output p{position:04}"),
    }
}

fn joined(position: usize, pin: Terminal) -> String {
    match pin {
        Terminal::Input(input) => format!("assign {} = p{position:04};\n", net(input.0)),
        Terminal::Output(output) => format!("assign p{position:04} = {};\n", net(output.0)),
    }
}

/// "gate instances with the output named first, as the standard's primitives have it; a register as
/// a clocked assignment"; "wires and points as continuous assignments"
fn declared(element: Element) -> String {
    let inputs: Vec<String> = element.inputs().map(|input| net(input.0)).collect();
    let output = net(element.output().0);
    let name = match element {
        Element::Point { .. } => "point",
        Element::Part { part, .. } => part_of(part).name,
    };
    match (name, &inputs[..]) {
        ("zero", []) => format!("wire {output};\nassign {output} = 1'b0;\n"),
        ("one", []) => format!("wire {output};\nassign {output} = 1'b1;\n"),
        ("point", [input]) => {
            format!("wire {input}, {output};\nassign {output} = {input};\n")
        }
        ("inv", [input]) => format!("wire {input}, {output};\nnot ({output}, {input});\n"),
        ("reg", [input]) => {
            format!("wire {input};\nreg {output};\nalways @(posedge clock) {output} <= {input};\n")
        }
        (gate, [one, other]) => {
            format!("wire {one}, {other}, {output};\n{gate} ({output}, {one}, {other});\n")
        }
        _ => unreachable!("{name} has other inputs"),
    }
}
