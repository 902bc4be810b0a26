//! Document 02, L4: a recorded trace run through the lean netlist.

use crate::lean::lean;
use crate::lent::leave;
use crate::netlist::*;
use crate::refusal::{need, word, Refusal};
use crate::sheet::{MEMORY, TERMINALS};
use crate::translate::accepted;

/// The bits that a run is lent, one byte a bit.
#[derive(Clone, Copy, Debug)]
pub struct Trace<'a> {
    pub ticks: u16,
    /// The input pins' bits, in pin order, tick after tick.
    pub inputs: &'a [u8],
    /// A start bit for each register by rising terminal.
    pub starts: &'a [u8],
}

/// The call: the answer's value is the number of bytes written.
pub fn call(
    sheet: &[u8],
    inputs: &[u8],
    starts: &[u8],
    output: &mut [u8],
    memory: &mut [u16],
    ticks: u16,
) -> u64 {
    let trace = Trace { ticks, inputs, starts };
    let result = ran(sheet, trace, output.len(), memory.len());
    word(leave(result, output, memory))
}

/// Refusals 1, 2 to 16, 19, 20 and 17, in this order.
pub fn ran(sheet: &[u8], trace: Trace, room: usize, memory: usize) -> Result<Vec<u8>, Refusal> {
    let circuit = runnable(sheet, memory)?;
    need(circuit.fits(trace), 20, 0)?;
    let needed = usize::from(trace.ticks) * circuit.output_pins().count();
    need(needed <= room, 17, needed)?;
    Ok(circuit.run(trace).shown)
}

/// Refusals 1, 2 to 16 and 19, in this order.
pub fn runnable(sheet: &[u8], memory: usize) -> Result<Circuit, Refusal> {
    need(memory >= MEMORY, 1, 0)?;
    let circuit = Circuit::of(lean(&accepted(sheet)?.full));
    match circuit.lowest_on_a_ring() {
        Some(input) => Err(Refusal::new(19, input.0.into())),
        None => Ok(circuit),
    }
}

/// What a run shows, and what it leaves in the registers.
pub struct Went {
    /// The output pins' bits, in pin order, tick after tick.
    pub shown: Vec<u8>,
    /// The bit that each register would show at the next tick, by rising terminal.
    pub held: Vec<u8>,
}

/// The lean netlist, where every input knows its driver and every output its element.
pub struct Circuit {
    lean: Netlist,
    drivers: Vec<Option<Output>>,
    elements: Vec<Option<Element>>,
}

impl Circuit {
    pub fn of(lean: Netlist) -> Circuit {
        let mut drivers = vec![None; TERMINALS];
        for wire in &lean.wires {
            drivers[usize::from(wire.to.0)] = Some(wire.from);
        }
        let mut elements = vec![None; TERMINALS];
        for element in &lean.elements {
            elements[usize::from(element.output().0)] = Some(*element);
        }
        Circuit { lean, drivers, elements }
    }

    /// How many input pins and registers there are, and output pins.
    pub fn counts(&self) -> (usize, usize, usize) {
        (self.input_pins().count(), self.registers().count(), self.output_pins().count())
    }

    pub(crate) fn input_pins(&self) -> impl Iterator<Item = Input> + '_ {
        self.lean.pins.iter().filter_map(|pin| match pin {
            Terminal::Input(input) => Some(*input),
            Terminal::Output(_) => None,
        })
    }

    pub(crate) fn output_pins(&self) -> impl Iterator<Item = Output> + '_ {
        self.lean.pins.iter().filter_map(|pin| match pin {
            Terminal::Input(_) => None,
            Terminal::Output(output) => Some(*output),
        })
    }

    /// Elements stand by rising terminal.
    pub(crate) fn registers(&self) -> impl Iterator<Item = Element> + '_ {
        self.lean.elements.iter().copied().filter(|element| is_register(*element))
    }

    fn driver(&self, input: Input) -> Option<Output> {
        self.drivers[usize::from(input.0)]
    }

    fn element(&self, output: Output) -> Element {
        self.elements[usize::from(output.0)].expect("a driver is an element's output")
    }

    /// "19 for such a ring, place the lowest input terminal on any": from which one comes back to
    /// its own element, going from driver to driver, past no register.
    fn lowest_on_a_ring(&self) -> Option<Input> {
        let mut inputs = self.lean.elements.iter().flat_map(|element| {
            let own = *element;
            own.inputs().map(move |input| (own, input))
        });
        inputs.find(|&(own, input)| self.comes_back(own, input)).map(|(_, input)| input)
    }

    fn comes_back(&self, own: Element, input: Input) -> bool {
        let mut seen = vec![false; TERMINALS];
        let mut due = vec![input];
        while let Some(driver) = due.pop().map(|input| self.driver(input)) {
            let Some(driver) = driver else { continue };
            let element = self.element(driver);
            if is_register(element) || seen[usize::from(driver.0)] {
                continue;
            }
            if element == own {
                return true;
            }
            seen[usize::from(driver.0)] = true;
            due.extend(element.inputs());
        }
        false
    }

    /// "20 for input or start bits not of the exact number, or a byte above 1"
    fn fits(&self, trace: Trace) -> bool {
        let (inputs, registers, _) = self.counts();
        let bits = |bytes: &[u8]| bytes.iter().all(|&byte| byte <= 1);
        trace.inputs.len() == usize::from(trace.ticks) * inputs
            && trace.starts.len() == registers
            && bits(trace.inputs)
            && bits(trace.starts)
    }

    /// The only possible record, as far as pins and registers show it.
    pub fn run(&self, trace: Trace) -> Went {
        let order = self.order();
        let mut bits = vec![0u8; TERMINALS];
        for (register, &start) in self.registers().zip(trace.starts) {
            bits[usize::from(register.output().0)] = start;
        }
        let mut shown = Vec::new();
        let width = self.input_pins().count();
        for tick in 0..usize::from(trace.ticks) {
            for (input, &bit) in self.input_pins().zip(&trace.inputs[tick * width..]) {
                bits[usize::from(input.0)] = bit;
            }
            for &element in &order {
                self.settle(element, &mut bits);
            }
            shown.extend(self.output_pins().map(|output| bits[usize::from(output.0)]));
            self.clock(&mut bits);
        }
        let held = self.registers().map(|register| bits[usize::from(register.output().0)]);
        Went { shown, held: held.collect() }
    }

    /// The elements but for registers, each behind those that drive it.
    pub(crate) fn order(&self) -> Vec<Element> {
        let mut order = Vec::new();
        let mut placed = vec![false; TERMINALS];
        for &element in &self.lean.elements {
            self.place(element, &mut placed, &mut order);
        }
        order
    }

    fn place(&self, element: Element, placed: &mut [bool], order: &mut Vec<Element>) {
        let output = usize::from(element.output().0);
        if placed[output] || is_register(element) {
            return;
        }
        placed[output] = true;
        for driver in element.inputs().filter_map(|input| self.driver(input)) {
            self.place(self.element(driver), placed, order);
        }
        order.push(element);
    }

    /// "both ends of each wire are equal, both ends of each point are equal, zero is 0, one is 1, the
    /// gates have their truth tables"
    pub(crate) fn settle(&self, element: Element, bits: &mut [u8]) {
        self.feed(element, bits);
        let first = usize::from(element.first());
        let output = usize::from(element.output().0);
        bits[output] = match element {
            Element::Point { .. } => bits[first],
            Element::Part { part, .. } => match part_of(part).name {
                "zero" => 0,
                "one" => 1,
                "inv" => 1 - bits[first],
                "and" => bits[first] & bits[first + 1],
                "or" => bits[first] | bits[first + 1],
                "xor" => bits[first] ^ bits[first + 1],
                other => unreachable!("{other} is not settled"),
            },
        };
    }

    /// Wires to an element's inputs.
    fn feed(&self, element: Element, bits: &mut [u8]) {
        for input in element.inputs() {
            if let Some(driver) = self.driver(input) {
                bits[usize::from(input.0)] = bits[usize::from(driver.0)];
            }
        }
    }

    /// "a reg's output at a tick is its input at the tick before": all inputs first, as a register
    /// may drive another.
    pub(crate) fn clock(&self, bits: &mut [u8]) {
        for register in self.registers() {
            self.feed(register, bits);
        }
        for register in self.registers() {
            bits[usize::from(register.output().0)] = bits[usize::from(register.first())];
        }
    }
}

fn is_register(element: Element) -> bool {
    match element {
        Element::Point { .. } => false,
        Element::Part { part, .. } => part_of(part).name == "reg",
    }
}
