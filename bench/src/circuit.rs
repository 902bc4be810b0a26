//! A netlist's bytes as a circuit, and what it does tick after tick (document 01, "When a record of bits is
//! possible"; document 02, L2 and L4).

use second::parts::PARTS;

/// Terminal numbers stay below.
const TERMINALS: usize = 8_192;

pub struct Part {
    pub number: usize,
    pub first: usize,
    /// The constant that made it, in netlists that name nodes.
    pub node: Option<usize>,
}

impl Part {
    pub fn inputs(&self) -> std::ops::Range<usize> {
        self.first..self.output()
    }

    pub fn output(&self) -> usize {
        self.first + PARTS[self.number].inputs
    }

    pub fn is_register(&self) -> bool {
        PARTS[self.number].name == "reg"
    }
}

#[derive(Default)]
pub struct Circuit {
    pub parts: Vec<Part>,
    /// Points by their inputs; the output is one more.
    points: Vec<usize>,
    /// For each input the output that drives it.
    drivers: Vec<Option<usize>>,
    /// A terminal, and whether it is an input.
    pub pins: Vec<(usize, bool)>,
}

/// Where a lean netlist's bit comes from: a part by its index, a pin by its position, or a ring of points.
#[derive(Clone, Copy, Debug, PartialEq, Eq)]
pub enum Source {
    Part(usize),
    Pin(usize),
    Ring,
}

impl Circuit {
    /// Of a netlist that the translator wrote, in either kinds.
    pub fn of(net: &[u8]) -> Circuit {
        let mut circuit = Circuit { drivers: vec![None; TERMINALS], ..Circuit::default() };
        let mut at = 0;
        let number = |at: usize| usize::from(u16::from_le_bytes([net[at], net[at + 1]]));
        while at < net.len() {
            at += match net[at] {
                kind @ (0x21 | 0x25) => {
                    circuit.points.push(number(at + 1));
                    if kind == 0x21 {
                        3
                    } else {
                        5
                    }
                }
                kind @ (0x22 | 0x26) => {
                    let node = (kind == 0x26).then(|| number(at + 4));
                    let part = usize::from(net[at + 1]);
                    circuit.parts.push(Part { number: part, first: number(at + 2), node });
                    if kind == 0x22 {
                        4
                    } else {
                        6
                    }
                }
                0x23 => {
                    circuit.drivers[number(at + 3)] = Some(number(at + 1));
                    5
                }
                kind => {
                    assert_eq!(kind, 0x24, "no record of a netlist");
                    circuit.pins.push((number(at + 1), circuit.is_input(number(at + 1))));
                    3
                }
            };
        }
        circuit
    }

    fn is_input(&self, terminal: usize) -> bool {
        self.points.contains(&terminal)
            || self.parts.iter().any(|part| part.inputs().contains(&terminal))
    }

    /// How many pins take a bit, and how many registers a start.
    pub fn asks(&self) -> (usize, usize) {
        let inputs = self.pins.iter().filter(|(_, is_input)| *is_input);
        (inputs.count(), self.parts.iter().filter(|part| part.is_register()).count())
    }

    /// The bits of all terminals, tick after tick, with these inputs in pin order and these starts by
    /// rising terminal; None where a ring passes through no register.
    pub fn run(&self, ticks: usize, inputs: &[u8], starts: &[u8]) -> Option<Vec<Vec<u8>>> {
        let order = self.order()?;
        let registers: Vec<&Part> = self.parts.iter().filter(|part| part.is_register()).collect();
        let mut state = starts.to_vec();
        let mut given = inputs.iter();
        let mut record = Vec::new();
        for _ in 0..ticks {
            let mut bits = vec![0; TERMINALS];
            for (terminal, _) in self.pins.iter().filter(|(_, is_input)| *is_input) {
                bits[*terminal] = *given.next().expect("a bit for each input pin");
            }
            for (register, &bit) in registers.iter().zip(&state) {
                bits[register.output()] = bit;
            }
            for step in &order {
                self.settle(step, &mut bits);
            }
            for (register, bit) in registers.iter().zip(&mut state) {
                self.feed(register.first, &mut bits);
                *bit = bits[register.first];
            }
            record.push(bits);
        }
        Some(record)
    }

    fn feed(&self, input: usize, bits: &mut [u8]) {
        if let Some(driver) = self.drivers[input] {
            bits[input] = bits[driver];
        }
    }

    fn settle(&self, step: &Step, bits: &mut [u8]) {
        match *step {
            Step::Point(input) => {
                self.feed(input, bits);
                bits[input + 1] = bits[input];
            }
            Step::Gate(at) => {
                let part = &self.parts[at];
                part.inputs().for_each(|input| self.feed(input, bits));
                let (one, other) = (bits[part.first], bits[part.first + 1]);
                bits[part.output()] = match PARTS[part.number].name {
                    "zero" => 0,
                    "one" => 1,
                    "inv" => 1 - one,
                    "and" => one & other,
                    "or" => one | other,
                    _ => one ^ other,
                };
            }
        }
    }

    /// Points and gates, each behind what drives it.
    fn order(&self) -> Option<Vec<Step>> {
        let mut known = vec![false; TERMINALS];
        for register in self.parts.iter().filter(|part| part.is_register()) {
            known[register.output()] = true;
        }
        let points = self.points.iter().map(|&input| Step::Point(input));
        let gates = (0..self.parts.len()).filter(|&at| !self.parts[at].is_register());
        let mut left: Vec<Step> = points.chain(gates.map(Step::Gate)).collect();
        let mut order = Vec::new();
        while !left.is_empty() {
            let before = left.len();
            left.retain(|&step| {
                let (inputs, output) = match step {
                    Step::Point(input) => (input..input + 1, input + 1),
                    Step::Gate(at) => (self.parts[at].inputs(), self.parts[at].output()),
                };
                let mut drivers = inputs.filter_map(|input| self.drivers[input]);
                let ready = drivers.all(|driver| known[driver]);
                if ready {
                    known[output] = true;
                    order.push(step);
                }
                !ready
            });
            if left.len() == before {
                return None;
            }
        }
        Some(order)
    }

    /// Of a lean netlist: the sources of all part inputs, part after part, and of all pins.
    pub fn sources(&self) -> (Vec<Vec<Source>>, Vec<Source>) {
        let inputs = |part: &Part| part.inputs().map(|input| self.source(input)).collect();
        let pin = |&(terminal, is_input): &(usize, bool)| match is_input {
            true => self.source(terminal),
            false => self.behind(terminal),
        };
        (self.parts.iter().map(inputs).collect(), self.pins.iter().map(pin).collect())
    }

    fn source(&self, input: usize) -> Source {
        match self.drivers[input] {
            Some(driver) => self.behind(driver),
            None => {
                let position = self.pins.iter().position(|&pin| pin == (input, true));
                Source::Pin(position.expect("an input without a wire is a pin"))
            }
        }
    }

    /// An output is a part's, or a kept point's, whose input is a pin or its own output's.
    fn behind(&self, output: usize) -> Source {
        match self.parts.iter().position(|part| part.output() == output) {
            Some(at) => Source::Part(at),
            None if self.drivers[output - 1] == Some(output) => Source::Ring,
            None => self.source(output - 1),
        }
    }
}

#[derive(Clone, Copy)]
enum Step {
    Point(usize),
    Gate(usize),
}
