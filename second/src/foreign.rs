//! Document 02, L8: netlists from another program, read record by record. Refusals 21 and 22 in byte
//! order, then 23.

use crate::lent::leave;
use crate::netlist::*;
use crate::parts::PARTS;
use crate::refusal::{need, word, Refusal};
use crate::sheet::{MEMORY, TERMINALS};

/// A netlist that is accepted, and where its elements stand.
#[derive(Clone, Debug, PartialEq, Eq)]
pub struct Foreign {
    pub netlist: Netlist,
    /// For each element the offset of its record.
    pub offsets: Vec<usize>,
}

/// The call: the answer's value is 0.
pub fn call(net: &[u8], memory: &mut [u16], lean: bool) -> u64 {
    let result = lent(net, memory.len(), lean).map(|_| Vec::<u8>::new());
    word(leave(result, &mut [], memory))
}

/// Refusal 1, then the netlist's own.
pub fn lent(net: &[u8], memory: usize, lean: bool) -> Result<Foreign, Refusal> {
    need(memory >= MEMORY, 1, 0)?;
    accept(net, lean)
}

/// Refusals 21 and 22, then 23.
pub fn accept(net: &[u8], lean: bool) -> Result<Foreign, Refusal> {
    let mut checker = Checker::new(lean);
    for record in Records::over(net) {
        let (offset, record) = record?;
        checker.take(offset, record)?;
    }
    checker.drivers()?;
    Ok(checker.found)
}

#[derive(Clone, Copy)]
enum Record {
    Element(Element),
    Wire { from: u16, to: u16 },
    Pin(u16),
}

impl Record {
    /// "in the order elements, wires, pins"
    fn rank(self) -> usize {
        match self {
            Record::Element(_) => 0,
            Record::Wire { .. } => 1,
            Record::Pin(_) => 2,
        }
    }
}

/// "A reader over the lent bytes hands out one record after the other": with its offset, or 21
/// where it is cut short, of unknown kind, or an unknown part's.
struct Records<'a> {
    net: &'a [u8],
    at: usize,
}

impl<'a> Records<'a> {
    fn over(net: &'a [u8]) -> Records<'a> {
        Records { net, at: 0 }
    }

    fn body<const LENGTH: usize>(&mut self) -> Option<[u8; LENGTH]> {
        let start = self.at + 1;
        let body = self.net.get(start..start + LENGTH)?;
        self.at = start + LENGTH;
        body.try_into().ok()
    }

    fn record(&mut self, kind: u8) -> Option<Record> {
        let number = |low, high| u16::from_le_bytes([low, high]);
        match kind {
            0x21 => {
                let [low, high] = self.body()?;
                Some(Record::Element(Element::Point { input: Input(number(low, high)) }))
            }
            0x22 => {
                let [part, low, high] = self.body()?;
                PARTS.get(usize::from(part))?;
                Some(Record::Element(Element::Part { part, first: number(low, high) }))
            }
            0x23 => {
                let [low, high, to_low, to_high] = self.body()?;
                Some(Record::Wire { from: number(low, high), to: number(to_low, to_high) })
            }
            0x24 => {
                let [low, high] = self.body()?;
                Some(Record::Pin(number(low, high)))
            }
            _ => None,
        }
    }
}

impl Iterator for Records<'_> {
    type Item = Result<(usize, Record), Refusal>;

    fn next(&mut self) -> Option<Self::Item> {
        let offset = self.at;
        let &kind = self.net.get(offset)?;
        let record = self.record(kind).ok_or(Refusal::new(21, offset));
        Some(record.map(|record| (offset, record)))
    }
}

/// What an element has at a terminal's number.
#[derive(Clone, Copy, PartialEq, Eq)]
enum Side {
    Nothing,
    Input,
    Output,
}

struct Checker {
    lean: bool,
    rank: usize,
    /// The first terminal number above all elements so far.
    next: usize,
    sides: Vec<Side>,
    found: Foreign,
}

impl Checker {
    fn new(lean: bool) -> Checker {
        let found = Foreign { netlist: Netlist::default(), offsets: Vec::new() };
        Checker { lean, rank: 0, next: 0, sides: vec![Side::Nothing; TERMINALS], found }
    }

    fn take(&mut self, offset: usize, record: Record) -> Result<(), Refusal> {
        need(record.rank() >= self.rank, 21, offset)?;
        self.rank = record.rank();
        match record {
            Record::Element(element) => {
                need(self.is_numbered(element), 22, offset)?;
                self.add(element);
                self.found.offsets.push(offset);
            }
            Record::Wire { from, to } => {
                need(self.side(from) == Side::Output, 22, offset)?;
                need(self.side(to) == Side::Input, 22, offset)?;
                self.found.netlist.wires.push(Wire { from: Output(from), to: Input(to) });
            }
            Record::Pin(number) => {
                let pin = match self.side(number) {
                    Side::Nothing => return Err(Refusal::new(22, offset)),
                    Side::Input => Terminal::Input(Input(number)),
                    Side::Output => Terminal::Output(Output(number)),
                };
                self.found.netlist.pins.push(pin);
            }
        }
        Ok(())
    }

    /// "terminals run from 0 without gap in the elements and stay below 8,192"; in a lean netlist
    /// "each element starts above the last terminal of the one before"
    fn is_numbered(&self, element: Element) -> bool {
        let first = usize::from(element.first());
        let starts = if self.lean { first >= self.next } else { first == self.next };
        starts && first + element.terminals() <= TERMINALS
    }

    fn add(&mut self, element: Element) {
        for input in element.inputs() {
            self.sides[usize::from(input.0)] = Side::Input;
        }
        self.sides[usize::from(element.output().0)] = Side::Output;
        self.next = usize::from(element.first()) + element.terminals();
        self.found.netlist.elements.push(element);
    }

    fn side(&self, number: u16) -> Side {
        self.sides.get(usize::from(number)).copied().unwrap_or(Side::Nothing)
    }

    /// "every input has one wire or is one pin, never both"
    fn drivers(&self) -> Result<(), Refusal> {
        let mut feeds = vec![0usize; TERMINALS];
        for wire in &self.found.netlist.wires {
            feeds[usize::from(wire.to.0)] += 1;
        }
        for pin in &self.found.netlist.pins {
            feeds[usize::from(pin.number())] += 1;
        }
        for (number, side) in self.sides.iter().enumerate() {
            need(*side != Side::Input || feeds[number] == 1, 23, number)?;
        }
        Ok(())
    }
}
