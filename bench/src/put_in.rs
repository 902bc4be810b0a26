//! Linear functions are only a way of writing (L13): sheets with a linear function applied to an argument,
//! and with that argument put in. Both go through the proved translator, and the two circuits must be the
//! same but for numbers and order: the same pins, parts matched by the constants that made them, the same
//! bits on pins and parts, tick after tick.

use crate::circuit::{Circuit, Source};
use crate::differential::Lender;
use crate::request::{told, Case};
use crate::tally::{Key, Tally};
use crate::try_run::Tried;
use crate::try_translate::Translation;
use second::netlist::ENOUGH;
use second::put_in::{put_in, PutIn};
use second::random::Random;
use second::runs::Run;
use second::sheet::MEMORY;
use second::translate::accepted;
use second::write::Bytes;
use second::{circuits, corpus, edges_put_in, Wish};
use std::rc::Rc;

const TICKS: u16 = 12;

/// A sheet's two netlists.
struct Both {
    full: Circuit,
    lean: Circuit,
}

/// The same run of two sheets: what each is lent, and what both show.
struct BothRun {
    inputs: Bytes,
    starts: [Bytes; 2],
    outputs: Bytes,
}

pub struct Rewrites {
    lender: Lender,
    random: Random,
    pub tally: Tally,
}

impl Rewrites {
    pub fn new(seed: u64) -> Rewrites {
        Rewrites { lender: Lender::new(), random: Random::new(seed), tally: Tally::default() }
    }

    fn call(&mut self, case: &dyn Case) -> Result<(u64, Bytes), String> {
        let request = case.request(&mut self.random);
        let tried = self.lender.tried(&request, self.random.draw());
        tried.map_err(|what| format!("{what}\n{}", told(&request)))?;
        self.tally.calls += 1;
        // the same bytes as the second program's: that has just been compared
        let out = request.slices.iter().find(|slice| slice.name == "output");
        let out = out.expect("an output").after();
        let written = if request.wanted >> 32 == 0 { request.wanted as usize } else { 0 };
        Ok((request.wanted, out[..written].to_vec()))
    }

    /// The circuits that the proved translator makes of a sheet, or its answer where it refuses.
    fn translated(&mut self, sheet: &Rc<Bytes>) -> Result<Result<Both, u64>, String> {
        let mut circuits = Vec::new();
        for lean in [false, true] {
            // with nodes: parts are matched by them
            let wish = Wish { lean, plain: false, card: false };
            let case = Translation { sheet: sheet.clone(), room: ENOUGH, memory: MEMORY, wish };
            let (word, net) = self.call(&case)?;
            if word >> 32 != 0 {
                return Ok(Err(word));
            }
            circuits.push(Circuit::of(&net));
        }
        let lean = circuits.pop().expect("two circuits");
        Ok(Ok(Both { full: circuits.pop().expect("two circuits"), lean }))
    }

    /// One rewrite of an accepted sheet.
    fn rewrite(&mut self, sheet: &Rc<Bytes>, old: &Both, put: &PutIn) -> Result<(), String> {
        let new_sheet = Rc::new(put.sheet.clone());
        let new = match self.translated(&new_sheet)? {
            Ok(new) => new,
            Err(word) => {
                let key = Key::number("beyond the limits", word);
                self.tally.count(std::slice::from_ref(&key));
                return match word >> 32 {
                    8 | 16 => Ok(()),
                    _ => Err(format!("accepted before, and now refused: {word:x}")),
                };
            }
        };
        let matched = matched(&old.full, &new.full, &put.constants)?;
        same_shape(old, &new, &matched)?;
        let runs = self.same_bits(old, &new, &matched)?;
        let kind = if runs.is_some() { "run" } else { "with a ring" };
        self.tally.count(&[Key::new("same circuits", kind)]);
        match runs {
            Some(run) => self.same_run([sheet, &new_sheet], run),
            None => Ok(()),
        }
    }

    /// Both netlists of both sheets on the same inputs and starts: the same bits on pins and parts.
    fn same_bits(
        &mut self,
        old: &Both,
        new: &Both,
        matched: &[usize],
    ) -> Result<Option<BothRun>, String> {
        let (pins, registers) = old.full.asks();
        let mut bits =
            |count: usize| -> Bytes { (0..count).map(|_| self.random.below(2) as u8).collect() };
        let (inputs, starts) = (bits(usize::from(TICKS) * pins), bits(registers));
        let new_starts = turned_starts(old, new, matched, &starts);
        let mut seen = Vec::new();
        let own: Vec<usize> = (0..old.full.parts.len()).collect();
        for (circuit, starts, order) in [
            (&old.full, &starts, &own[..]),
            (&old.lean, &starts, &own[..]),
            (&new.full, &new_starts, matched),
            (&new.lean, &new_starts, matched),
        ] {
            let record = circuit.run(TICKS.into(), &inputs, starts);
            seen.push(record.map(|record| shown(circuit, &record, order)));
        }
        if seen.iter().any(|one| *one != seen[0]) {
            return Err("other bits on pins and parts".to_string());
        }
        let record = old.lean.run(TICKS.into(), &inputs, &starts);
        let outputs = record.map(|record| outputs(&old.lean, &record));
        Ok(outputs.map(|outputs| BothRun { inputs, starts: [starts, new_starts], outputs }))
    }

    /// The same by the proved call: these output bits, of both.
    fn same_run(&mut self, sheets: [&Rc<Bytes>; 2], both: BothRun) -> Result<(), String> {
        for (sheet, starts) in sheets.into_iter().zip(both.starts) {
            let (sheet, inputs) = (sheet.to_vec(), both.inputs.clone());
            let run = Run { sheet, ticks: TICKS, inputs, starts, room: ENOUGH, memory: MEMORY };
            let (word, shown) = self.call(&Tried(run))?;
            if word >> 32 != 0 || shown != both.outputs {
                return Err("other bits by the proved call".to_string());
            }
        }
        self.tally.count(&[Key::new("same circuits", "run by the proved call")]);
        Ok(())
    }

    /// All rewrites of a sheet, as far as it is accepted, of the first edition.
    fn sheet(&mut self, sheet: Bytes) -> Result<usize, String> {
        let Ok(read) = accepted(&sheet).map(|accepted| accepted.sheet) else { return Ok(0) };
        let rewrites = put_in(&read);
        if sheet[0] == 0x31 || rewrites.is_empty() {
            return Ok(0);
        }
        let sheet = Rc::new(sheet);
        let old = match self.translated(&sheet)? {
            Ok(old) => old,
            Err(word) => return Err(format!("the second program accepts it: {word:x}")),
        };
        for put in &rewrites {
            let told = |why| format!("{why}\nsheet   {}\nput in  {}", hex(&sheet), hex(&put.sheet));
            self.rewrite(&sheet, &old, put).map_err(told)?;
        }
        Ok(rewrites.len())
    }

    /// The named sheets, then generated ones until there are COUNT rewrites.
    pub fn run(&mut self, count: usize) -> Result<(), String> {
        for edge in edges_put_in::edges() {
            self.tally.named += self.sheet(edge.sheet)?;
        }
        let mut turn = 0;
        while self.tally.generated < count {
            // most of the others have rings of points, which cannot be run
            let sheet = match turn % 16 {
                0 => corpus::grown(&mut self.random),
                1 if turn % 256 == 1 => corpus::grown_large(&mut self.random),
                1 => circuits::large_circuit(&mut self.random),
                _ => circuits::circuit(&mut self.random),
            };
            self.tally.generated += self.sheet(sheet)?;
            turn += 1;
        }
        Ok(())
    }
}

/// For each part of the new circuit, in its order, the index of the old one's that the same constant made.
fn matched(old: &Circuit, new: &Circuit, constants: &[usize]) -> Result<Vec<usize>, String> {
    let mut nodes: Vec<usize> = constants.to_vec();
    nodes.sort_unstable();
    // elements stand in prefix order: the k-th part is made by the k-th constant
    let at = |node: &usize| nodes.binary_search(node).expect("one of them");
    let matched: Vec<usize> = constants.iter().map(at).collect();
    let named = |circuit: &Circuit, at: usize, node: usize| {
        circuit.parts[at].node.is_none_or(|named| named == node)
    };
    let counts = old.parts.len() == nodes.len() && new.parts.len() == nodes.len();
    if !counts || !(0..nodes.len()).all(|at| named(old, at, nodes[at])) {
        return Err("parts and constants do not match".to_string());
    }
    let same = |(at, &of): (usize, &usize)| new.parts[at].number == old.parts[of].number;
    if !matched.iter().enumerate().all(same) {
        return Err("other parts for the same constants".to_string());
    }
    Ok(matched)
}

/// The start bits of the new circuit's registers, by rising terminal.
fn turned_starts(old: &Both, new: &Both, matched: &[usize], starts: &[u8]) -> Bytes {
    let registers = old.full.parts.iter().enumerate().filter(|(_, part)| part.is_register());
    let mut start_of = vec![0; old.full.parts.len()];
    for ((at, _), &bit) in registers.zip(starts) {
        start_of[at] = bit;
    }
    let both = new.full.parts.iter().zip(matched).filter(|(part, _)| part.is_register());
    both.map(|(_, &of)| start_of[of]).collect()
}

/// The bits of all pins, then of all parts in the old order, tick after tick.
fn shown(circuit: &Circuit, record: &[Vec<u8>], order: &[usize]) -> Bytes {
    let mut in_order: Vec<usize> = (0..order.len()).collect();
    in_order.sort_by_key(|&at| order[at]);
    let mut all = Bytes::new();
    for bits in record {
        all.extend(circuit.pins.iter().map(|&(terminal, _)| bits[terminal]));
        for &at in &in_order {
            let part = &circuit.parts[at];
            all.extend(&bits[part.first..=part.output()]);
        }
    }
    all
}

/// The bits of the output pins, tick after tick.
fn outputs(circuit: &Circuit, record: &[Vec<u8>]) -> Bytes {
    let pins = || circuit.pins.iter().filter(|(_, is_input)| !is_input);
    record.iter().flat_map(|bits| pins().map(|&(terminal, _)| bits[terminal])).collect()
}

/// The same pins, and in the lean netlists the same source of each part input and each pin.
fn same_shape(old: &Both, new: &Both, matched: &[usize]) -> Result<(), String> {
    let sides = |both: &Both| both.full.pins.iter().map(|pin| pin.1).collect::<Vec<bool>>();
    if sides(old) != sides(new) {
        return Err("other pins".to_string());
    }
    let (old_parts, old_pins) = old.lean.sources();
    let (new_parts, new_pins) = new.lean.sources();
    let turned = |source: &Source| match *source {
        Source::Part(at) => Source::Part(matched[at]),
        other => other,
    };
    let same = |one: &[Source], other: &[Source]| one.iter().map(turned).eq(other.iter().copied());
    let parts = matched.iter().zip(&new_parts).all(|(&of, own)| same(own, &old_parts[of]));
    if parts && same(&new_pins, &old_pins) {
        Ok(())
    } else {
        Err("other sources in the lean netlists".to_string())
    }
}

fn hex(bytes: &[u8]) -> String {
    bytes.iter().map(|byte| format!("{byte:02x}")).collect()
}

/// Whether all is well.
pub fn run(count: usize, seed: u64) -> bool {
    let mut rewrites = Rewrites::new(seed);
    if let Err(difference) = rewrites.run(count) {
        println!("DIFFERENCE: {difference}");
        println!("put-in: differences 1 (stopped at the first)");
        return false;
    }
    rewrites.tally.print("put-in");
    println!("put-in: differences 0");
    true
}
