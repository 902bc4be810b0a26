//! Document 02, L4: named runs; generated ones against the definition of possible records, tried on
//! all bits; and rings against the closure of "drives".

use second::circuits;
use second::edges_run;
use second::lean;
use second::netlist::{part_of, Element, Netlist, Terminal};
use second::random::Random;
use second::records::possible;
use second::run::{call, ran, Trace};
use second::runs::{any, fitting, Run};
use second::translate::accepted;
use second::write::hex;
use second::{terminals, word, Refusal};
use std::collections::BTreeMap;

fn result(run: &Run) -> Result<Vec<u8>, Refusal> {
    let trace = Trace { ticks: run.ticks, inputs: &run.inputs, starts: &run.starts };
    ran(&run.sheet, trace, run.room, run.memory)
}

#[test]
fn each_edge_is_answered_as_expected() {
    let mut wrong = Vec::new();
    for edge in edges_run::edges() {
        let found = result(&edge.run).map_err(|why| (why.number, why.place));
        if found != edge.answer {
            wrong.push(format!("{}: {found:?}, not {:?}", edge.name, edge.answer));
        }
    }
    assert!(wrong.is_empty(), "{}", wrong.join("\n"));
}

#[test]
fn lent_storage_is_left_as_the_text_says() {
    let reg = hex("01 030000 1A0101");
    let (mut output, mut memory) = (vec![7u8; 5], vec![9u16; 32_769]);
    assert_eq!(call(&reg, &[1, 0, 1], &[1], &mut output, &mut memory, 3), 3);
    assert_eq!(output, [1, 1, 0, 7, 7]);
    assert!(memory[..32_768].iter().all(|&number| number == 0) && memory[32_768] == 9);
    let short = call(&reg, &[1, 0, 1], &[1], &mut output[..2], &mut memory, 3);
    assert_eq!(short, word(Err(Refusal::new(17, 3))));
    memory.fill(9);
    assert_eq!(call(&reg, &[2], &[], &mut output, &mut memory[..32_767], 3), 1 << 32);
    assert!(memory.iter().all(|&number| number == 9));
    assert_eq!(output, [1, 1, 0, 7, 7]);
    assert_eq!(call(&reg, &[], &[1], &mut output, &mut memory, 0), 0);
    assert_eq!(output, [1, 1, 0, 7, 7]);
}

/// The pins and register outputs of a record that `possible` gives.
struct Seen {
    inputs: Vec<u8>,
    outputs: Vec<u8>,
    starts: Vec<u8>,
}

fn seen(netlist: &Netlist, record: &[bool], ticks: usize) -> Seen {
    let mut seen = Seen { inputs: Vec::new(), outputs: Vec::new(), starts: Vec::new() };
    let mut bits = record.iter().map(|&bit| u8::from(bit));
    for tick in 0..ticks {
        for pin in &netlist.pins {
            let side = match pin {
                Terminal::Input(_) => &mut seen.inputs,
                Terminal::Output(_) => &mut seen.outputs,
            };
            side.push(bits.next().unwrap());
        }
        for element in &netlist.elements {
            let Element::Part { part, .. } = *element else { continue };
            let last = (0..element.terminals()).map(|_| bits.next().unwrap()).last().unwrap();
            if tick == 0 && part_of(part).name == "reg" {
                seen.starts.push(last);
            }
        }
    }
    seen
}

#[test]
fn a_run_shows_the_only_possible_record() {
    let mut random = Random::new(4);
    let (mut runs, mut registers) = (0, 0);
    for _ in 0..4_000 {
        let sheet = circuits::circuit(&mut random);
        let Ok(accepted) = accepted(&sheet) else { continue };
        let thin = lean(&accepted.full);
        let own: usize = thin.elements.iter().map(|element| element.terminals()).sum();
        let ticks = random.within(1, 3);
        if own * ticks > 15 {
            continue;
        }
        let run = fitting(&mut random, sheet, ticks as u16);
        let Ok(shown) = result(&run) else { continue };
        let records = possible(&thin, terminals(&accepted.sheet), ticks);
        let fitting: Vec<Seen> = records
            .iter()
            .map(|record| seen(&thin, record, ticks))
            .filter(|seen| seen.inputs == run.inputs && seen.starts == run.starts)
            .collect();
        assert_eq!(fitting.len(), 1, "{run:02x?}");
        assert_eq!(fitting[0].outputs, shown, "{run:02x?}");
        runs += 1;
        registers += usize::from(!run.starts.is_empty());
    }
    assert!(runs > 700 && registers > 200, "{runs} runs, {registers} with registers");
}

/// The lowest input that drives itself, by the closure of "drives" over all inputs.
fn lowest_by_closure(thin: &Netlist) -> Option<u16> {
    let inputs: Vec<(Element, u16)> = thin
        .elements
        .iter()
        .flat_map(|&element| element.inputs().map(move |input| (element, input.0)))
        .collect();
    let count = inputs.len();
    let register =
        |element| matches!(element, Element::Part { part, .. } if part_of(part).name == "reg");
    let mut drives = vec![vec![false; count]; count];
    for (at, &(element, _)) in inputs.iter().enumerate() {
        for wire in thin.wires.iter().filter(|wire| wire.from == element.output()) {
            let to = inputs.iter().position(|&(_, input)| input == wire.to.0).unwrap();
            drives[at][to] = !register(element);
        }
    }
    for through in 0..count {
        for from in 0..count {
            for to in 0..count {
                drives[from][to] |= drives[from][through] && drives[through][to];
            }
        }
    }
    (0..count).find(|&at| drives[at][at]).map(|at| inputs[at].1)
}

#[test]
fn generated_runs_are_refused_exactly_when_a_ring_has_no_register() {
    let mut random = Random::new(19);
    let mut counts: BTreeMap<usize, usize> = BTreeMap::new();
    for index in 0..4_000 {
        let run = any(&mut random, index);
        let found = result(&run);
        let number = found.as_ref().err().map_or(0, |refusal| refusal.number);
        *counts.entry(number).or_default() += 1;
        let Ok(accepted) = accepted(&run.sheet) else {
            assert!((1..=16).contains(&number));
            continue;
        };
        let thin = lean(&accepted.full);
        if run.memory < 32_768 {
            assert_eq!(number, 1);
        } else if thin.elements.len() < 60 {
            let ring = lowest_by_closure(&thin);
            assert_eq!(ring.is_some(), number == 19);
            if let Some(input) = ring {
                assert_eq!(found, Err(Refusal::new(19, input.into())));
            }
        }
    }
    for number in [0, 1, 17, 19, 20] {
        assert!(counts.get(&number).copied().unwrap_or(0) > 100, "{counts:?}");
    }
}
