//! Sixteen traces at once: named runs; generated ones, each trace against a run of its own; windows
//! against one run; and the state left against the definition of possible records.

use second::circuits;
use second::edges_lanes;
use second::edges_run::REG;
use second::lane_runs::{any, fitting, Lanes};
use second::lanes::{call, lane_of, left, Left, Traces, LANES};
use second::lean;
use second::netlist::{part_of, Element, Netlist, Terminal};
use second::random::Random;
use second::records::possible;
use second::run::{ran, Trace};
use second::sheet::MEMORY;
use second::translate::accepted;
use second::write::hex;
use second::{terminals, word, Refusal};
use std::collections::BTreeMap;

fn result(lanes: &Lanes) -> Result<Left, Refusal> {
    let Lanes { sheet, ticks, inputs, state, room, memory } = lanes;
    left(sheet, Traces { ticks: *ticks, inputs, state }, *room, *memory)
}

#[test]
fn each_edge_is_answered_as_expected() {
    let mut wrong = Vec::new();
    for edge in edges_lanes::edges() {
        let found = result(&edge.lanes).map_err(|why| (why.number, why.place));
        if found != edge.answer {
            wrong.push(edge.name);
        }
    }
    assert!(wrong.is_empty(), "{}", wrong.join("\n"));
}

#[test]
fn each_refusal_has_an_edge() {
    let edges = edges_lanes::edges();
    let numbers: Vec<usize> =
        edges.iter().filter_map(|edge| edge.answer.as_ref().err()).map(|why| why.0).collect();
    for number in (2..=17).chain([19, 20]) {
        assert!(numbers.contains(&number), "{number}");
    }
}

#[test]
fn lent_storage_is_left_as_the_text_says() {
    let reg = hex(REG);
    let (mut out, mut memory, mut state) = (vec![7u16; 4], vec![9u16; 32_769], [0x00FF]);
    assert_eq!(call(&reg, &[0xAAAA, 0x5555], &mut state, &mut out, &mut memory, 2), 2);
    assert_eq!((out.as_slice(), state), ([0x00FF, 0xAAAA, 7, 7].as_slice(), [0x5555]));
    assert!(memory[..32_768].iter().all(|&number| number == 0) && memory[32_768] == 9);
    // the state goes on where the call ended
    assert_eq!(call(&reg, &[1], &mut state, &mut out, &mut memory, 1), 1);
    assert_eq!((out.as_slice(), state), ([0x5555, 0xAAAA, 7, 7].as_slice(), [1]));
    // refused: neither output nor state changes
    let short = call(&reg, &[2, 3], &mut state, &mut out[..1], &mut memory, 2);
    assert_eq!(short, word(Err(Refusal::new(17, 2))));
    memory.fill(9);
    assert_eq!(call(&reg, &[2], &mut state, &mut out, &mut memory[..32_767], 1), 1 << 32);
    assert!(memory.iter().all(|&number| number == 9));
    assert_eq!((out.as_slice(), state), ([0x5555, 0xAAAA, 7, 7].as_slice(), [1]));
    // no tick: the state stays
    assert_eq!(call(&reg, &[], &mut state, &mut out, &mut memory, 0), 0);
    assert_eq!((out.as_slice(), state), ([0x5555, 0xAAAA, 7, 7].as_slice(), [1]));
}

#[test]
fn each_trace_is_a_run_of_its_own() {
    let mut random = Random::new(16);
    let mut counts: BTreeMap<usize, usize> = BTreeMap::new();
    for index in 0..2_000 {
        let lanes = any(&mut random, index);
        let found = result(&lanes);
        *counts.entry(found.as_ref().map_or_else(|why| why.number, |_| 0)).or_default() += 1;
        for lane in 0..LANES {
            let (inputs, starts) = (lane_of(&lanes.inputs, lane), lane_of(&lanes.state, lane));
            let trace = Trace { ticks: lanes.ticks, inputs: &inputs, starts: &starts };
            let alone = ran(&lanes.sheet, trace, lanes.room, lanes.memory);
            let shown = found.clone().map(|left| lane_of(&left.out, lane));
            assert_eq!(shown, alone, "{lanes:x?}");
        }
    }
    for number in [0, 1, 17, 19, 20] {
        assert!(counts.get(&number).copied().unwrap_or(0) > 50, "{counts:?}");
    }
}

/// A circuit that can be run, with what it asks for.
fn runnable(random: &mut Random, most: usize) -> Lanes {
    loop {
        let (sheet, ticks) = (circuits::circuit(random), random.below(most + 1) as u16);
        let lanes = fitting(random, sheet, ticks);
        if result(&lanes).is_ok() {
            return lanes;
        }
    }
}

#[test]
fn windows_are_one_run() {
    let mut random = Random::new(7);
    let mut registers = 0;
    for _ in 0..1_000 {
        let whole = runnable(&mut random, 40);
        let wanted = result(&whole).unwrap();
        let (mut state, mut shown) = (whole.state.clone(), Vec::new());
        let (mut begun, ticks) = (0, usize::from(whole.ticks));
        let width = if ticks == 0 { 0 } else { whole.inputs.len() / ticks };
        while begun < ticks {
            let end = random.within(begun, ticks);
            let inputs = &whole.inputs[begun * width..end * width];
            let window = Traces { ticks: (end - begun) as u16, inputs, state: &state };
            let left = left(&whole.sheet, window, whole.room, MEMORY).unwrap();
            (state, begun) = (left.state, end);
            shown.extend(left.out);
        }
        assert_eq!(Left { out: shown, state }, wanted, "{whole:x?}");
        registers += usize::from(!whole.state.is_empty());
    }
    assert!(registers > 200, "{registers} with registers");
}

/// The input pins' bits of all ticks but the last, and the registers' outputs at tick 0 and at the
/// last one, of a record that `possible` gives.
fn seen(netlist: &Netlist, record: &[bool], ticks: usize) -> (Vec<u8>, Vec<u8>, Vec<u8>) {
    let (mut inputs, mut starts, mut held) = (Vec::new(), Vec::new(), Vec::new());
    let mut bits = record.iter().map(|&bit| u8::from(bit));
    for tick in 0..ticks {
        for pin in &netlist.pins {
            let bit = bits.next().unwrap();
            if matches!(pin, Terminal::Input(_)) && tick + 1 < ticks {
                inputs.push(bit);
            }
        }
        for element in &netlist.elements {
            let Element::Part { part, .. } = *element else { continue };
            let shown = (0..element.terminals()).map(|_| bits.next().unwrap()).last().unwrap();
            if part_of(part).name == "reg" && tick == 0 {
                starts.push(shown);
            }
            if part_of(part).name == "reg" && tick + 1 == ticks {
                held.push(shown);
            }
        }
    }
    (inputs, starts, held)
}

/// After n ticks each trace's state is what the registers show at tick n of every possible record of
/// n + 1 ticks with these inputs and starts.
#[test]
fn the_state_is_what_registers_show_next() {
    let mut random = Random::new(5);
    let mut runs = 0;
    for _ in 0..6_000 {
        let (sheet, ticks) = (circuits::circuit(&mut random), random.within(0, 2));
        let Ok(accepted) = accepted(&sheet) else { continue };
        let thin = lean(&accepted.full);
        let own: usize = thin.elements.iter().map(|element| element.terminals()).sum();
        if own * (ticks + 1) > 15 {
            continue;
        }
        let lanes = fitting(&mut random, sheet, ticks as u16);
        let Ok(left) = result(&lanes) else { continue };
        if left.state.is_empty() {
            continue;
        }
        let records = possible(&thin, terminals(&accepted.sheet), ticks + 1);
        let lane = random.below(LANES);
        let (inputs, starts) = (lane_of(&lanes.inputs, lane), lane_of(&lanes.state, lane));
        let all = records.iter().map(|record| seen(&thin, record, ticks + 1));
        let held: Vec<Vec<u8>> =
            all.filter(|one| one.0 == inputs && one.1 == starts).map(|one| one.2).collect();
        assert!(!held.is_empty(), "{lanes:x?}");
        assert!(held.iter().all(|held| *held == lane_of(&left.state, lane)), "{lanes:x?}");
        runs += 1;
    }
    assert!(runs > 200, "{runs} runs with registers");
}
