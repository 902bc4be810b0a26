//! Document 02, L13: sheets with a linear application put in, by hand; and generated ones, accepted
//! again, with the same possible records, the same lean netlist but for its numbers, the same runs.

use second::circuits;
use second::corpus::grown;
use second::edges_put_in;
use second::netlist::{part_of, Element, Netlist, Output, Terminal};
use second::put_in::{put_in, PutIn};
use second::random::Random;
use second::records::{possible, Outside};
use second::run::{ran, Trace};
use second::runs::fitting;
use second::translate::{accepted, Accepted};
use second::{lean, read, terminals};
use std::collections::{BTreeMap, BTreeSet};

#[test]
fn each_edge_is_put_in_as_expected() {
    for edge in edges_put_in::edges() {
        let sheet = read(&edge.sheet).expect("a readable sheet");
        assert!(accepted(&edge.sheet).is_ok(), "{}", edge.name);
        let put: Vec<Vec<u8>> = put_in(&sheet).into_iter().map(|put| put.sheet).collect();
        assert!(put == edge.put, "{}: {put:02x?}, not {:02x?}", edge.name, edge.put);
    }
}

#[test]
fn depth_may_pass_the_limit() {
    let answers: Vec<Option<usize>> = edges_put_in::edges()
        .iter()
        .filter(|edge| edge.name.ends_with("deep, twice"))
        .map(|edge| accepted(&edge.put[0]).err().map(|refusal| refusal.number))
        .collect();
    assert_eq!(answers, [None, Some(8)]);
}

/// Both sheets, and for each part of the new netlist, in its order, the old node of its constant.
struct Both {
    old: Accepted,
    new: Accepted,
    constants: Vec<usize>,
}

impl Both {
    fn of(sheet: &[u8], put: &PutIn) -> Option<Both> {
        let old = accepted(sheet).expect("an accepted sheet");
        let new = match accepted(&put.sheet) {
            Ok(new) => new,
            Err(refusal) => {
                assert!([8, 16].contains(&refusal.number), "{refusal:?} {sheet:02x?}");
                return None;
            }
        };
        assert_eq!(old.root, new.root);
        Some(Both { old, new, constants: put.constants.clone() })
    }

    /// For each part of the new netlist its index among the old one's.
    fn matched(&self) -> Vec<usize> {
        let old: Vec<usize> = parts(&self.old.full).map(|(_, node)| node).collect();
        let at = |node| old.iter().position(|&other| other == node).unwrap();
        self.constants.iter().map(|&node| at(node)).collect()
    }
}

fn parts(netlist: &Netlist) -> impl Iterator<Item = (Element, usize)> + '_ {
    let all = netlist.elements.iter().copied().zip(netlist.makers.iter().copied());
    all.filter(|(element, _)| matches!(element, Element::Part { .. }))
}

/// A record of the new netlist with its parts in the old one's order.
fn turned(both: &Both, record: &Outside, ticks: usize) -> Outside {
    let sizes: Vec<usize> = parts(&both.new.full).map(|(part, _)| part.terminals()).collect();
    let pins = both.new.full.pins.len();
    let width = pins + sizes.iter().sum::<usize>();
    let matched = both.matched();
    let mut old = Vec::new();
    for tick in record.chunks(width.max(1)).take(ticks) {
        old.extend(&tick[..pins]);
        let mut by_part: BTreeMap<usize, &[bool]> = BTreeMap::new();
        let mut at = pins;
        for (size, &index) in sizes.iter().zip(&matched) {
            by_part.insert(index, &tick[at..at + size]);
            at += size;
        }
        by_part.values().for_each(|bits| old.extend(*bits));
    }
    old
}

/// On lean netlists, which allow the same records as the full ones and are smaller.
fn same_records(both: &Both) -> bool {
    let thin = [lean(&both.old.full), lean(&both.new.full)];
    let own: usize = thin[0].elements.iter().map(|element| element.terminals()).sum();
    let counts = [terminals(&both.old.sheet), terminals(&both.new.sheet)];
    for ticks in (0..=2).filter(|ticks| own * ticks <= 14) {
        let wanted = possible(&thin[0], counts[0], ticks);
        let found: BTreeSet<Outside> = possible(&thin[1], counts[1], ticks)
            .iter()
            .map(|one| turned(both, one, ticks))
            .collect();
        assert_eq!(found, wanted, "{:?}", both.old.sheet.term);
    }
    own <= 14
}

/// Where a lean netlist's bit comes from.
#[derive(Debug, PartialEq, Eq)]
enum Source {
    Part(usize),
    Pin(usize),
    Ring,
}

/// The sources of all part inputs, part after part, and of all pins; parts by the given indices.
fn sources(thin: &Netlist, index: &dyn Fn(usize) -> usize) -> (Vec<Vec<Source>>, Vec<Source>) {
    let all: Vec<Element> = parts(thin).map(|(part, _)| part).collect();
    let position = |terminal: Terminal| thin.pins.iter().position(|&pin| pin == terminal);
    let source = |output: Output| match all.iter().position(|part| part.output() == output) {
        Some(at) => Source::Part(index(at)),
        None => {
            let input = second::netlist::Input(output.0 - 1);
            position(Terminal::Input(input)).map_or(Source::Ring, Source::Pin)
        }
    };
    let mut inputs: BTreeMap<usize, Vec<Source>> = BTreeMap::new();
    for (at, part) in all.iter().enumerate() {
        let fed = part.inputs().map(|input| {
            let wire = thin.wires.iter().find(|wire| wire.to == input);
            let pin = || Source::Pin(position(Terminal::Input(input)).unwrap());
            wire.map_or_else(pin, |wire| source(wire.from))
        });
        inputs.insert(index(at), fed.collect());
    }
    let pins = thin.pins.iter().enumerate().map(|(at, pin)| match pin {
        Terminal::Input(_) => Source::Pin(at),
        Terminal::Output(output) => source(*output),
    });
    (inputs.into_values().collect(), pins.collect())
}

fn same_lean_netlist(both: &Both) {
    let matched = both.matched();
    let old = sources(&lean(&both.old.full), &|at| at);
    let new = sources(&lean(&both.new.full), &|at| matched[at]);
    assert_eq!(old, new);
}

/// A run of both, the start bits matched by the registers' constants.
fn same_run(both: &Both, sheet: &[u8], put: &PutIn, random: &mut Random) -> bool {
    let old = fitting(random, sheet.to_vec(), 12);
    let run = |sheet: &[u8], starts: &[u8]| {
        let trace = Trace { ticks: old.ticks, inputs: &old.inputs, starts };
        ran(sheet, trace, old.room, old.memory)
    };
    let register = |element: Element| matches!(element, Element::Part { part, .. } if part_of(part).name == "reg");
    let registers = parts(&both.old.full).filter(|&(part, _)| register(part));
    let start_of: BTreeMap<usize, u8> =
        registers.map(|(_, node)| node).zip(old.starts.iter().copied()).collect();
    let new_parts = parts(&both.new.full).map(|(part, _)| part).zip(&both.constants);
    let starts: Vec<u8> =
        new_parts.filter(|&(part, _)| register(part)).map(|(_, node)| start_of[node]).collect();
    match (run(sheet, &old.starts), run(&put.sheet, &starts)) {
        (Ok(one), Ok(other)) => {
            assert_eq!(one, other);
            true
        }
        (one, other) => {
            assert_eq!(one.unwrap_err().number, 19);
            assert_eq!(other.unwrap_err().number, 19);
            false
        }
    }
}

#[test]
fn putting_in_is_harmless() {
    let mut random = Random::new(13);
    let (mut all, mut tried, mut runs, mut beyond) = (0, 0, 0, 0);
    for at in 0..3_000 {
        let sheet = if at % 2 == 0 { grown(&mut random) } else { circuits::circuit(&mut random) };
        let Ok(old) = accepted(&sheet) else { continue };
        if sheet[0] == 0x31 {
            continue;
        }
        for put in put_in(&old.sheet) {
            let Some(both) = Both::of(&sheet, &put) else {
                beyond += 1;
                continue;
            };
            all += 1;
            same_lean_netlist(&both);
            runs += usize::from(same_run(&both, &sheet, &put, &mut random));
            tried += usize::from(same_records(&both));
        }
    }
    assert!(all > 1_000 && tried > 300 && runs > 300, "{all} {tried} {runs} {beyond}");
}
