//! Document 02, L8: named netlists, our own, well-formed ones, and damaged ones against the sentence
//! of the request, tested word by word.

use second::corpus::{any, grown_large, named, Kind};
use second::edges_foreign;
use second::editions;
use second::foreign::{accept, call, lent};
use second::nets::{self, formed, parts_alone};
use second::random::Random;
use second::translate::netlist;
use second::{bytes, word, Refusal};
use std::collections::{BTreeMap, BTreeSet};

fn refused(net: &[u8], lean: bool) -> Option<(usize, usize)> {
    accept(net, lean).err().map(|refusal| (refusal.number, refusal.place))
}

#[test]
fn each_edge_is_answered_as_expected() {
    let mut wrong = Vec::new();
    for edge in edges_foreign::edges() {
        for (lean, wanted) in [(false, edge.full), (true, edge.lean)] {
            let found = refused(&edge.net, lean);
            if found != wanted {
                wrong.push(format!("{}, lean {lean}: {found:?}, not {wanted:?}", edge.name));
            }
        }
    }
    assert!(wrong.is_empty(), "{}", wrong.join("\n"));
}

#[test]
fn memory_is_looked_at_first_and_left_clear() {
    let mut memory = vec![9u16; 32_769];
    assert_eq!(call(&[0xFF], &mut memory[..32_767], false), word(Err(Refusal::new(1, 0))));
    assert!(memory.iter().all(|&number| number == 9));
    assert_eq!(call(&[0xFF], &mut memory, false), word(Err(Refusal::new(21, 0))));
    assert!(memory[..32_768].iter().all(|&number| number == 0) && memory[32_768] == 9);
    memory.fill(9);
    assert_eq!(call(&[], &mut memory, true), 0);
    assert!(memory[..32_768].iter().all(|&number| number == 0) && memory[32_768] == 9);
    assert_eq!(lent(&[], 0, true), Err(Refusal::new(1, 0)));
}

#[test]
fn what_we_write_is_accepted() {
    let mut random = Random::new(8);
    let mut sheets: Vec<Vec<u8>> = named(Kind::Making).into_iter().map(|case| case.sheet).collect();
    sheets.extend((0..1_500).map(|at| any(&mut random, at)));
    sheets.extend((0..800).map(|at| editions::any(&mut random, at)));
    sheets.extend((0..20).map(|_| grown_large(&mut random)));
    let mut count = 0;
    for sheet in sheets {
        let Ok(full) = netlist(&sheet, false) else { continue };
        let lean = netlist(&sheet, true).unwrap();
        for (made, as_lean) in [(&full, false), (&full, true), (&lean, true)] {
            let found = accept(&bytes(made), as_lean).expect("our own netlist").netlist;
            assert!((&found.elements, &found.wires) == (&made.elements, &made.wires));
            assert!(found.pins == made.pins);
        }
        count += 1;
    }
    assert!(count > 1_000, "{count}");
}

/// A record, in words.
#[derive(Clone, Copy, PartialEq)]
enum Word {
    Element { inputs: usize, first: usize },
    Wire { from: usize, to: usize },
    Pin { number: usize },
}

/// The first record at an offset and the next offset, if it is whole and known.
fn word_at(net: &[u8], at: usize) -> Option<(Word, usize)> {
    let number =
        |at: usize| Some(usize::from(*net.get(at)?) + 256 * usize::from(*net.get(at + 1)?));
    match *net.get(at)? {
        0x21 => Some((Word::Element { inputs: 1, first: number(at + 1)? }, at + 3)),
        0x22 => {
            let first = number(at + 2)?;
            let inputs = *[0, 1, 2, 2, 2, 1, 0].get(usize::from(net[at + 1]))?;
            Some((Word::Element { inputs, first }, at + 4))
        }
        0x23 => Some((Word::Wire { from: number(at + 1)?, to: number(at + 3)? }, at + 5)),
        0x24 => Some((Word::Pin { number: number(at + 1)? }, at + 3)),
        _ => None,
    }
}

/// The request over again: every record judged by all records before it, nothing carried along.
fn slowly(net: &[u8], lean: bool) -> Option<(usize, usize)> {
    let mut words: Vec<Word> = Vec::new();
    let mut at = 0;
    while at < net.len() {
        let Some((word, next)) = word_at(net, at) else { return Some((21, at)) };
        let (inputs, outputs) = terminals(&words);
        let wires = words.iter().any(|word| matches!(word, Word::Wire { .. }));
        let pins = words.iter().any(|word| matches!(word, Word::Pin { .. }));
        let misplaced = match word {
            Word::Element { .. } => wires || pins,
            Word::Wire { .. } => pins,
            Word::Pin { .. } => false,
        };
        if misplaced {
            return Some((21, at));
        }
        let good = match word {
            Word::Element { inputs: own, first } => {
                let due = inputs.union(&outputs).max().map_or(0, |last| last + 1);
                (first == due || lean && first > due) && first + own < 8_192
            }
            Word::Wire { from, to } => outputs.contains(&from) && inputs.contains(&to),
            Word::Pin { number } => inputs.contains(&number) || outputs.contains(&number),
        };
        if !good {
            return Some((22, at));
        }
        words.push(word);
        at = next;
    }
    let (inputs, _) = terminals(&words);
    let feeds = |input: usize| {
        words
            .iter()
            .filter(|word| match **word {
                Word::Wire { to, .. } => to == input,
                Word::Pin { number } => number == input,
                Word::Element { .. } => false,
            })
            .count()
    };
    inputs.into_iter().find(|&input| feeds(input) != 1).map(|input| (23, input))
}

fn terminals(words: &[Word]) -> (BTreeSet<usize>, BTreeSet<usize>) {
    let (mut inputs, mut outputs) = (BTreeSet::new(), BTreeSet::new());
    for word in words {
        if let Word::Element { inputs: own, first } = *word {
            inputs.extend(first..first + own);
            outputs.insert(first + own);
        }
    }
    (inputs, outputs)
}

#[test]
fn generated_netlists_are_judged_as_the_request_says() {
    let mut random = Random::new(88);
    let mut counts: BTreeMap<(bool, usize), usize> = BTreeMap::new();
    for index in 0..12_000 {
        let given = nets::any(&mut random, index);
        let found = refused(&given.net, given.lean);
        let number = found.map_or(0, |(number, _)| number);
        *counts.entry((given.lean, number)).or_default() += 1;
        if given.net.len() < 400 {
            assert_eq!(found, slowly(&given.net, given.lean), "{:02x?}", given);
        }
    }
    for lean in [false, true] {
        for number in [0, 21, 22, 23] {
            let count = counts.get(&(lean, number)).copied().unwrap_or(0);
            assert!(count > 300, "{lean} {number}: {counts:?}");
        }
    }
}

#[test]
fn formed_netlists_are_accepted() {
    let mut random = Random::new(9);
    for at in 0..3_000 {
        let gaps = random.once_in(2);
        let form = if at % 2 == 0 { formed } else { parts_alone };
        let net = form(&mut random, gaps);
        assert_eq!(refused(&bytes(&net), true), None, "{net:?}");
        if !gaps {
            assert_eq!(refused(&bytes(&net), false), None, "{net:?}");
        }
    }
}
