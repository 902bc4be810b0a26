//! Document 02, L10: named batches, and generated ones against calls made one by one.

use second::batch::call;
use second::batches::{any, Batch};
use second::edges_batch;
use second::random::Random;
use second::sheet::MEMORY;
use second::translate::wished;
use second::{word, Refusal};
use std::collections::BTreeMap;

/// What a call leaves behind.
struct Left {
    answer: u64,
    output: Vec<u8>,
    results: Vec<u64>,
    memory: Vec<u16>,
}

fn called(batch: &Batch) -> Left {
    let mut output = vec![7u8; batch.room];
    let mut results = vec![u64::MAX; batch.results];
    let mut memory = vec![9u16; batch.memory];
    let answer =
        call(&batch.sheets, &batch.lengths, &mut output, &mut results, &mut memory, batch.wish);
    Left { answer, output, results, memory }
}

fn untouched<T: PartialEq>(list: &[T], mark: T) -> bool {
    list.iter().all(|item| *item == mark)
}

#[test]
fn each_edge_is_answered_as_expected() {
    for edge in edges_batch::edges() {
        let left = called(&edge.batch);
        assert_eq!(left.answer, word(edge.answer), "{}", edge.name);
        let wanted: Vec<u64> = edge.results.iter().map(|&result| word(result)).collect();
        let (own, rest) = left.results.split_at(wanted.len());
        assert_eq!(own, wanted, "{}", edge.name);
        assert!(untouched(rest, u64::MAX), "{}", edge.name);
        let used = edge.answer.unwrap_or(0);
        assert!(untouched(&left.output[used..], 7), "{}", edge.name);
        if edge.results.is_empty() || edge.batch.memory < MEMORY {
            assert!(untouched(&left.memory, 9), "{}", edge.name);
        } else {
            assert!(untouched(&left.memory[..MEMORY], 0), "{}", edge.name);
        }
    }
}

#[test]
fn bytes_follow_each_other() {
    let p1 = [0x22, 0, 0, 0, 0x24, 0, 0];
    let batch =
        edges_batch::edges().into_iter().find(|edge| edge.name == "a refused sheet between");
    let left = called(&batch.expect("a named batch").batch);
    assert_eq!(left.output[..14], [p1, p1].concat());
}

/// The batch once more: a list of sheets cut off the front, each with the bytes that it needs.
fn one_by_one(batch: &Batch) -> Option<(Vec<u8>, Vec<u64>)> {
    let mut sheets = batch.sheets.clone();
    let (mut written, mut results) = (Vec::new(), Vec::new());
    for &length in &batch.lengths {
        if length as usize > sheets.len() {
            return None;
        }
        let sheet: Vec<u8> = sheets.drain(..length as usize).collect();
        let room = batch.room - written.len();
        let result = wished(&sheet, batch.wish, room, batch.memory);
        results.push(word(result.as_ref().map(|bytes| bytes.len()).map_err(|why| *why)));
        written.extend(result.unwrap_or_default());
    }
    (sheets.is_empty() && results.len() <= batch.results).then_some((written, results))
}

#[test]
fn a_batch_equals_the_calls_made_one_by_one() {
    let mut random = Random::new(40);
    let mut numbers: BTreeMap<u64, usize> = BTreeMap::new();
    let mut wholes = [0, 0];
    for index in 0..1_500 {
        let batch = any(&mut random, index);
        let left = called(&batch);
        let Some((written, results)) = one_by_one(&batch) else {
            wholes[0] += 1;
            assert_eq!(left.answer, word(Err(Refusal::new(24, 0))));
            assert!(untouched(&left.output, 7) && untouched(&left.results, u64::MAX));
            assert!(untouched(&left.memory, 9));
            continue;
        };
        wholes[1] += 1;
        assert_eq!(left.answer, written.len() as u64);
        let (own, rest) = left.results.split_at(results.len());
        assert!(own == results && untouched(rest, u64::MAX));
        let (own, rest) = left.output.split_at(written.len());
        assert!(own == written && untouched(rest, 7));
        if batch.memory < MEMORY || batch.lengths.is_empty() {
            assert!(untouched(&left.memory, 9));
        } else {
            assert!(untouched(&left.memory[..MEMORY], 0) && untouched(&left.memory[MEMORY..], 9));
        }
        for result in results {
            *numbers.entry(result >> 32 & 0xFF).or_default() += 1;
        }
    }
    assert!(wholes[0] > 100 && wholes[1] > 1_000, "{wholes:?}");
    for number in [0, 1, 3, 4, 12, 17, 27, 28, 29] {
        assert!(numbers.get(&number).copied().unwrap_or(0) > 30, "{number}: {numbers:?}");
    }
}
