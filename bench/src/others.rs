//! Times of the other calls: the check of netlists from outside, the way back to a sheet, modules of
//! Verilog and sheets of texts, each against the second program; and a batch against its calls one by one.

use crate::boundary::linked;
use crate::boundary::{told, Call};
use crate::classes::{classes, Class};
use crate::texts::{families, ordinary};
use crate::timing::{least, ROUNDS};
use second::sheet::MEMORY;
use second::Wish;
use std::cell::RefCell;
use std::hint::black_box;

/// Bytes that do for each call timed here.
const ROOM: usize = 1 << 20;

/// Places that always do: a sheet has no more nodes.
const NODES: usize = 2_048;

/// What calls write to.
struct Storage {
    out: Vec<u8>,
    places: Vec<u16>,
    work: Vec<u16>,
}

impl Storage {
    fn new() -> RefCell<Storage> {
        let (out, places) = (vec![0; ROOM], vec![0; NODES]);
        RefCell::new(Storage { out, places, work: vec![0; MEMORY] })
    }
}

/// A slice that a call only reads.
fn given<T>(slice: &[T]) -> (*mut u8, usize) {
    (slice.as_ptr().cast_mut().cast(), slice.len())
}

/// A slice that a call writes to.
fn lent<T>(slice: &mut [T]) -> (*mut u8, usize) {
    (slice.as_mut_ptr().cast(), slice.len())
}

/// A ring of 4,096 points, and so many pins on outputs: 32,768 bytes and three for each pin.
fn ring_with_pins(pins: u32) -> Vec<u8> {
    let low = |number: u32| (number as u16).to_le_bytes();
    let points = (0..4096).flat_map(|k| [[0x21].as_slice(), &low(2 * k)].concat());
    let wire = |k: u32| [[0x23].as_slice(), &low(2 * k + 1), &low((2 * k + 2) % 8192)].concat();
    let pin = |k: u32| [[0x24].as_slice(), &low(2 * (k % 4096) + 1)].concat();
    points.chain((0..4096).flat_map(wire)).chain((0..pins).flat_map(pin)).collect()
}

/// So many gates of two inputs, each fed by the one before it; the other inputs are open.
fn gates(count: u8) -> Vec<u8> {
    let parts = (0..count).flat_map(|k| [0x22, 2 + k % 3, 3 * k, 0]);
    let wires = (1..count).flat_map(|k| [0x23, 3 * k - 1, 0, 3 * k, 0]);
    let pins = [0].into_iter().chain((0..count).map(|k| 3 * k + 1));
    parts.chain(wires).chain(pins.flat_map(|input| [0x24, input, 0])).collect()
}

/// One call on bytes, by the proved program.
fn proved(call: Call, bytes: &[u8], storage: &mut Storage) -> u64 {
    let (out, work) = (lent(&mut storage.out), lent(&mut storage.work));
    let places = lent(&mut storage.places);
    match call {
        Call::Check => unsafe { linked::call(call, &[given(bytes), work], 0) },
        Call::Make => unsafe { linked::call(call, &[given(bytes), out, places, work], 0) },
        _ => unsafe { linked::call(call, &[given(bytes), out, work], 0) },
    }
}

/// The same by the second program.
fn second(call: Call, bytes: &[u8], storage: &mut Storage) -> u64 {
    let Storage { out, places, work } = storage;
    match call {
        Call::Make => second::notation_make::call(bytes, out, places, work),
        Call::Check => second::foreign::call(bytes, work, false),
        Call::Back => second::back::call(bytes, out, work, false),
        Call::Verilog => second::verilog::call(bytes, out, work),
        _ => unreachable!("{call:?} is not timed here"),
    }
}

/// A call on each of some bytes: nanoseconds a call, by both programs.
fn row(call: Call, name: &str, list: &[Vec<u8>]) {
    let storage = Storage::new();
    let all = |each: fn(Call, &[u8], &mut Storage) -> u64| {
        let storage = &storage;
        move || {
            for bytes in list {
                black_box(each(call, black_box(bytes), &mut storage.borrow_mut()));
            }
        }
    };
    for bytes in list {
        let storage = &mut storage.borrow_mut();
        assert_eq!(proved(call, bytes, storage), second(call, bytes, storage), "{name}");
    }
    let (mut ours, mut theirs) = (all(proved), all(second));
    let times = least(&mut [&mut ours, &mut theirs]);
    let count = list.len() as f64;
    let bytes = list.iter().map(Vec::len).sum::<usize>() / list.len();
    let (ours, theirs) = (times[0] / count, times[1] / count);
    println!("{name:<36}{bytes:>9}{ours:>11.0}{theirs:>11.0}{:>9.3}", ours / theirs);
}

/// All sheets of a class by one batch, and by calls with the output that the earlier ones left.
fn batch(class: &Class) {
    let sheets = class.sheets.concat();
    let lengths: Vec<u32> = class.sheets.iter().map(|sheet| sheet.len() as u32).collect();
    let mut results = vec![0u64; lengths.len()];
    let storage = Storage::new();
    let mut one = || {
        let Storage { out, work, .. } = &mut *storage.borrow_mut();
        let slices = [given(&sheets), given(&lengths), lent(out), lent(&mut results), lent(work)];
        black_box(unsafe { linked::call(Call::Batch, black_box(&slices), told(Wish::default())) })
    };
    let each = || {
        let Storage { out, work, .. } = &mut *storage.borrow_mut();
        let mut used = 0;
        for sheet in &class.sheets {
            let answer =
                linked::translate(black_box(sheet), &mut out[used..], work, Wish::default());
            used += if answer >> 32 == 0 { answer as usize } else { 0 };
        }
        black_box(used as u64)
    };
    assert_eq!(one(), each(), "{}", class.name);
    let mut whole = || _ = one();
    let times = least(&mut [&mut whole, &mut || _ = each()]);
    println!(
        "{:<36}{:>9}{:>11.0}{:>11.0}{:>9.3}",
        class.name,
        lengths.len(),
        times[0],
        times[1],
        times[0] / times[1]
    );
}

pub fn print() {
    println!("\nThe other calls: nanoseconds a call, least of {ROUNDS} interleaved runs.");
    println!("{:<36}{:>9}{:>11}{:>11}{:>9}", "call", "bytes", "proved", "second", "pr/sec");
    for pins in [0, 20_000, 400_000] {
        row(Call::Check, "check, 4,096 points and pins", &[ring_with_pins(pins)]);
    }
    for count in [1, 4, 16] {
        row(Call::Back, &format!("back, {count} gates"), &[gates(count)]);
    }
    for class in &classes()[..3] {
        row(Call::Verilog, &format!("verilog, {}", class.name), &class.sheets);
    }
    for text in ordinary().into_iter().chain(families()) {
        row(Call::Make, &format!("make, {}", text.name), &[text.text.into_bytes()]);
    }
    println!(
        "\nA batch: nanoseconds for all sheets of a class, by one call and by a call for each."
    );
    println!("{:<36}{:>9}{:>11}{:>11}{:>9}", "class", "sheets", "batch", "calls", "b/c");
    classes()[..3].iter().for_each(batch);
}
