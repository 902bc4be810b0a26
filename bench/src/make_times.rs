//! Times of `make`: ordinary texts beside `translate` of their sheets, and the texts that take longest; and whether they
//! keep their limits.

use crate::boundary::{linked, Call};
use crate::texts::{families, ordinary, slow, Text};
use crate::timing::{least, ROUNDS};
use second::notation_make::make;
use second::sheet::MEMORY;
use second::Wish;
use std::cell::RefCell;
use std::hint::black_box;
use std::time::Instant;

/// A text takes less than so many times as long as `translate` of its sheet.
const TRANSLATIONS: f64 = 5.0;

/// No text takes more seconds.
const MOST: f64 = 0.5;

/// A text that takes long is timed so often.
const TIMES: usize = 3;

/// What `make` and `translate` write to.
struct Storage {
    out: Vec<u8>,
    places: Vec<u16>,
    work: Vec<u16>,
}

impl Storage {
    fn new() -> Storage {
        Storage { out: vec![0; 1 << 16], places: vec![0; 2_048], work: vec![0; MEMORY] }
    }

    fn make(&mut self, text: &str) -> u64 {
        let lent = [
            (text.as_ptr().cast_mut(), text.len()),
            (self.out.as_mut_ptr(), self.out.len()),
            (self.places.as_mut_ptr().cast(), self.places.len()),
            (self.work.as_mut_ptr().cast(), self.work.len()),
        ];
        unsafe { linked::call(Call::Make, black_box(&lent), 0) }
    }

    fn translate(&mut self, sheet: &[u8]) -> u64 {
        linked::translate(black_box(sheet), &mut self.out, &mut self.work, Wish::default())
    }
}

/// An ordinary text: whether it is made in less time than five translations of its sheet take.
fn beside_translate(Text { name, text }: &Text) -> bool {
    let made = make(text.as_bytes()).unwrap_or_else(|why| panic!("{name}: {why:?}"));
    let storage = RefCell::new(Storage::new());
    let (lines, nodes) = (text.lines().count(), made.places.len());
    assert_eq!(storage.borrow_mut().make(text), made.sheet.len() as u64, "{name}");
    assert_eq!(storage.borrow_mut().translate(&made.sheet) >> 32, 0, "{name} is no circuit");
    let mut ours = || _ = black_box(storage.borrow_mut().make(text));
    let mut translations = || _ = black_box(storage.borrow_mut().translate(&made.sheet));
    let times = least(&mut [&mut ours, &mut translations]);
    let ratio = times[0] / times[1];
    let (make, translate) = (times[0] / 1_000.0, times[1] / 1_000.0);
    println!("{name:<36}{lines:>6}{nodes:>7}{make:>10.1}{translate:>11.1}{ratio:>7.2}");
    ratio < TRANSLATIONS
}

/// One that takes long: whether it keeps within half a second. What it answers is worked out by the second program.
fn alone(Text { name, text }: &Text) -> bool {
    let mut storage = Storage::new();
    let mut timed = |run: &mut dyn FnMut(&mut Storage) -> u64| {
        let start = Instant::now();
        let answer = run(&mut storage);
        (answer, start.elapsed().as_secs_f64())
    };
    let ours: Vec<(u64, f64)> = (0..TIMES).map(|_| timed(&mut |to| to.make(text))).collect();
    let (wanted, second) = timed(&mut |to| {
        second::notation_make::call(text.as_bytes(), &mut to.out, &mut to.places, &mut to.work)
    });
    assert!(ours.iter().all(|(answer, _)| *answer == wanted), "{name}");
    let seconds = ours.iter().map(|(_, seconds)| *seconds).fold(f64::MAX, f64::min);
    let said = match wanted >> 32 {
        0 => "made".to_string(),
        number => number.to_string(),
    };
    let (bytes, ours, second) = (text.len(), 1_000.0 * seconds, 1_000.0 * second);
    println!("{name:<36}{bytes:>6}{said:>7}{ours:>10.1}{second:>11.1}");
    seconds <= MOST
}

/// The tables, and whether all limits are kept.
pub fn print() -> bool {
    println!("\nTexts of 200 lines: microseconds, least of {ROUNDS} interleaved runs; made in less than {TRANSLATIONS} translations.");
    println!(
        "{:<36}{:>6}{:>7}{:>10}{:>11}{:>7}",
        "text", "lines", "nodes", "make", "translate", "m/t"
    );
    let quick = ordinary().iter().filter(|text| !beside_translate(text)).count();
    println!("Over the blocks' library, whose families are worked out anew at each use: no limit.");
    families().iter().for_each(|text| _ = beside_translate(text));
    println!("\nThe texts that take longest: milliseconds, least of {TIMES}; at most {MOST} seconds each.");
    println!("{:<36}{:>6}{:>7}{:>10}{:>11}", "text", "bytes", "answer", "make", "second");
    let long = slow().iter().filter(|text| !alone(text)).count();
    println!("make: {} limits passed", quick + long);
    quick + long == 0
}
