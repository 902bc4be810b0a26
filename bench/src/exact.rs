//! A sample of the differential run on slices of exactly their size, each an allocation of its own,
//! so that valgrind sees every step over an end.

use crate::boundary::linked;
use crate::modes::{Mode, MODES};
use crate::request::{told, Case, Cases, Request};
use crate::tally::{Said, Tally};
use second::random::Random;
use std::alloc::{alloc, dealloc, Layout};
use std::ptr::NonNull;

/// Cases above this size are slow under valgrind: of the named ones a few are taken.
const LARGE: usize = 600;

/// .. and above this one they take minutes: the fences of the differential run have to do.
const HUGE: usize = 1 << 20;

/// Whether all is well, for each call.
pub fn exact(count: usize, seed: u64) -> bool {
    MODES.iter().all(|mode| sample(mode, count, seed))
}

/// About COUNT named cases and COUNT generated ones.
fn sample(mode: &Mode, count: usize, seed: u64) -> bool {
    let mut random = Random::new(seed);
    let mut named = (mode.named)(&mut random);
    named.retain(|case| case.size() <= HUGE);
    let every = (named.len() / count.max(1)).max(1);
    let small = named.iter().filter(|case| case.size() <= LARGE).step_by(every);
    let large = named.iter().filter(|case| case.size() > LARGE).step_by(8 * every);
    let named: Vec<&Box<dyn Case>> = small.chain(large).collect();
    let generated = (0..).flat_map(|index| (mode.generated)(&mut random, index));
    let generated: Cases = generated.filter(|case| case.size() <= LARGE).take(count).collect();
    let mut tally = Tally::of(named.len(), generated.len());
    for case in named.into_iter().chain(&generated) {
        let request = case.request(&mut random);
        tally.calls += 1;
        if let Err(what) = run(&request) {
            println!("DIFFERENCE: {what}\n{}", told(&request));
            return false;
        }
        tally.count(&request.keys);
    }
    tally.print(mode.call.name());
    println!("{}: differences 0", mode.call.name());
    true
}

fn run(request: &Request) -> Result<(), String> {
    let lent: Vec<Own> = request.slices.iter().map(|slice| Own::of(&slice.before)).collect();
    let both = lent.iter().zip(&request.slices);
    let slices: Vec<(*mut u8, usize)> = both.map(|(own, slice)| (own.at, slice.count())).collect();
    let answer = unsafe { linked::call(request.call, &slices, request.last) };
    if answer != request.wanted {
        return Err(format!("answer {}, wanted {}", Said(answer), Said(request.wanted)));
    }
    let differs = lent.iter().zip(&request.slices).find(|(own, slice)| own.held() != slice.after());
    differs.map_or(Ok(()), |(_, slice)| Err(format!("{} differs", slice.name)))
}

/// An allocation of so many bytes, where any numbers may lie.
struct Own {
    at: *mut u8,
    layout: Layout,
}

impl Own {
    fn of(bytes: &[u8]) -> Own {
        let layout = Layout::from_size_align(bytes.len(), align_of::<u64>()).expect("a layout");
        let at = match bytes.len() {
            0 => NonNull::<u64>::dangling().as_ptr().cast(),
            _ => unsafe { alloc(layout) },
        };
        assert!(!at.is_null(), "no memory");
        unsafe { at.copy_from_nonoverlapping(bytes.as_ptr(), bytes.len()) };
        Own { at, layout }
    }

    fn held(&self) -> &[u8] {
        unsafe { std::slice::from_raw_parts(self.at, self.layout.size()) }
    }
}

impl Drop for Own {
    fn drop(&mut self) {
        if self.layout.size() > 0 {
            unsafe { dealloc(self.at, self.layout) }
        }
    }
}
