//! The proved calls against the second program, call by call: the answer, every slice from end to end,
//! and the guard bytes.

use crate::boundary::{header_and_archive, Boundary};
use crate::crash;
use crate::fences::{Fences, Place};
use crate::modes::{Mode, MODES};
use crate::put_in;
use crate::request::{paint, told, Case, Request};
use crate::tally::{Said, Tally};
use second::random::Random;

/// Lends slices within fences.
pub struct Lender {
    fences: Fences,
    boundary: Boundary,
}

impl Lender {
    pub fn new() -> Lender {
        let fences = Fences::new();
        let boundary = Boundary::new(&fences);
        Lender { fences, boundary }
    }

    /// The answer and all that the call was lent, or what differs.
    pub fn tried(&mut self, request: &Request, salt: u64) -> Result<(), String> {
        let places = lay(&mut self.fences, request, salt);
        let (fences, boundary) = (&self.fences, &mut self.boundary);
        let ask = || boundary.call(fences, request.call, &places, request.last);
        let answer = crash::during(request, ask)?;
        if answer != request.wanted {
            return Err(format!("answer {}, wanted {}", Said(answer), Said(request.wanted)));
        }
        for (slice, place) in request.slices.iter().zip(places) {
            self.same(slice.name, place, slice.after(), salt)?;
        }
        Ok(())
    }

    /// The first byte that differs, counted from the slice's start (guard bytes before it are negative).
    fn same(&self, what: &str, place: Place, wanted: &[u8], salt: u64) -> Result<(), String> {
        let (offset, length, before) = place.guarded();
        let mut all = vec![0; length];
        let (guard, held) = ends(&mut all, before, wanted.len());
        paint_mut(guard, salt);
        held.copy_from_slice(wanted);
        let got = self.fences.bytes(offset, length);
        if got == all {
            return Ok(());
        }
        let at = got.iter().zip(&all).position(|(one, other)| one != other).unwrap_or(0);
        let from_start = at as isize - before as isize;
        Err(format!("{what} byte {from_start}: {:02x}, wanted {:02x}", got[at], all[at]))
    }
}

/// The slices and their guard bytes, each against a fence by lot.
pub fn lay(fences: &mut Fences, request: &Request, salt: u64) -> Vec<Place> {
    let mut places = Vec::new();
    for (which, slice) in request.slices.iter().enumerate() {
        let at_end = salt >> (32 + which) & 1 == 1;
        let place = fences.place(which, slice.count(), slice.size, at_end);
        let (offset, length, before) = place.guarded();
        let lent = fences.bytes_mut(offset, length);
        let (guard, held) = ends(lent, before, slice.before.len());
        paint_mut(guard, salt);
        held.copy_from_slice(&slice.before);
        places.push(place);
    }
    places
}

/// The guard bytes, which lie before the slice or behind it, and the slice.
fn ends(all: &mut [u8], before: usize, length: usize) -> (&mut [u8], &mut [u8]) {
    if before > 0 {
        all.split_at_mut(before)
    } else {
        let (held, guard) = all.split_at_mut(length);
        (guard, held)
    }
}

fn paint_mut(guard: &mut [u8], salt: u64) {
    paint(guard, (salt >> 16) as u8);
}

/// A mode's named cases, then generated ones: its share of COUNT. Err tells the first difference.
fn run(mode: &Mode, count: usize, seed: u64) -> Result<Tally, String> {
    let mut random = Random::new(seed);
    let mut lender = Lender::new();
    let mut tally = Tally::default();
    let mut attempt = |case: &dyn Case, random: &mut Random, tally: &mut Tally| {
        let request = case.request(random);
        if !request.fits() {
            tally.too_long += 1;
            return Ok(());
        }
        let tried = lender.tried(&request, random.draw());
        tried.map_err(|what| format!("{what}\n{}", told(&request)))?;
        tally.calls += 1;
        tally.count(&request.keys);
        Ok::<(), String>(())
    };
    for case in (mode.named)(&mut random) {
        let before = tally.calls;
        attempt(&*case, &mut random, &mut tally)?;
        if tally.calls == before {
            return Err(format!("a named case of {} bytes was not tried: no room", case.size()));
        }
        tally.named += 1;
    }
    for index in 0..mode.share(count) {
        for case in (mode.generated)(&mut random, index) {
            attempt(&*case, &mut random, &mut tally)?;
        }
        tally.generated += 1;
    }
    Ok(tally)
}

/// All modes, or those named; and that users are told of the calls that the archive has: whether all is well.
pub fn differential(count: usize, seed: u64, only: &[String]) -> bool {
    crash::watch();
    let mut well = header_and_archive();
    for mode in &MODES {
        let call = mode.call;
        if only.is_empty() || only.iter().any(|name| name == call.name()) {
            well &= report(mode, run(mode, count, seed));
        }
    }
    if only.is_empty() || only.iter().any(|name| name == "put-in") {
        well &= put_in::run(count / 10, seed);
    }
    well
}

fn report(mode: &Mode, result: Result<Tally, String>) -> bool {
    match result {
        Err(difference) => {
            println!("DIFFERENCE: {difference}");
            println!("{}: differences 1 (stopped at the first)", mode.call.name());
            false
        }
        Ok(tally) => {
            tally.print(mode.call.name());
            println!("{}: differences 0", mode.call.name());
            let missing = tally.missing(&(mode.due)());
            if !missing.is_empty() {
                println!("never occurred: {}", missing.join(", "));
            }
            missing.is_empty()
        }
    }
}
