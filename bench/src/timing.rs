//! Times of several jobs, taken in turn within one process: the least of the rounds counts, since other programs
//! that run on the machine can only add to a time.

use std::time::Instant;

pub const ROUNDS: usize = 61;

/// A round of a job takes at least so many nanoseconds.
const ROUND: u128 = 400_000;

/// Nanoseconds of one run of each job.
pub fn least(jobs: &mut [&mut dyn FnMut()]) -> Vec<f64> {
    let repeats: Vec<u32> = jobs.iter_mut().map(|job| repeats(job)).collect();
    let mut times = vec![Vec::new(); jobs.len()];
    for _ in 0..ROUNDS {
        for (index, job) in jobs.iter_mut().enumerate() {
            times[index].push(run(job, repeats[index]) as f64 / f64::from(repeats[index]));
        }
    }
    times.into_iter().map(|times: Vec<f64>| times.into_iter().fold(f64::MAX, f64::min)).collect()
}

fn run(job: &mut &mut dyn FnMut(), repeats: u32) -> u128 {
    let start = Instant::now();
    for _ in 0..repeats {
        job();
    }
    start.elapsed().as_nanos()
}

/// How often a job is repeated to fill a round; finding out warms it up.
fn repeats(job: &mut &mut dyn FnMut()) -> u32 {
    let mut repeats = 1;
    while run(job, repeats) < ROUND {
        repeats *= 2;
    }
    repeats
}
