//! Whether a pin is ever 1: named questions, then generated ones. The trace that is wanted is the second program's,
//! run once more: the pin shows 1 at its last tick, and at none before.

use crate::boundary::Call;
use crate::request::{painted, Case, Cases, Request, Slice, Storage};
use crate::tally::{Key, Said};
use second::edges_never;
use second::never::call;
use second::nevers::{any, Never};
use second::random::Random;
use second::run::{ran, runnable, Trace};
use second::sheet::MEMORY;

struct Tried(Never);

impl Case for Tried {
    fn size(&self) -> usize {
        self.0.sheet.len() + 4 * (self.0.trail + self.0.queue)
    }

    fn request(&self, random: &mut Random) -> Request {
        let Never { sheet, starts, pin, trail, queue, room, memory } = &self.0;
        let mut lent = Storage::new(random, *room, *memory);
        let before = (wide(random, *trail), wide(random, *queue));
        let (mut trail, mut queue) = before.clone();
        let (out, work) = (&mut lent.out, &mut lent.work);
        let wanted = call(sheet, starts, &mut trail, &mut queue, out, work, *pin);
        let slices = vec![
            Slice::given("sheet", sheet),
            Slice::given("starts", starts),
            Slice::lent("trail", &before.0, &trail),
            Slice::lent("queue", &before.1, &queue),
            lent.out(),
            lent.work(),
        ];
        let keys = keys(&self.0, wanted, &lent.out);
        Request { call: Call::Never, slices, last: (*pin).into(), wanted, keys }
    }
}

/// Painted numbers of 32 bits.
fn wide(random: &mut Random, count: usize) -> Vec<u32> {
    let halves: Vec<u16> = painted(random, 2 * count);
    halves.chunks(2).map(|two| u32::from(two[0]) << 16 | u32::from(two[1])).collect()
}

fn keys(never: &Never, wanted: u64, out: &[u8]) -> Vec<Key> {
    let mut keys = vec![Key::number("answers", wanted)];
    match Said(wanted).number() {
        0 => keys.push(Key::new("states", Said(wanted).value().ilog2())),
        40 => {
            let tick = Said(wanted).value();
            let shown = if shows(never, tick, out) { "that show it" } else { "without room" };
            keys.push(Key::new("first ticks", first(tick)));
            keys.push(Key::new("traces", shown));
        }
        _ => {}
    }
    keys
}

fn first(tick: usize) -> String {
    match tick {
        0..=9 => tick.to_string(),
        10..=19 => "10 to 19".into(),
        _ => "later".into(),
    }
}

/// Whether a trace was written; it is run, and must show 1 at this tick first.
fn shows(never: &Never, tick: usize, out: &[u8]) -> bool {
    let (width, registers, outputs) = runnable(&never.sheet, MEMORY).expect("a circuit").counts();
    let length = registers + (tick + 1) * width;
    if out.len() < length {
        return false;
    }
    let (starts, inputs) = out[..length].split_at(registers);
    let trace = Trace { ticks: tick as u16 + 1, inputs, starts };
    let shown = ran(&never.sheet, trace, usize::MAX, MEMORY).expect("the trace is a run's");
    let bits: Vec<u8> = shown.iter().skip(never.pin.into()).step_by(outputs).copied().collect();
    assert!(
        bits[..tick].iter().all(|&bit| bit == 0) && bits[tick] == 1,
        "a trace that does not show it"
    );
    true
}

pub fn due() -> Vec<Key> {
    let numbers = [0, 1, 3, 12, 13, 14, 19, 40, 41, 42, 43, 44, 45];
    let answers = numbers.map(|number| Key::new("answers", number));
    let ticks = ["0", "1", "2", "3", "4", "5", "6", "10 to 19", "later"]
        .map(|tick| Key::new("first ticks", tick));
    let traces = ["that show it", "without room"].map(|kind| Key::new("traces", kind));
    [answers.as_slice(), &ticks, &traces].concat()
}

/// As they stand, and small ones with a number more and one less of memory.
pub fn named(_: &mut Random) -> Cases {
    let mut cases = Cases::new();
    for edge in edges_never::edges() {
        for memory in [MEMORY, MEMORY + 1, MEMORY - 1] {
            if memory == MEMORY || edge.never.trail < 1_000 {
                cases.push(Box::new(Tried(Never { memory, ..edge.never.clone() })));
            }
        }
    }
    cases
}

pub fn generated(random: &mut Random, index: usize) -> Cases {
    vec![Box::new(Tried(any(random, index)))]
}
