//! Runs (L4): named ones, then generated ones with bits, ticks and rooms right or wrong by a little.

use crate::boundary::Call;
use crate::request::{Case, Cases, Request, Slice, Storage};
use crate::tally::Key;
use crate::try_translate::near_limit;
use second::random::Random;
use second::run::call;
use second::runs::{any, fitting, Run};
use second::sheet::MEMORY;
use second::{circuits, edges_run};

pub struct Tried(pub Run);

impl Case for Tried {
    fn size(&self) -> usize {
        self.0.sheet.len() + self.0.inputs.len() + self.0.room
    }

    fn request(&self, random: &mut Random) -> Request {
        let Run { sheet, ticks, inputs, starts, room, memory } = &self.0;
        let mut lent = Storage::new(random, *room, *memory);
        let wanted = call(sheet, inputs, starts, &mut lent.out, &mut lent.work, *ticks);
        let slices = vec![
            Slice::given("sheet", sheet),
            Slice::given("inputs", inputs),
            Slice::given("starts", starts),
            lent.out(),
            lent.work(),
        ];
        let mut keys = vec![Key::number("answers", wanted)];
        if wanted >> 32 == 0 {
            let kind = if starts.is_empty() { "without registers" } else { "with registers" };
            keys.push(Key::new("accepted", kind));
        }
        Request { call: Call::Run, slices, last: (*ticks).into(), wanted, keys }
    }
}

pub fn due() -> Vec<Key> {
    let numbers = [0, 1, 3, 12, 13, 14, 16, 17, 19, 20];
    numbers.map(|number| Key::new("answers", number)).to_vec()
}

/// As they stand, with a number more and one less of memory.
pub fn named(_: &mut Random) -> Cases {
    let mut cases = Cases::new();
    for edge in edges_run::edges() {
        for memory in [MEMORY, MEMORY + 1, MEMORY - 1] {
            cases.push(Box::new(Tried(Run { memory, ..edge.run.clone() })));
        }
    }
    cases
}

pub fn generated(random: &mut Random, index: usize) -> Cases {
    let run = match index % 100 {
        7 => {
            let sheet = near_limit(random);
            fitting(random, sheet, 2)
        }
        57 => {
            let sheet = circuits::large_circuit(random);
            fitting(random, sheet, 9)
        }
        _ => any(random, index),
    };
    vec![Box::new(Tried(run))]
}
