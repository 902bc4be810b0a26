//! From netlists back to sheets (L11): named ones, then generated ones, most of them without points and
//! near the limits of 16 parts and 24 open inputs.

use crate::boundary::Call;
use crate::modes::{some_memory, some_room};
use crate::request::{Case, Cases, Request, Slice, Storage};
use crate::tally::Key;
use second::back::{back, call};
use second::edges_back;
use second::nets::{for_back, Given};
use second::random::Random;
use second::sheet::MEMORY;

struct Back {
    given: Given,
    room: usize,
    memory: usize,
}

impl Case for Back {
    fn size(&self) -> usize {
        self.given.net.len()
    }

    fn request(&self, random: &mut Random) -> Request {
        let Given { net, lean } = &self.given;
        let mut lent = Storage::new(random, self.room, self.memory);
        let wanted = call(net, &mut lent.out, &mut lent.work, *lean);
        let keys = vec![Key::number(if *lean { "lean" } else { "full" }, wanted)];
        let slices = vec![Slice::given("netlist", net), lent.out(), lent.work()];
        Request { call: Call::Back, slices, last: (*lean).into(), wanted, keys }
    }
}

pub fn due() -> Vec<Key> {
    let numbers = [0, 1, 17, 21, 22, 23, 25, 26];
    numbers.iter().flat_map(|number| ["full", "lean"].map(|kind| Key::new(kind, number))).collect()
}

/// Each in its room, in one byte less and in none; and with too little memory.
pub fn named(_: &mut Random) -> Cases {
    let mut cases = Cases::new();
    for edge in edges_back::edges() {
        let needed = edge.answer.map_or(50, |sheet| sheet.len());
        for (room, memory) in
            [(needed, MEMORY), (needed - 1, MEMORY + 1), (0, MEMORY), (needed, MEMORY - 1)]
        {
            let given = Given { net: edge.net.clone(), lean: edge.lean };
            cases.push(Box::new(Back { given, room, memory }));
        }
    }
    cases
}

pub fn generated(random: &mut Random, index: usize) -> Cases {
    let given = for_back(random, index);
    let needed = back(&given.net, given.lean, usize::MAX, MEMORY).ok().map(|sheet| sheet.len());
    let (room, memory) = (some_room(random, needed), some_memory(random));
    vec![Box::new(Back { given, room, memory })]
}
