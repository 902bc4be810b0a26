//! Verilog (L1): named modules, then the modules of generated circuits in rooms near their lengths.

use crate::boundary::Call;
use crate::modes::{some_memory, some_room};
use crate::request::{Case, Cases, Request, Slice, Storage};
use crate::tally::Key;
use crate::try_translate::near_limit;
use second::random::Random;
use second::sheet::MEMORY;
use second::verilog::{call, exported};
use second::{circuits, edges_verilog};

struct Export {
    sheet: Vec<u8>,
    room: usize,
    memory: usize,
}

impl Case for Export {
    fn size(&self) -> usize {
        self.sheet.len()
    }

    fn request(&self, random: &mut Random) -> Request {
        let mut lent = Storage::new(random, self.room, self.memory);
        let wanted = call(&self.sheet, &mut lent.out, &mut lent.work);
        let slices = vec![Slice::given("sheet", &self.sheet), lent.out(), lent.work()];
        let keys = vec![Key::number("answers", wanted)];
        Request { call: Call::Verilog, slices, last: 0, wanted, keys }
    }
}

pub fn due() -> Vec<Key> {
    let numbers = [0, 1, 3, 4, 12, 13, 14, 16, 17, 18];
    numbers.map(|number| Key::new("answers", number)).to_vec()
}

/// Each in its room, in one byte less and in none; and with too little memory.
pub fn named(_: &mut Random) -> Cases {
    let mut cases = Cases::new();
    for edge in edges_verilog::edges() {
        let needed = edge.answer.unwrap_or(100);
        for (room, memory) in
            [(needed, MEMORY), (needed - 1, MEMORY + 1), (0, MEMORY), (needed, MEMORY - 1)]
        {
            cases.push(Box::new(Export { sheet: edge.sheet.clone(), room, memory }));
        }
    }
    cases
}

pub fn generated(random: &mut Random, index: usize) -> Cases {
    let sheet = match index % 50 {
        7 => near_limit(random),
        _ => circuits::any(random, index),
    };
    let needed = exported(&sheet, usize::MAX, MEMORY).ok().map(|text| text.len());
    let (room, memory) = (some_room(random, needed), some_memory(random));
    vec![Box::new(Export { sheet, room, memory })]
}
