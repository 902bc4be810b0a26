//! What is tried of each call.

use crate::boundary::Call;
use crate::request::Cases;
use crate::tally::Key;
use crate::{
    try_back, try_batch, try_check, try_lanes, try_make, try_never, try_run, try_translate,
    try_verilog,
};
use second::netlist::ENOUGH;
use second::random::Random;
use second::sheet::MEMORY;

pub struct Mode {
    pub call: Call,
    /// The named edges of the second program.
    pub named: fn(&mut Random) -> Cases,
    /// Generated ones, by index.
    pub generated: fn(&mut Random, usize) -> Cases,
    /// What has to occur.
    pub due: fn() -> Vec<Key>,
    /// So many hundredths of COUNT are generated.
    hundredths: usize,
}

impl Mode {
    pub fn share(&self, count: usize) -> usize {
        count * self.hundredths / 100
    }
}

#[rustfmt::skip]
pub const MODES: [Mode; 9] = [
    Mode { call: Call::Translate, named: try_translate::named, generated: try_translate::generated, due: try_translate::due, hundredths: 50 },
    Mode { call: Call::Batch, named: try_batch::named, generated: try_batch::generated, due: try_batch::due, hundredths: 20 },
    Mode { call: Call::Verilog, named: try_verilog::named, generated: try_verilog::generated, due: try_verilog::due, hundredths: 40 },
    Mode { call: Call::Run, named: try_run::named, generated: try_run::generated, due: try_run::due, hundredths: 60 },
    Mode { call: Call::Check, named: try_check::named, generated: try_check::generated, due: try_check::due, hundredths: 200 },
    Mode { call: Call::Back, named: try_back::named, generated: try_back::generated, due: try_back::due, hundredths: 100 },
    Mode { call: Call::Lanes, named: try_lanes::named, generated: try_lanes::generated, due: try_lanes::due, hundredths: 50 },
    Mode { call: Call::Never, named: try_never::named, generated: try_never::generated, due: try_never::due, hundredths: 100 },
    Mode { call: Call::Make, named: try_make::named, generated: try_make::generated, due: try_make::due, hundredths: 100 },
];

/// Room near what is needed, or anything; `needed` is None where nothing is written.
pub fn some_room(random: &mut Random, needed: Option<usize>) -> usize {
    let needed = needed.unwrap_or(100);
    match random.below(10) {
        0 => 0,
        1 => needed + 1,
        2 => random.below(needed + 1),
        3 => random.below(ENOUGH + 1),
        4 => random.within(needed, 2 * needed),
        5 | 6 => needed,
        7 => needed.saturating_sub(1),
        8 => ENOUGH + random.below(5_000),
        _ => ENOUGH.max(needed),
    }
}

pub fn some_memory(random: &mut Random) -> usize {
    match random.below(32) {
        0 => 0,
        1 => MEMORY - 1,
        2 => random.below(MEMORY),
        3..=6 => MEMORY + 1,
        7..=10 => MEMORY + random.below(8_192),
        _ => MEMORY,
    }
}
