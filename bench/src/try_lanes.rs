//! Sixteen traces at once: named runs, then generated ones; runs in two windows, held to one run of both; and
//! the call `run` on the bits of one lane, held to what that lane has.

use crate::boundary::Call;
use crate::request::{painted, Case, Cases, Request, Slice};
use crate::tally::Key;
use crate::try_translate::{near_limit, EDITIONS};
use second::lane_runs::{any, fitting, Lanes};
use second::lanes::{lane_of, left, Left, Traces, LANES};
use second::random::Random;
use second::sheet::{Edition, MEMORY};
use second::{circuits, edges_lanes, word, Refusal};
use std::rc::Rc;

/// What the second program leaves.
fn wanted(lanes: &Lanes) -> Result<Left, Refusal> {
    let Lanes { sheet, ticks, inputs, state, room, memory } = lanes;
    left(sheet, Traces { ticks: *ticks, inputs, state }, *room, *memory)
}

/// The request of a call that is to leave this, with `written` in front of the output.
fn request(random: &mut Random, lanes: &Lanes, result: Result<Left, Refusal>) -> Request {
    let out = painted(random, lanes.room);
    let work = painted(random, lanes.memory);
    let (mut out_after, mut work_after) = (out.clone(), work.clone());
    if work.len() >= MEMORY {
        work_after[..MEMORY].fill(0);
    }
    let mut state_after = lanes.state.clone();
    if let Ok(left) = &result {
        out_after[..left.out.len()].copy_from_slice(&left.out);
        state_after.clone_from(&left.state);
    }
    let slices = vec![
        Slice::given("sheet", &lanes.sheet),
        Slice::given("inputs", &lanes.inputs),
        Slice::lent("state", &lanes.state, &state_after),
        Slice::lent("output", &out, &out_after),
        Slice::lent("memory", &work, &work_after),
    ];
    let wanted = word(result.map(|left| left.out.len()));
    Request { call: Call::Lanes, slices, last: lanes.ticks.into(), wanted, keys: Vec::new() }
}

fn size(lanes: &Lanes) -> usize {
    lanes.sheet.len() + 2 * (lanes.inputs.len() + lanes.room)
}

struct Tried(Rc<Lanes>);

impl Case for Tried {
    fn size(&self) -> usize {
        size(&self.0)
    }

    fn request(&self, random: &mut Random) -> Request {
        let lanes = &*self.0;
        let mut request = request(random, lanes, wanted(lanes));
        let edition = EDITIONS[Edition::of(&lanes.sheet).mark()];
        request.keys = vec![Key::number(edition, request.wanted)];
        if request.wanted >> 32 == 0 {
            request.keys.extend(kinds(lanes));
        }
        request
    }
}

const ACCEPTED: &str = "accepted";
const KINDS: [&str; 6] =
    ["with registers", "no registers", "with inputs", "no inputs", "ticks", "no tick"];

/// What an accepted run has, and has not.
fn kinds(lanes: &Lanes) -> [Key; 3] {
    let registers = usize::from(lanes.state.is_empty());
    let inputs = 2 + usize::from(lanes.inputs.is_empty());
    let ticks = 4 + usize::from(lanes.ticks == 0);
    [registers, inputs, ticks].map(|kind| Key::new(ACCEPTED, KINDS[kind]))
}

/// One of the two windows of an accepted run, the first `cut` ticks or the later ones. What it is to write is
/// its part of the whole run's output; the later one is to leave the whole run's state.
struct Window {
    whole: Rc<Lanes>,
    cut: u16,
    later: bool,
}

impl Window {
    fn ticks(&self) -> u16 {
        if self.later {
            self.whole.ticks - self.cut
        } else {
            self.cut
        }
    }

    /// The first numbers of a list of so many ticks, or the later ones.
    fn part(&self, numbers: &[u16]) -> Vec<u16> {
        let width = numbers.len() / usize::from(self.whole.ticks).max(1);
        let (first, later) = numbers.split_at(width * usize::from(self.cut));
        if self.later { later } else { first }.to_vec()
    }
}

const JOINED: &str = "windows";

impl Case for Window {
    fn size(&self) -> usize {
        size(&self.whole)
    }

    fn request(&self, random: &mut Random) -> Request {
        let whole = &*self.whole;
        let all = wanted(whole).expect("an accepted run has windows");
        let first = Window { whole: self.whole.clone(), cut: self.cut, later: false };
        let begun = Lanes { ticks: self.cut, inputs: first.part(&whole.inputs), ..whole.clone() };
        let between = wanted(&begun).expect("a window of an accepted run").state;
        let (before, after) = match self.later {
            true => (between, all.state.clone()),
            false => (whole.state.clone(), between),
        };
        let result = Left { out: self.part(&all.out), state: after };
        let room = result.out.len() + random.below(3);
        let inputs = self.part(&whole.inputs);
        let window = Lanes { ticks: self.ticks(), inputs, state: before, room, ..whole.clone() };
        let mut request = request(random, &window, Ok(result));
        let kind = if whole.state.is_empty() { "no registers" } else { "with registers" };
        request.keys = vec![Key::new(JOINED, kind)];
        request
    }
}

/// A call of `run` with the bits of one lane: it is to answer and write what that lane has.
struct Lane {
    lanes: Rc<Lanes>,
    lane: usize,
}

const ALONE: &str = "run, by lane";

impl Case for Lane {
    fn size(&self) -> usize {
        size(&self.lanes)
    }

    fn request(&self, random: &mut Random) -> Request {
        let lanes = &*self.lanes;
        let result = wanted(lanes).map(|left| lane_of(&left.out, self.lane));
        let mut lent = crate::request::Storage::new(random, lanes.room, lanes.memory);
        if let Ok(shown) = &result {
            lent.out[..shown.len()].copy_from_slice(shown);
        }
        if lent.work.len() >= MEMORY {
            lent.work[..MEMORY].fill(0);
        }
        let slices = vec![
            Slice::given("sheet", &lanes.sheet),
            Slice::given("inputs", &lane_of(&lanes.inputs, self.lane)),
            Slice::given("starts", &lane_of(&lanes.state, self.lane)),
            lent.out(),
            lent.work(),
        ];
        let wanted = word(result.map(|shown| shown.len()));
        let keys = vec![Key::new(ALONE, self.lane)];
        Request { call: Call::Run, slices, last: lanes.ticks.into(), wanted, keys }
    }
}

/// Every answer in each edition; runs of every kind; windows; each lane by itself.
pub fn due() -> Vec<Key> {
    let numbers = (0..=17).chain([19, 20]);
    let answers = numbers.flat_map(|number| EDITIONS.map(|edition| Key::new(edition, number)));
    let kinds = KINDS.map(|kind| Key::new(ACCEPTED, kind));
    let windows = ["with registers", "no registers"].map(|kind| Key::new(JOINED, kind));
    let lanes = (0..LANES).map(|lane| Key::new(ALONE, lane));
    answers.chain(kinds).chain(windows).chain(lanes).collect()
}

/// As they stand, with a number more and one less of memory; the largest room once.
pub fn named(_: &mut Random) -> Cases {
    const LARGEST: usize = 1 << 20;
    let mut cases = Cases::new();
    for edge in edges_lanes::edges() {
        let memories = [MEMORY + 1, MEMORY - 1, MEMORY];
        let some = if edge.lanes.room > LARGEST { 2 } else { 3 };
        for memory in memories.into_iter().take(some) {
            cases.push(Box::new(Tried(Rc::new(Lanes { memory, ..edge.lanes.clone() }))));
        }
    }
    cases
}

/// A run; a third of them by lane too, and a third of the accepted ones in windows.
pub fn generated(random: &mut Random, index: usize) -> Cases {
    let lanes = Rc::new(match index % 100 {
        7 => {
            let sheet = near_limit(random);
            fitting(random, sheet, 2)
        }
        57 => {
            let sheet = circuits::large_circuit(random);
            fitting(random, sheet, 9)
        }
        _ => any(random, index),
    });
    let mut cases: Cases = vec![Box::new(Tried(lanes.clone()))];
    match index % 3 {
        0 if wanted(&lanes).is_ok() => {
            let cut = random.below(usize::from(lanes.ticks) + 1) as u16;
            for later in [false, true] {
                cases.push(Box::new(Window { whole: lanes.clone(), cut, later }));
            }
        }
        1 => {
            let first = random.below(LANES);
            for lane in [first, (first + 1 + random.below(LANES - 1)) % LANES] {
                cases.push(Box::new(Lane { lanes: lanes.clone(), lane }));
            }
        }
        _ => {}
    }
    cases
}
