//! From texts to sheets (docs/NOTATION.md): the named texts, then generated ones, whole, near a limit and damaged.

use crate::boundary::Call;
use crate::modes::{some_memory, some_room};
use crate::request::{painted, Case, Cases, Request, Slice, Storage};
use crate::tally::{Key, Said};
use second::edges_notation::{edges, within_the_limits};
use second::notation_make::{call, make};
use second::notation_texts::any;
use second::random::Random;
use second::sheet::MEMORY;
use std::rc::Rc;

/// What a text that means no sheet is lent: any room does.
const SOME: (usize, usize) = (50, 20);

/// A sheet has at most so many nodes.
const NODES: usize = 2_048;

struct Tried {
    text: Rc<[u8]>,
    room: usize,
    places: usize,
    memory: usize,
}

impl Case for Tried {
    fn size(&self) -> usize {
        self.text.len()
    }

    fn request(&self, random: &mut Random) -> Request {
        let mut lent = Storage::new(random, self.room, self.memory);
        let before = painted(random, self.places);
        let mut places = before.clone();
        let wanted = call(&self.text, &mut lent.out, &mut places, &mut lent.work);
        let slices = vec![
            Slice::given("text", &self.text),
            lent.out(),
            Slice::lent("places", &before, &places),
            lent.work(),
        ];
        Request { call: Call::Make, slices, last: 0, wanted, keys: keys(wanted, &lent.out) }
    }
}

/// The answer; of a sheet its edition, and its bytes by their order of magnitude.
fn keys(wanted: u64, out: &[u8]) -> Vec<Key> {
    let mut keys = vec![Key::number("answers", wanted)];
    if Said(wanted).number() == 0 {
        let edition = if out[0] == 0x31 { "second" } else { "first" };
        keys.push(Key::new("editions", edition));
        keys.push(Key::new("bytes from 2 to the", Said(wanted).value().ilog2()));
    }
    keys
}

pub fn due() -> Vec<Key> {
    let answers = [0, 1, 17].into_iter().chain(30..=37).map(|number| Key::new("answers", number));
    let editions = ["first", "second"].map(|edition| Key::new("editions", edition));
    answers.chain(editions).collect()
}

/// Bytes and nodes of a text's sheet.
fn needed(text: &[u8]) -> Option<(usize, usize)> {
    make(text).ok().map(|made| (made.sheet.len(), made.places.len()))
}

/// Each in its room, in one byte less and in none; with one place less and with none; with one byte and one place less, which is
/// 17; and with a number more and one less of memory.
pub fn named(_: &mut Random) -> Cases {
    let at_limits = within_the_limits().into_iter().map(|(_, text)| text.into_bytes());
    let texts = edges().into_iter().map(|edge| edge.text).chain(at_limits);
    let mut cases = Cases::new();
    for text in texts.map(Rc::<[u8]>::from) {
        let (room, places) = needed(&text).unwrap_or(SOME);
        let lent = [
            (room, places, MEMORY),
            (room - 1, places, MEMORY + 1),
            (0, places, MEMORY),
            (room, places - 1, MEMORY),
            (room + 1, 0, MEMORY),
            (room - 1, places - 1, MEMORY),
            (room + 1, places + 1, MEMORY + 1),
            (room, places, MEMORY - 1),
        ];
        for (room, places, memory) in lent {
            cases.push(Box::new(Tried { text: text.clone(), room, places, memory }));
        }
    }
    cases
}

pub fn generated(random: &mut Random, index: usize) -> Cases {
    let text: Rc<[u8]> = any(random, index).into();
    let needed = needed(&text);
    let room = some_room(random, needed.map(|(bytes, _)| bytes));
    let places = some_places(random, needed.map_or(SOME.1, |(_, nodes)| nodes));
    vec![Box::new(Tried { text, room, places, memory: some_memory(random) })]
}

/// Places near what is needed, or what always does.
fn some_places(random: &mut Random, needed: usize) -> usize {
    match random.below(8) {
        0 => needed - 1,
        1 => random.below(needed + 1),
        2 => needed + 1,
        3 => needed,
        4 => random.below(NODES + 1),
        _ => NODES,
    }
}
