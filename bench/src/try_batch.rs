//! Batches (L10): the named ones, and generated ones with lengths, rooms and memories near every limit.

use crate::boundary::{told, wishes, Call};
use crate::request::{Case, Cases, Request, Slice, Storage};
use crate::tally::Key;
use second::batches::{self, Batch};
use second::random::Random;
use second::{batch, edges_batch};

struct Tried(Batch);

impl Case for Tried {
    fn size(&self) -> usize {
        self.0.sheets.len()
    }

    fn request(&self, random: &mut Random) -> Request {
        let Batch { sheets, lengths, room, results, memory, wish } = &self.0;
        let mut lent = Storage::new(random, *room, *memory);
        let before: Vec<u64> = (0..*results).map(|_| random.draw()).collect();
        let mut after = before.clone();
        let (out, work) = (&mut lent.out, &mut lent.work);
        let wanted = batch::call(sheets, lengths, out, &mut after, work, *wish);
        let mut keys = vec![Key::number("answers", wanted)];
        if wanted >> 32 == 0 {
            let own = &after[..lengths.len()];
            keys.extend(own.iter().map(|&word| Key::number("results", word)));
        }
        let slices = vec![
            Slice::given("sheets", sheets),
            Slice::given("lengths", lengths),
            lent.out(),
            Slice::lent("results", &before, &after),
            lent.work(),
        ];
        Request { call: Call::Batch, slices, last: told(*wish), wanted, keys }
    }
}

pub fn due() -> Vec<Key> {
    let answers = [0, 24].map(|number| Key::new("answers", number));
    let results = [0, 1, 3, 9, 12, 13, 14, 17].map(|number| Key::new("results", number));
    answers.into_iter().chain(results).collect()
}

pub fn named(_: &mut Random) -> Cases {
    edges_batch::edges().into_iter().map(|edge| tried(edge.batch)).collect()
}

pub fn generated(random: &mut Random, index: usize) -> Cases {
    vec![tried(batches::any(random, index))]
}

/// With the wishes that there are.
fn tried(mut batch: Batch) -> Box<dyn Case> {
    let wish = &mut batch.wish;
    wish.plain |= wishes(Call::Batch).iter().all(|wish| wish.plain);
    wish.card &= wishes(Call::Batch).iter().any(|wish| wish.card);
    Box::new(Tried(batch))
}
