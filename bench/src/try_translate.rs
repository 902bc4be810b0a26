//! Translations and stretches of sheets of both editions: all named edges of the second program, then
//! generated and damaged sheets, with rooms and memories near every limit, by the wishes that there are.

use crate::boundary::{told, wishes, Call};
use crate::modes::{some_memory, some_room};
use crate::request::{Case, Cases, Request, Slice, Storage};
use crate::tally::{Key, Said};
use second::corpus::{self, Kind};
use second::damage::{damage, noise};
use second::edges_clash::{cause, KINDS};
use second::netlist::{written_length, ENOUGH};
use second::random::Random;
use second::sheet::{Edition, MEMORY};
use second::translate::{self, netlist};
use second::wide::{crowd, deep, flat, terminals_and, tower};
use second::write::marked;
use second::{circuits, edges_card, edges_clash, edges_edition, editions, Wish};
use std::collections::HashSet;
use std::rc::Rc;

pub struct Translation {
    pub sheet: Rc<Vec<u8>>,
    pub room: usize,
    pub memory: usize,
    pub wish: Wish,
}

impl Case for Translation {
    fn size(&self) -> usize {
        self.sheet.len()
    }

    fn request(&self, random: &mut Random) -> Request {
        let mut lent = Storage::new(random, self.room, self.memory);
        let wanted = translate::call(&self.sheet, &mut lent.out, &mut lent.work, self.wish);
        let slices = vec![Slice::given("sheet", &self.sheet), lent.out(), lent.work()];
        let keys = keys(&self.sheet, wanted);
        Request { call: Call::Translate, slices, last: told(self.wish), wanted, keys }
    }
}

struct Stretch {
    sheet: Rc<Vec<u8>>,
    node: usize,
}

impl Case for Stretch {
    fn size(&self) -> usize {
        self.sheet.len()
    }

    fn request(&self, _: &mut Random) -> Request {
        let (start, length) = second::stretch(&self.sheet, self.node);
        let wanted = (start as u64) << 32 | length as u64;
        let keys = vec![Key::new("stretches", if length > 0 { "not empty" } else { "empty" })];
        let slices = vec![Slice::given("sheet", &self.sheet)];
        Request { call: Call::Stretch, slices, last: self.node as u64, wanted, keys }
    }
}

pub const EDITIONS: [&str; 2] = ["first edition", "second edition"];
const CAUSES: &str = "12 by the node's kind";

/// The number by edition, and the cause of a 12.
fn keys(sheet: &[u8], word: u64) -> Vec<Key> {
    let said = Said(word);
    let mut keys = vec![Key::number(EDITIONS[Edition::of(sheet).mark()], word)];
    if said.number() == 12 {
        keys.push(cause_key(cause(sheet, said.value(), said.wanted())));
    }
    keys
}

fn cause_key((kind, form): (u8, bool)) -> Key {
    Key::new(CAUSES, format!("{kind:X}{}", if form { " form" } else { "" }))
}

/// Each number in each edition, each cause of 12.
pub fn due() -> Vec<Key> {
    let card = wishes(Call::Translate).iter().any(|wish| wish.card);
    let numbers = (0..=17).chain((27..=29).filter(|_| card));
    let of_editions = numbers.flat_map(|number| EDITIONS.map(|edition| Key::new(edition, number)));
    let causes = KINDS.iter().map(|&cause| cause_key(cause));
    of_editions.chain(causes).collect()
}

/// Sheets above this length are tried by some of the wishes only.
const LARGE: usize = 40;

/// Each named case as it stands; a sheet's first case also at its netlists' lengths.
pub fn named(random: &mut Random) -> Cases {
    let kinds = [Kind::Whole, Kind::Reading, Kind::Typing, Kind::Making];
    let (mut seen, mut seen_sheets) = (HashSet::new(), HashSet::new());
    let mut cases = Cases::new();
    for corpus::Case { room, memory, sheet } in kinds.into_iter().flat_map(corpus::named) {
        if !seen.insert((room, memory, sheet.clone())) {
            continue;
        }
        let sheet = Rc::new(sheet);
        let wishes = named_wishes(random, &sheet);
        add(&mut cases, &sheet, wishes.iter().map(|&wish| (room, memory, wish)));
        if seen_sheets.insert(sheet.clone()) {
            add(&mut cases, &sheet, wishes.iter().flat_map(|&wish| exact_calls(&sheet, wish)));
        }
        cases.extend(stretches(random, &sheet));
    }
    let clashes = edges_clash::edges().into_iter().chain(edges_edition::clashes());
    let cards = edges_card::edges().into_iter().map(|edge| edge.sheet);
    for sheet in clashes.map(|clash| clash.sheet).chain(cards) {
        let sheet = Rc::new(sheet);
        let wishes = named_wishes(random, &sheet);
        add(&mut cases, &sheet, wishes.iter().map(|&wish| (ENOUGH, MEMORY, wish)));
    }
    cases
}

fn add(cases: &mut Cases, sheet: &Rc<Vec<u8>>, calls: impl Iterator<Item = (usize, usize, Wish)>) {
    for (room, memory, wish) in calls {
        cases.push(Box::new(Translation { sheet: sheet.clone(), room, memory, wish }));
    }
}

/// Small sheets by every wish, others by one for each netlist.
fn named_wishes(random: &mut Random, sheet: &[u8]) -> Vec<Wish> {
    if sheet.len() <= LARGE {
        wishes(Call::Translate)
    } else {
        some_wishes(random)
    }
}

/// A wish for the full netlist and one for the lean one.
fn some_wishes(random: &mut Random) -> Vec<Wish> {
    let of = |lean: bool| wishes(Call::Translate).into_iter().filter(move |wish| wish.lean == lean);
    [false, true].map(|lean| *random.pick(&of(lean).collect::<Vec<_>>())).to_vec()
}

/// A netlist in just its room and in one byte less.
fn exact_calls(sheet: &[u8], wish: Wish) -> Vec<(usize, usize, Wish)> {
    let rooms = needed(sheet, wish).map(|room| [room, room - 1]);
    rooms.into_iter().flatten().map(|room| (room, MEMORY, wish)).collect()
}

fn needed(sheet: &[u8], wish: Wish) -> Option<usize> {
    netlist(sheet, wish.lean).ok().map(|made| written_length(&made, wish.plain))
}

/// A generated sheet, with its calls, mostly small; now and then one near a limit, or one that is too long.
pub fn generated(random: &mut Random, index: usize) -> Cases {
    let sheet = Rc::new(some_sheet(random, index));
    let mut cases = Cases::new();
    for wish in some_wishes(random) {
        let needed = needed(&sheet, wish);
        let room = some_room(random, needed);
        add(&mut cases, &sheet, [(room, some_memory(random), wish)].into_iter());
        if random.once_in(3) {
            add(&mut cases, &sheet, exact_calls(&sheet, wish).into_iter());
        }
    }
    cases.extend(stretches(random, &sheet));
    cases
}

fn some_sheet(random: &mut Random, index: usize) -> Vec<u8> {
    match index % 400 {
        253 => {
            let length = random.within(16_300, 16_500);
            noise(random, length)
        }
        turn if turn % 100 == 7 => near_limit(random),
        turn if turn % 5 == 0 => circuits::any(random, index / 5),
        _ if random.once_in(3) => editions::any(random, index),
        _ => corpus::any(random, index),
    }
}

/// A sheet near a limit, every second one damaged.
pub fn near_limit(random: &mut Random) -> Vec<u8> {
    let mut sheet = match random.below(6) {
        0 => terminals_and(random.below(4)),
        1 | 2 => crowd(random.within(7_941, 8_194)),
        3 => flat(random.within(2_000, 2_049)),
        4 => {
            let depth = random.within(50, 65);
            deep(random.within(1_900, 2_049), depth)
        }
        _ => tower(random.within(60, 66)),
    };
    if random.once_in(3) {
        sheet = marked(&sheet);
    }
    if random.once_in(2) {
        sheet = damage(random, &sheet);
    }
    sheet
}

/// Of nodes of the sheet, of the first that it has not, and of numbers that no sheet has.
fn stretches(random: &mut Random, sheet: &Rc<Vec<u8>>) -> Cases {
    let count = second::read(sheet).map_or(4, |read| read.nodes());
    let far = *random.pick(&[2_048, 65_535, 65_536, 1 << 32, usize::MAX]);
    let last = *random.pick(&[0, count - 1, count, far]);
    let nodes = [random.below(count + 1), random.below(count), last];
    let stretch = |node| Box::new(Stretch { sheet: sheet.clone(), node }) as Box<dyn Case>;
    nodes.map(stretch).into_iter().collect()
}
