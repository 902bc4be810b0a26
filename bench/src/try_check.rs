//! The check of netlists from outside (L8): named ones, then our own, well-formed ones that come from no
//! sheet, either damaged record by record, noise, and netlists near the limit of 8,192 terminals.

use crate::boundary::Call;
use crate::modes::some_memory;
use crate::request::{Case, Cases, Request, Slice, Storage};
use crate::tally::Key;
use crate::try_translate::near_limit;
use second::foreign::call;
use second::nets::{any, damage, Given};
use second::random::Random;
use second::sheet::MEMORY;
use second::translate::netlist;
use second::{bytes, edges_foreign};

struct Check {
    given: Given,
    memory: usize,
}

impl Case for Check {
    fn size(&self) -> usize {
        self.given.net.len()
    }

    fn request(&self, random: &mut Random) -> Request {
        let Given { net, lean } = &self.given;
        let mut lent = Storage::new(random, 0, self.memory);
        let wanted = call(net, &mut lent.work, *lean);
        let keys = vec![Key::number(if *lean { "lean" } else { "full" }, wanted)];
        let slices = vec![Slice::given("netlist", net), lent.work()];
        Request { call: Call::Check, slices, last: (*lean).into(), wanted, keys }
    }
}

pub fn due() -> Vec<Key> {
    let numbers = [0, 1, 21, 22, 23];
    numbers.iter().flat_map(|number| ["full", "lean"].map(|kind| Key::new(kind, number))).collect()
}

pub fn named(_: &mut Random) -> Cases {
    let mut cases = Cases::new();
    for edge in edges_foreign::edges() {
        for (lean, memory) in
            [(false, MEMORY), (true, MEMORY), (false, MEMORY + 1), (true, MEMORY - 1)]
        {
            cases.push(Box::new(Check { given: Given { net: edge.net.clone(), lean }, memory }));
        }
    }
    cases
}

pub fn generated(random: &mut Random, index: usize) -> Cases {
    let given = match index % 200 {
        7 => large(random).unwrap_or_else(|| any(random, index)),
        _ => any(random, index),
    };
    vec![Box::new(Check { given, memory: some_memory(random) })]
}

/// Our own netlist of a sheet near a limit, every second one damaged.
fn large(random: &mut Random) -> Option<Given> {
    let (sheet, lean) = (near_limit(random), random.once_in(2));
    let mut net = bytes(&netlist(&sheet, lean).ok()?);
    if random.once_in(2) {
        net = damage(random, &net);
    }
    Some(Given { net, lean })
}
