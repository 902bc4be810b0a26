//! The classes of sheets that are timed.

use crate::worst::{chain_4095, ordinary, ring_4096};
use second::corpus::grown_large;
use second::edges_making::KNOWN;
use second::netlist::ENOUGH;
use second::random::Random;
use second::wide::{crowd, deep, deep_type, flat, high_order, table, terminals_and};
use second::write::{constant, hex};

/// Sheets that are timed together, with the room that each call lends.
pub struct Class {
    pub name: &'static str,
    pub sheets: Vec<Vec<u8>>,
    pub room: usize,
}

impl Class {
    pub fn new(name: &'static str, sheets: Vec<Vec<u8>>) -> Class {
        Class { name, sheets, room: ENOUGH }
    }

    pub fn one(name: &'static str, sheet: Vec<u8>) -> Class {
        Class::new(name, vec![sheet])
    }
}

/// Circuits of the folder examples/ that a person might write.
const TYPICAL: [&str; 4] =
    ["full-adder", "ripple-adder-8", "shift-register-8", "comparator-divergence"];

/// The bytes of examples/NAME.hex; `#` starts a comment.
fn example(name: &str) -> Vec<u8> {
    let path = format!("examples/{name}.hex");
    let text = std::fs::read_to_string(&path).unwrap_or_else(|why| panic!("{path}: {why}"));
    let lines = text.lines().map(|line| line.split('#').next().unwrap_or(""));
    hex(&lines.collect::<Vec<_>>().join(" "))
}

fn grown() -> Vec<Vec<u8>> {
    let mut random = Random::new(4);
    let accepted = |sheet: &Vec<u8>| second::translate::netlist(sheet, false).is_ok();
    std::iter::repeat_with(|| grown_large(&mut random)).filter(accepted).take(8).collect()
}

/// The 2,048 nodes' last variable is out of scope: refused at the last node of the walk.
fn refused_at_the_last_node() -> Vec<u8> {
    let mut sheet = flat(2048);
    *sheet.last_mut().expect("a sheet with nodes") = 255;
    sheet
}

/// So many types, all different, and the smallest term.
fn types(count: usize) -> Vec<u8> {
    table(count).sheet(&constant(0, 0))
}

pub fn classes() -> Vec<Class> {
    let mut short = Class::one("refused late (17)", ordinary(32));
    short.room = 3;
    vec![
        Class::new("tiny P1..P9", KNOWN[..9].iter().map(|text| hex(text)).collect()),
        Class::new("typical (examples)", TYPICAL.iter().map(|name| example(name)).collect()),
        Class::new("generated, 200-1,800 nodes", grown()),
        Class::one("2,048 nodes, 12 deep", flat(2048)),
        Class::one("2,048 nodes, 64 deep", deep(2048, 64)),
        Class::one("8,192 terminals", crowd(8192)),
        Class::one("ring of 4,096 points", ring_4096()),
        Class::one("chain of 4,095 points", chain_4095()),
        Class::one("128 types", types(128)),
        Class::one("256 types", types(256)),
        Class::new("chains of arrows", vec![deep_type(), high_order()]),
        Class::one("refused early (4)", vec![0; 100]),
        Class::one("refused late (10)", refused_at_the_last_node()),
        Class::one("refused late (16)", terminals_and(1)),
        short,
    ]
}
