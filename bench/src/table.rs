//! The benchmark table: nanoseconds a sheet for the proved translator, the second program and the
//! least that any translator must do, and what they say about growth, rings, chains and depth.

use crate::boundary::linked;
use crate::classes::{classes, Class};
use crate::timing::{least, ROUNDS};
use crate::worst::{chain_4095, ordinary, ring_4096};
use second::sheet::MEMORY;
use second::translate::{call, wished, Wish};
use std::cell::RefCell;
use std::hint::black_box;

/// Nanoseconds a sheet.
struct Times {
    proved: f64,
    second: f64,
    limit: f64,
}

/// What a call asks for: netlists with nodes, as they are written where nothing else is said, or plain kinds.
#[derive(Clone, Copy)]
pub struct Kinds {
    pub plain: bool,
}

impl Kinds {
    fn wish(self, lean: bool) -> Wish {
        Wish { lean, plain: self.plain, ..Wish::default() }
    }
}

/// What is written for each sheet of a class; nothing where it is refused.
fn netlists(class: &Class, wish: Wish) -> Vec<Vec<u8>> {
    let made = |sheet: &Vec<u8>| wished(sheet, wish, class.room, MEMORY);
    class.sheets.iter().map(|sheet| made(sheet).unwrap_or_default()).collect()
}

/// Both netlists of a class, all jobs in turn, on the same output and working memory: how fast they
/// are cleared depends on where they lie.
fn times(class: &Class, kinds: Kinds) -> [Times; 2] {
    let storage = RefCell::new((vec![0u8; class.room], vec![0u16; MEMORY]));
    let lent = &storage;
    let proved = |lean: bool| {
        move || {
            let (out, work) = &mut *lent.borrow_mut();
            for sheet in &class.sheets {
                black_box(linked::translate(black_box(sheet), out, work, kinds.wish(lean)));
            }
        }
    };
    let second = |lean: bool| {
        move || {
            let (out, work) = &mut *lent.borrow_mut();
            for sheet in &class.sheets {
                black_box(call(black_box(sheet), out, work, kinds.wish(lean)));
            }
        }
    };
    let limit = |lean: bool| {
        let written = netlists(class, kinds.wish(lean));
        move || {
            let (out, work) = &mut *lent.borrow_mut();
            for (sheet, netlist) in class.sheets.iter().zip(&written) {
                black_box(read_once(black_box(sheet)));
                out[..netlist.len()].copy_from_slice(black_box(netlist));
                work.fill(0);
                black_box((&mut *out, &mut *work));
            }
        }
    };
    let (mut a, mut b, mut c) = (proved(false), second(false), limit(false));
    let (mut d, mut e, mut f) = (proved(true), second(true), limit(true));
    let all = least(&mut [&mut a, &mut b, &mut c, &mut d, &mut e, &mut f]);
    let each = |at: usize| all[at] / class.sheets.len() as f64;
    [0, 3].map(|at| Times { proved: each(at), second: each(at + 1), limit: each(at + 2) })
}

/// Every byte of the sheet, eight at a time.
fn read_once(sheet: &[u8]) -> u64 {
    let eights = sheet.chunks_exact(8);
    let rest = eights.remainder().iter().map(|&byte| u64::from(byte));
    let whole = eights.map(|eight| u64::from_le_bytes(eight.try_into().expect("eight bytes")));
    whole.chain(rest).fold(0, u64::wrapping_add)
}

fn terminals(sheet: &[u8]) -> usize {
    match second::read(sheet) {
        Ok(read) if second::check(&read).is_ok() => second::terminals(&read),
        _ => 0,
    }
}

pub fn print(kinds: Kinds) {
    println!("Nanoseconds a sheet, least of {ROUNDS} interleaved runs in one process.");
    println!(
        "limit: reading the sheet, writing the netlist and clearing 32,768 numbers, once each."
    );
    println!(
        "{:<27}{:>6}{:>7}{:>7}{:>8}{:>11}{:>11}{:>9}{:>9}{:>9}",
        "class", "", "bytes", "termls", "netlist", "proved", "second", "pr/sec", "limit", "pr/lim"
    );
    for class in classes() {
        let count = class.sheets.len();
        let bytes = class.sheets.iter().map(Vec::len).sum::<usize>() / count;
        let terminals = class.sheets.iter().map(|sheet| terminals(sheet)).sum::<usize>() / count;
        let [full, lean] = times(&class, kinds);
        for (kind, is_lean, times) in [("full", false, full), ("lean", true, lean)] {
            let written =
                netlists(&class, kinds.wish(is_lean)).iter().map(Vec::len).sum::<usize>() / count;
            println!(
                "{:<27}{kind:>6}{bytes:>7}{terminals:>7}{written:>8}{:>11.0}{:>11.0}{:>9.3}{:>9.0}{:>9.2}",
                class.name,
                times.proved,
                times.second,
                times.proved / times.second,
                times.limit,
                times.proved / times.limit,
            );
        }
    }
    growth(kinds);
    rings_and_chains(kinds);
    depths(kinds);
    crate::others::print();
}

fn growth(kinds: Kinds) {
    println!("\nGrowth: nanoseconds a terminal, fixed points of 128 bits around each other.");
    println!("clearing: the part of the limit that every sheet pays, a terminal.");
    println!("{:>9}{:>10}{:>10}{:>10}", "terminals", "full", "lean", "clearing");
    for fixed_points in [1, 2, 4, 8, 16, 32] {
        let class = Class::one("growth", ordinary(fixed_points));
        let terminals = (256 * fixed_points) as f64;
        let [full, lean] = times(&class, kinds);
        println!(
            "{terminals:>9}{:>10.2}{:>10.2}{:>10.2}",
            full.proved / terminals,
            lean.proved / terminals,
            clearing() / terminals
        );
    }
}

fn clearing() -> f64 {
    let mut work = vec![0u16; MEMORY];
    let mut clear = || {
        work.fill(0);
        black_box(&mut work);
    };
    least(&mut [&mut clear])[0]
}

fn rings_and_chains(kinds: Kinds) {
    println!("\nRings and chains: the proved translator, nanoseconds a terminal.");
    println!(
        "{:<27}{:>9}{:>9}{:>10}{:>11}{:>20}",
        "sheet", "full", "lean", "lean/full", "lean-full", "lean-full/ordinary"
    );
    let rows = [
        ("ordinary, 8,192 terminals", ordinary(32)),
        ("ring of 4,096 points", ring_4096()),
        ("chain of 4,095 points", chain_4095()),
    ];
    let mut usual = None;
    for (name, sheet) in rows {
        let terminals = terminals(&sheet) as f64;
        let [full, lean] = times(&Class::one(name, sheet), kinds);
        let (full, lean) = (full.proved / terminals, lean.proved / terminals);
        let usual = *usual.get_or_insert(lean - full);
        println!(
            "{name:<27}{full:>9.2}{lean:>9.2}{:>10.2}{:>11.2}{:>20.2}",
            lean / full,
            lean - full,
            (lean - full) / usual
        );
    }
}

fn depths(kinds: Kinds) {
    println!("\nDepth: the proved translator, 2,048 nodes, nanoseconds a node.");
    println!("{:<27}{:>9}{:>9}", "depth", "full", "lean");
    let mut first = None;
    for (depth, sheet) in [("12", second::wide::flat(2048)), ("64", second::wide::deep(2048, 64))] {
        let [full, lean] = times(&Class::one("depth", sheet), kinds);
        let (full, lean) = (full.proved / 2048.0, lean.proved / 2048.0);
        println!("{depth:<27}{full:>9.2}{lean:>9.2}");
        let (flat_full, flat_lean) = *first.get_or_insert((full, lean));
        if depth == "64" {
            println!("{:<27}{:>9.2}{:>9.2}", "64 over 12", full / flat_full, lean / flat_lean);
        }
    }
}
