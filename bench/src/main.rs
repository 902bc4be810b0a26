//! The bench program. The scripts beside it build it and call it from the repository's root:
//! `differential COUNT SEED CALL..`, `put-in COUNT SEED`, `exact COUNT SEED` (for memcheck), `table [plain]`, `stack`,
//! `sheets FOLDER`, `nets FOLDER`, `texts FOLDER`, `slow-texts FOLDER`, `ordinary-texts FOLDER`, `make-times`.

mod boundary;
mod circuit;
mod classes;
mod crash;
mod differential;
#[cfg(linked)]
mod exact;
mod fences;
#[cfg(linked)]
mod make_times;
mod modes;
#[cfg(linked)]
mod others;
mod put_in;
mod request;
mod stack;
#[cfg(linked)]
mod table;
mod tally;
#[cfg_attr(not(linked), allow(dead_code))]
mod texts;
#[cfg(linked)]
mod timing;
mod try_back;
mod try_batch;
mod try_check;
mod try_lanes;
mod try_make;
mod try_never;
mod try_run;
mod try_translate;
mod try_verilog;
mod worst;

use second::notation_make::make;
use second::random::Random;
use second::{edges_foreign, edges_notation, nets, notation_texts};
use std::process::exit;

fn main() {
    let words: Vec<String> = std::env::args().skip(1).collect();
    let number = |at: usize, otherwise: u64| match words.get(at) {
        None => otherwise,
        Some(word) => word.parse().unwrap_or_else(|_| usage()),
    };
    let well = match words.first().map(String::as_str) {
        Some("differential") => {
            let only = words.get(3..).unwrap_or_default();
            differential::differential(number(1, 20_000) as usize, number(2, 1), only)
        }
        Some("put-in") => put_in::run(number(1, 20_000) as usize, number(2, 1)),
        #[cfg(linked)]
        Some("exact") => exact::exact(number(1, 200) as usize, number(2, 1)),
        #[cfg(linked)]
        Some("table") => {
            let plain = words.get(1).is_some_and(|word| word == "plain");
            table::print(table::Kinds { plain });
            true
        }
        #[cfg(linked)]
        Some("make-times") => make_times::print(),
        Some("stack") => stack::print().map_err(|why| println!("{why}")).is_ok(),
        Some("sheets") if words.len() == 2 => {
            sheets(&words[1]);
            true
        }
        Some("nets") if words.len() == 2 => {
            nets(&words[1]);
            true
        }
        Some("slow-texts") if words.len() == 2 => {
            slow_texts(&words[1]);
            true
        }
        Some("ordinary-texts") if words.len() == 2 => {
            ordinary_texts(&words[1]);
            true
        }
        Some("texts") if words.len() == 2 => {
            texts(&words[1]);
            true
        }
        _ => usage(),
    };
    exit(if well { 0 } else { 1 })
}

fn usage() -> ! {
    eprintln!("usage: bench differential [COUNT] [SEED] [CALL..] | put-in [COUNT] [SEED]");
    eprintln!(
        "       bench stack | sheets FOLDER | nets FOLDER | texts FOLDER | slow-texts FOLDER | ordinary-texts FOLDER"
    );
    eprintln!("and where the archive is linked in: bench exact [COUNT] [SEED] | table [plain] | make-times");
    exit(2)
}

/// The timed sheets as files CLASS-SHEET, and a line for each class: number, room, name.
fn sheets(folder: &str) {
    for (index, class) in classes::classes().iter().enumerate() {
        println!("{index} {} {}", class.room, class.name);
        for (at, sheet) in class.sheets.iter().enumerate() {
            let path = format!("{folder}/{index}-{at}");
            std::fs::write(&path, sheet).unwrap_or_else(|why| panic!("{path}: {why}"));
        }
    }
}

/// Netlists as files, named and generated: seeds for the fuzzer of L8's check.
fn nets(folder: &str) {
    let mut random = Random::new(8);
    let named = edges_foreign::edges().into_iter().map(|edge| edge.net);
    let generated = (0..300).map(|index| nets::any(&mut random, index).net);
    for (at, net) in named.chain(generated).filter(|net| net.len() < 16_000).enumerate() {
        let path = format!("{folder}/{at}");
        std::fs::write(&path, net).unwrap_or_else(|why| panic!("{path}: {why}"));
    }
}

/// The texts that take longest as files, and a line for each: number, name.
fn slow_texts(folder: &str) {
    for (at, texts::Text { name, text }) in texts::slow().into_iter().enumerate() {
        println!("{at} {name}");
        let path = format!("{folder}/{at}");
        std::fs::write(&path, text).unwrap_or_else(|why| panic!("{path}: {why}"));
    }
}

/// The texts of 200 lines as files, with their sheets, and a line for each: number, whether it has a limit, name.
fn ordinary_texts(folder: &str) {
    let limited = texts::ordinary().into_iter().map(|text| (true, text));
    let others = texts::families().into_iter().map(|text| (false, text));
    for (at, (limit, texts::Text { name, text })) in limited.chain(others).enumerate() {
        println!("{at} {limit} {name}");
        let made = make(text.as_bytes()).unwrap_or_else(|why| panic!("{name}: {why:?}"));
        for (end, bytes) in [("dw", text.as_bytes()), ("sheet", &made.sheet)] {
            let path = format!("{folder}/{at}.{end}");
            std::fs::write(&path, bytes).unwrap_or_else(|why| panic!("{path}: {why}"));
        }
    }
}

/// Texts as files, named and generated: seeds for the fuzzer of `make`.
fn texts(folder: &str) {
    let mut random = Random::new(33);
    let named = edges_notation::edges().into_iter().map(|edge| edge.text);
    let limits = edges_notation::within_the_limits().into_iter().map(|(_, text)| text.into_bytes());
    let generated = (0..600).map(|index| notation_texts::any(&mut random, index));
    let short = |text: &Vec<u8>| text.len() < 16_000;
    for (at, text) in named.chain(limits).chain(generated).filter(short).enumerate() {
        let path = format!("{folder}/{at}");
        std::fs::write(&path, text).unwrap_or_else(|why| panic!("{path}: {why}"));
    }
}
