//! What the second program says of circuits that are to be simulated: verilog_bits sheets COUNT SEED FOLDER writes generated sheets that
//! are accepted, FOLDER/000.sheet and on, until COUNT of them have a module; verilog_bits run SEED TICKS FILE.. prints a line for each sheet: its drawn starts,
//! its drawn inputs tick after tick, and the outputs' bits that it then shows, `-` where there are none. Where there is nothing to show,
//! the line says why: `refused` (2 to 16); `points PLACE`, a kept ring point with its input (18); `gates`, a ring through no register
//! that has gates in it (19, and no 18).

use second::circuits;
use second::lean::lean;
use second::random::Random;
use second::run::{ran, Circuit, Trace};
use second::sheet::MEMORY;
use second::translate::accepted;
use second::verilog::exported;

fn main() {
    let words: Vec<String> = std::env::args().skip(1).collect();
    let number = |at: usize| words[at].parse().expect("a number");
    let mut random = Random::new(number(if words[0] == "run" { 1 } else { 2 }));
    match words[0].as_str() {
        "sheets" => sheets(&mut random, number(1) as usize, &words[3]),
        "run" => words[3..].iter().for_each(|file| println!("{}", run(&mut random, number(2) as u16, file))),
        other => panic!("{other} says nothing here"),
    }
}

fn sheets(random: &mut Random, count: usize, folder: &str) {
    let drawn = (0..).map(|index| circuits::any(random, index)).filter(|sheet| accepted(sheet).is_ok());
    let mut modules = 0;
    for (at, sheet) in drawn.enumerate() {
        std::fs::write(format!("{folder}/{at:03}.sheet"), &sheet).expect("the sheet is written");
        modules += usize::from(exported(&sheet, usize::MAX, MEMORY).is_ok());
        if modules == count {
            return;
        }
    }
}

fn run(random: &mut Random, ticks: u16, file: &str) -> String {
    let sheet = std::fs::read(file).expect("the sheet is read");
    let Ok(made) = accepted(&sheet) else { return "refused".to_string() };
    let (inputs, registers, outputs) = Circuit::of(lean(&made.full)).counts();
    let mut bits = |n: usize| -> Vec<u8> { (0..n).map(|_| random.below(2) as u8).collect() };
    let (starts, inputs) = (bits(registers), bits(inputs * usize::from(ticks)));
    if let Err(refusal) = exported(&sheet, usize::MAX, MEMORY) {
        assert_eq!(refusal.number, 18, "{file}: an accepted sheet has a module, or a kept ring point");
        return format!("points {}", refusal.place);
    }
    let trace = Trace { ticks, inputs: &inputs, starts: &starts };
    match ran(&sheet, trace, outputs * usize::from(ticks), MEMORY) {
        Ok(shown) => format!("{} {} {}", text(&starts), text(&inputs), text(&shown)),
        Err(refusal) => {
            assert_eq!(refusal.number, 19, "{file}: only a ring keeps an accepted sheet from running");
            "gates".to_string()
        }
    }
}

fn text(bits: &[u8]) -> String {
    match bits {
        [] => "-".to_string(),
        _ => bits.iter().map(|bit| char::from(b'0' + bit)).collect(),
    }
}
