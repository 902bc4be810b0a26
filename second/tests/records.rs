//! Document 02, L2 on small circuits; and demand 3's second half, on all bits of small netlists:
//! full and lean allow the same records on pin positions and part terminals, rings included.

use second::corpus::{any, named, Kind};
use second::editions;
use second::random::Random;
use second::records::{possible, Outside};
use second::write::hex;
use second::{check, full, lean, read, terminals};

/// How many assignments were tried, or None where the netlist is too large to try.
fn same_records(sheet: &[u8], most: usize) -> Option<u64> {
    let sheet = read(sheet).ok()?;
    check(&sheet).ok()?;
    let count = terminals(&sheet);
    if count > most {
        return None;
    }
    let whole = full(&sheet);
    let thin = lean(&whole);
    let mut tried = 0;
    for ticks in 0..=2 {
        assert_eq!(possible(&whole, count, ticks), possible(&thin, count, ticks), "{whole:?}");
        tried += 1 << (count * ticks);
    }
    Some(tried)
}

#[test]
fn full_and_lean_allow_the_same_records() {
    let mut tried = 0;
    for kind in [Kind::Typing, Kind::Making] {
        for case in named(kind) {
            tried += same_records(&case.sheet, 10).unwrap_or(0);
        }
    }
    assert!(tried > 1_000_000);
    let (mut random, mut budget, mut sheets) = (Random::new(5), 60_000_000u64, 0);
    for at in 0..20_000 {
        let most = if at % 20 == 0 { 10 } else { 7 };
        let sheet = if at % 3 == 0 { editions::grown(&mut random) } else { any(&mut random, at) };
        if let Some(tried) = same_records(&sheet, most) {
            sheets += 1;
            budget = budget.saturating_sub(tried);
        }
        if budget == 0 {
            break;
        }
    }
    assert!(sheets > 500, "only {sheets} sheets were small enough");
}

/// The possible records of a sheet's lean netlist, as zeros and ones.
fn records(sheet: &str, ticks: usize) -> Vec<String> {
    let sheet = read(&hex(sheet)).expect("a readable sheet");
    let digits = |record: &Outside| record.iter().map(|&bit| if bit { '1' } else { '0' }).collect();
    possible(&lean(&full(&sheet)), terminals(&sheet), ticks).iter().map(digits).collect()
}

#[test]
fn a_register_may_start_with_either_bit() {
    // reg alone: the pins, then the register's terminals; its output at tick 0 is free
    let reg = "01 030000 1A0101";
    assert_eq!(records(reg, 0), [""]);
    assert_eq!(records(reg, 1), ["0000", "0101", "1010", "1111"]);
    // at tick 1 it is the input of tick 0: of each four, the record is input and start, then next
    let second_tick = records(reg, 2);
    assert_eq!(second_tick.len(), 8);
    assert!(second_tick.iter().all(|record| record[5..6] == record[0..1]), "{second_tick:?}");
    // P3, zero into reg: the pin shows the start, then 0
    let p3 = "01 030000 040100 16 1502 14 1200 1A0000 1A0101";
    assert_eq!(records(p3, 1), ["0000", "1001"]);
    assert_eq!(records(p3, 2), ["00000000", "10010000"]);
    // P6, and of zero and reg, back into reg: pin, and's three, zero, reg's two
    let p6 = "01 030000 030001 1900 14 14 1A0202 1A0000 14 1A0101 1100";
    assert_eq!(records(p6, 1), ["0000000", "0010001"]);
    assert_eq!(records(p6, 2), ["00000000000000", "00100010000000"]);
}

#[test]
fn nothing_but_registers_has_a_start() {
    assert_eq!(records("01 1A0000", 1), ["00"]);
    assert_eq!(records("01 1A0600", 1), ["11"]);
    assert_eq!(records("01 030000 1A0501", 1), ["0101", "1010"]);
}
