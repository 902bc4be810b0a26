//! Sheets whose netlists were worked out on paper from document 01: section 3.1 of document 000,
//! functions of functions, products, rings, and points that nobody reads.

mod common;
use common::makes;

#[test]
fn the_examples_of_the_paper() {
    makes("identity", "01 030000 1301 1100", "point 0, pins 0 1", "point 0, pins 0 1");
    let twice = "point 0, pins 0 1 1";
    makes("x twice", "01 020000 030001 1302 1701 1100 1100", twice, twice);
    makes(
        "x twice, of zero",
        "01 020000 030001 14 1302 1701 1100 1100 1A0000",
        "point 0, zero 2, wire 2-0, pins 1 1",
        "zero 2, pins 2 2",
    );
    makes(
        "projection into and",
        "01 020000 030001 030000 030003 18 14 1302 1701 1100 1100 1A0000 14 14 1A0204 1101 1100",
        "point 0, zero 2, and 3, wire 2-0, wire 1-3, wire 1-4, pin 5",
        "zero 2, and 3, wire 2-3, wire 2-4, pin 5",
    );
    makes(
        "and x x, of zero",
        "01 030000 030001 14 1301 14 14 1A0202 1100 1100 1A0000",
        "point 0, and 2, zero 5, wire 1-2, wire 1-3, wire 5-0, pin 4",
        "and 2, zero 5, wire 5-2, wire 5-3, pin 4",
    );
    let gates = "and 0, zero 3, zero 4, wire 3-0, wire 4-1, pin 2";
    makes("and zero zero", "01 030000 030001 14 14 1A0202 1A0000 1A0000", gates, gates);
    let same = "points 0 2, pins 1 2 0 3";
    makes("linear identity", "01 030000 040101 1502 1200", same, same);
    makes(
        "f zero",
        "01 030000 040100 1502 14 1200 1A0000",
        "points 0 2, zero 4, wire 4-0, pins 1 2 3",
        "point 2, zero 4, pins 4 2 3",
    );
}

#[test]
fn functions_of_functions() {
    // g: ((1 -> 1) -o 1) -o 1, given the function that feeds its own variable a zero
    makes(
        "g given a feeder",
        "01 030000 040100 040200 040300 1504 16 1200 1502 14 1200 1A0000",
        "points 0 2 4 6 8 10, zero 12, wire 12-8, wire 9-0, wire 3-10, wire 11-4, pins 1 2 5 6 7",
        "points 2 6, zero 12, pins 12 2 3 6 7",
    );
    makes(
        "f of a pair",
        "01 020000 030100 040200 020001 1503 14 1200 1701 1A0000 1A0600",
        "points 0 2 4, zero 6, one 7, wire 6-0, wire 7-2, pins 1 3 4 5",
        "point 4, zero 6, one 7, pins 6 7 4 5",
    );
    // an identity on two-input gates, given xor: xor's inputs are pins through points
    makes(
        "a gate through an identity",
        "01 030000 030001 040202 16 1503 1200 1A0402",
        "points 0 2 4, xor 6, wire 1-6, wire 3-7, wire 8-4, pins 0 2 5",
        "points 0 2, xor 6, wire 1-6, wire 3-7, pins 0 2 8",
    );
}

#[test]
fn parts_with_inputs_left_open() {
    let left = "point 0, xor 2, wire 1-2, pins 0 3 4";
    makes("xor of x", "01 030000 030001 1302 14 1A0402 1100", left, left);
    let one = "xor 0, one 3, wire 3-0, pins 1 2";
    makes("xor of one", "01 030000 030001 14 1A0402 1A0600", one, one);
    makes("inv alone", "01 030000 1A0501", "inv 0, pins 0 1", "inv 0, pins 0 1");
    makes("or alone", "01 030000 030001 1A0302", "or 0, pins 0 1 2", "or 0, pins 0 1 2");
}

#[test]
fn rings_and_dropped_bits() {
    makes(
        "nested products in a ring",
        "01 020000 020101 1902 18 1100 18 1101 1702 1701 1100 1101 1102",
        "points 0 2 4 6, wire 3-0, wire 1-2, wire 5-4, wire 7-6, pins 3 1 5 7",
        "points 0 4 6, wire 1-0, wire 5-4, wire 7-6, pins 1 1 5 7",
    );
    makes(
        "a ring with a tail",
        "01 030000 14 1301 1100 1900 1100",
        "points 0 2, wire 3-2, wire 3-0, pin 1",
        "point 2, wire 3-2, pin 3",
    );
    makes(
        "a ring of two",
        "01 030000 1900 14 1301 1100 1100",
        "points 0 2, wire 1-2, wire 3-0, pin 3",
        "point 0, wire 1-0, pin 1",
    );
    makes(
        "a dropped bit",
        "01 030000 14 1301 1A0000 1A0600",
        "point 0, zero 2, one 3, wire 3-0, pin 2",
        "zero 2, one 3, pin 2",
    );
    makes(
        "a ring that nobody reads",
        "01 030000 14 1301 1A0000 1900 1100",
        "point 0, zero 2, point 3, wire 4-3, wire 4-0, pin 2",
        "zero 2, point 3, wire 4-3, pin 2",
    );
    makes(
        "a function's unused variable stays a pin",
        "01 030000 1301 1A0600",
        "point 0, one 2, pins 0 2",
        "point 0, one 2, pins 0 2",
    );
}
