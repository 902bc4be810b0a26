//! What drives a sheet's module: trace_text bench FILE (for Icarus Verilog, with +ticks=N and +seed=K) or trace_text driver
//! FILE (C++ for Verilator, with N as its word, registers as the model starts them). Both draw the bits as
//! trace_once.c does, and print its sum of the bits shown. trace_text counts FILE prints inputs, registers and
//! outputs; trace_text sheets COUNT SEED FOLDER writes sheets that can be run.

use second::lean::lean;
use second::netlist::{Element, Terminal};
use second::random::Random;
use second::run::{ran, Circuit, Trace};
use second::sheet::MEMORY;
use second::translate::accepted;

fn main() {
    let words: Vec<String> = std::env::args().collect();
    if words[1] == "sheets" {
        return sheets(&words[2], &words[3], &words[4]);
    }
    let sheet = std::fs::read(&words[2]).expect("the sheet is read");
    let Ok(accepted) = accepted(&sheet) else { panic!("the sheet is accepted") };
    let lean = lean(&accepted.full);
    let pins: Vec<bool> = lean.pins.iter().map(|pin| matches!(pin, Terminal::Input(_))).collect();
    match words[1].as_str() {
        "bench" => print!("{}", bench(&pins, &registers(&lean.elements))),
        "driver" => print!("{}", driver(&pins)),
        "counts" => {
            let (inputs, registers, outputs) = Circuit::of(lean).counts();
            println!("{inputs} {registers} {outputs}");
        }
        other => panic!("{other} says nothing here"),
    }
}

/// Circuits without rings, with registers and pins of both sorts.
fn sheets(count: &str, seed: &str, folder: &str) {
    let mut random = Random::new(seed.parse().expect("a seed"));
    let mut written = 0;
    while written < count.parse().expect("a count") {
        let sheet = second::circuits::circuit(&mut random);
        let Ok(made) = accepted(&sheet) else { continue };
        let (inputs, registers, outputs) = Circuit::of(lean(&made.full)).counts();
        let starts = vec![0; registers];
        let trace = Trace { ticks: 0, inputs: &[], starts: &starts };
        if inputs * registers * outputs > 0 && ran(&sheet, trace, 0, MEMORY).is_ok() {
            std::fs::write(format!("{folder}/{written:03}"), &sheet).expect("the sheet is written");
            written += 1;
        }
    }
}

/// The registers' outputs, by rising terminal.
fn registers(elements: &[Element]) -> Vec<u16> {
    let outputs = elements.iter().filter_map(|element| match element {
        Element::Part { part: 1, .. } => Some(element.output().0),
        _ => None,
    });
    outputs.collect()
}

fn bench(pins: &[bool], registers: &[u16]) -> String {
    let (mut ports, mut draws, mut sums, mut starts) = (String::new(), String::new(), String::new(), String::new());
    for output in registers {
        starts += &format!("    seed = seed * 32'd1103515245 + 32'd12345; c.t{output:04} = seed[16];\n");
    }
    for (position, input) in pins.iter().enumerate() {
        ports += &format!(", .p{position:04}({}[{position}])", if *input { "given" } else { "shown" });
        if *input {
            draws += &format!("      seed = seed * 32'd1103515245 + 32'd12345; given[{position}] = seed[16];\n");
        } else {
            sums += &format!("      sum = sum * 64'd31 + shown[{position}];\n");
        }
    }
    let last = pins.len().saturating_sub(1);
    format!(
        "module bench;\n  reg clock;\n  reg [{last}:0] given;\n  wire [{last}:0] shown;\n  reg [31:0] seed;\n  \
         reg [63:0] sum;\n  integer t, ticks;\n  circuit c (.clock(clock){ports});\n  initial begin\n    \
         clock = 0; seed = 1; sum = 0; t = $value$plusargs(\"ticks=%d\", ticks); t = $value$plusargs(\"seed=%d\", seed);\n{starts}    \
         for (t = 0; t < ticks; t = t + 1) begin\n{draws}      #1;\n{sums}      clock = 1; #1 clock = 0;\n    end\n    \
         $display(\"%0d\", sum);\n    $finish;\n  end\nendmodule\n"
    )
}

fn driver(pins: &[bool]) -> String {
    let (mut draws, mut sums) = (String::new(), String::new());
    for (position, input) in pins.iter().enumerate() {
        if *input {
            draws += &format!("        seed = seed * 1103515245 + 12345; c.p{position:04} = seed >> 16 & 1;\n");
        } else {
            sums += &format!("        sum = sum * 31 + c.p{position:04};\n");
        }
    }
    format!(
        "#include \"Vcircuit.h\"\n#include <cstdint>\n#include <cstdio>\n#include <cstdlib>\nint main(int, char **words) {{\n    \
         Vcircuit c;\n    uint32_t seed = 1;\n    uint64_t sum = 0;\n    long ticks = std::atol(words[1]);\n    c.clock = 0;\n    \
         for (long t = 0; t < ticks; t++) {{\n{draws}        c.eval();\n{sums}        c.clock = 1;\n        c.eval();\n        \
         c.clock = 0;\n    }}\n    std::printf(\"%llu\\n\", (unsigned long long)sum);\n}}\n"
    )
}
