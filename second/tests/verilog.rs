//! Document 02, L1: the text of small modules in full, lengths by counting, and the text read back.

use second::circuits;
use second::edges_verilog;
use second::netlist::{Element, Input, Netlist, Output, Terminal, Wire};
use second::random::Random;
use second::translate::netlist;
use second::verilog::{call, exported, module};
use second::write::hex;
use second::{word, Refusal};
use std::panic::catch_unwind;

const ROOM: usize = 1_000_000;

fn text(sheet: &str) -> String {
    String::from_utf8(exported(&hex(sheet), ROOM, 32_768).expect("a module")).expect("a text")
}

#[test]
fn small_modules_in_full() {
    // P6: and of zero and reg, back into reg
    let p6 = text("01 030000 030001 1900 14 14 1A0202 1A0000 14 1A0101 1100");
    assert_eq!(
        p6,
        "module circuit (
  input clock,
  output p0000
);
wire t0002, t0003, t0004;
and (t0004, t0002, t0003);
wire t0005;
assign t0005 = 1'b0;
wire t0006;
reg t0007;
always @(posedge clock) t0007 <= t0006;
assign t0002 = t0005;
assign t0003 = t0007;
assign t0006 = t0004;
assign p0000 = t0004;
endmodule
"
    );
    // f: 1 -> 1 from outside, given zero: pins 4 and 3 show, pin 2 takes
    assert_eq!(
        text("01 030000 040100 1502 14 1200 1A0000"),
        "module circuit (
  input clock,
  output p0000,
  input p0001,
  output p0002
);
wire t0002, t0003;
assign t0003 = t0002;
wire t0004;
assign t0004 = 1'b0;
assign p0000 = t0004;
assign t0002 = p0001;
assign p0002 = t0003;
endmodule
"
    );
    // not of one, or of it and the input
    assert_eq!(
        text("01 030000 030001 1301 14 14 1A0302 14 1A0501 1A0600 1100"),
        "module circuit (
  input clock,
  input p0000,
  output p0001
);
wire t0000, t0001;
assign t0001 = t0000;
wire t0002, t0003, t0004;
or (t0004, t0002, t0003);
wire t0005, t0006;
not (t0006, t0005);
wire t0007;
assign t0007 = 1'b1;
assign t0002 = t0006;
assign t0003 = t0001;
assign t0005 = t0007;
assign t0000 = p0000;
assign p0001 = t0004;
endmodule
"
    );
}

#[test]
fn each_edge_is_answered_as_expected() {
    let mut wrong = Vec::new();
    for edge in edges_verilog::edges() {
        let answer = exported(&edge.sheet, ROOM, 32_768);
        let found = answer.map(|text| text.len()).map_err(|why| (why.number, why.place));
        if found != edge.answer {
            wrong.push(format!("{}: {found:?}, not {:?}", edge.name, edge.answer));
        }
    }
    assert!(wrong.is_empty(), "{}", wrong.join("\n"));
}

#[test]
fn the_room_and_the_lent_storage() {
    let p1 = hex("01 1A0000");
    let (mut output, mut memory) = (vec![7u8; 116], vec![9u16; 32_769]);
    assert_eq!(call(&p1, &mut output[..114], &mut memory), word(Err(Refusal::new(17, 115))));
    assert_eq!(output, [7; 116]);
    assert_eq!(call(&p1, &mut output[..0], &mut memory), word(Err(Refusal::new(17, 115))));
    memory.fill(9);
    assert_eq!(call(&p1, &mut output, &mut memory), 115);
    assert!(output.starts_with(b"module circuit (\n") && output.ends_with(b"endmodule\n\x07"));
    assert!(memory[..32_768].iter().all(|&number| number == 0) && memory[32_768] == 9);
    memory.fill(9);
    assert_eq!(call(&p1, &mut output, &mut memory[..32_767]), 1 << 32);
    assert!(memory.iter().all(|&number| number == 9));
    // P4 in no room: 18 before 17
    let p4 = hex("01 1900 1100");
    assert_eq!(call(&p4, &mut [], &mut memory), word(Err(Refusal::new(18, 0))));
}

/// A reader of this subset, line by line: statements give elements, the rest wires and pins.
#[derive(Default)]
struct Reader {
    ports: Vec<bool>,
    read: Netlist,
    declared: Vec<u16>,
}

fn number(word: &str) -> u16 {
    let digits = &word[1..];
    assert!(digits.len() == 4 && digits.bytes().all(|digit| digit.is_ascii_digit()), "{word}");
    digits.parse().expect("four digits")
}

impl Reader {
    fn line(&mut self, line: &str) {
        let words: Vec<&str> =
            line.split([' ', ',', ';', '(', ')']).filter(|word| !word.is_empty()).collect();
        match words[..] {
            [] => {}
            ["input", port] => self.port(port, true),
            ["output", port] => self.port(port, false),
            ["wire", ..] => self.declared = words[1..].iter().map(|word| number(word)).collect(),
            ["reg", net] => self.declared.push(number(net)),
            ["always", "@", "posedge", "clock", output, "<=", input] => {
                self.part(1, &[number(input), number(output)]);
            }
            ["and", output, one, other] => self.gate(2, output, one, other),
            ["or", output, one, other] => self.gate(3, output, one, other),
            ["xor", output, one, other] => self.gate(4, output, one, other),
            ["not", output, input] => self.part(5, &[number(input), number(output)]),
            ["assign", output, "=", "1'b0"] => self.part(0, &[number(output)]),
            ["assign", output, "=", "1'b1"] => self.part(6, &[number(output)]),
            ["assign", to, "=", from] => self.assign(to, from),
            _ => panic!("{line}"),
        }
    }

    fn port(&mut self, port: &str, input: bool) {
        assert!(self.read.elements.is_empty() && self.read.pins.is_empty());
        assert_eq!(usize::from(number(port)), self.ports.len());
        self.ports.push(input);
    }

    fn gate(&mut self, part: u8, output: &str, one: &str, other: &str) {
        self.part(part, &[number(one), number(other), number(output)]);
    }

    /// The nets are those that were declared for it.
    fn part(&mut self, part: u8, nets: &[u16]) {
        assert_eq!(self.declared, nets);
        assert!(nets.windows(2).all(|two| two[0] + 1 == two[1]));
        self.element(Element::Part { part, first: nets[0] });
    }

    /// Elements stand before wires and pins.
    fn element(&mut self, element: Element) {
        assert!(self.read.wires.is_empty() && self.read.pins.is_empty());
        self.read.elements.push(element);
        self.declared.clear();
    }

    /// Pins stand behind the wires, in the order of their positions.
    fn pin(&mut self, port: &str, pin: Terminal) {
        assert_eq!(usize::from(number(port)), self.read.pins.len());
        self.read.pins.push(pin);
    }

    fn assign(&mut self, to: &str, from: &str) {
        if self.declared.len() == 2 {
            assert_eq!((self.declared[0], self.declared[1]), (number(from), number(to)));
            assert_eq!(self.declared[0] + 1, self.declared[1]);
            self.element(Element::Point { input: Input(number(from)) });
        } else if from.starts_with('p') {
            self.pin(from, Terminal::Input(Input(number(to))));
        } else if to.starts_with('p') {
            self.pin(to, Terminal::Output(Output(number(from))));
        } else {
            assert!(self.read.pins.is_empty());
            self.read.wires.push(Wire { from: Output(number(from)), to: Input(number(to)) });
        }
    }
}

fn read_back(text: &str) -> Netlist {
    let ports = text.strip_prefix("module circuit (\n  input clock").expect("the header");
    let body = ports.strip_suffix("endmodule\n").expect("the ending");
    let mut reader = Reader::default();
    body.lines().for_each(|line| reader.line(line));
    let sides: Vec<bool> =
        reader.read.pins.iter().map(|pin| matches!(pin, Terminal::Input(_))).collect();
    assert_eq!(sides, reader.ports);
    reader.read
}

/// An inverter from position 0 to position 1, and one fault after the other in it.
#[test]
fn faulty_modules_are_not_read() {
    let sound = "module circuit (
  input clock,
  input p0000,
  output p0001
);
wire t0000, t0001;
not (t0001, t0000);
assign t0000 = p0000;
assign p0001 = t0001;
endmodule
";
    assert_eq!(read_back(sound).pins.len(), 2);
    let pins = "assign t0000 = p0000;\nassign p0001 = t0001;\n";
    let faults = [
        ("not (t0001, t0000)", "not (t0000, t0001)"),
        ("t0001;\nnot (t0001, t0000)", "t0000;\nnot (t0000, t0000)"),
        ("t0001;\nnot (t0001, t0000)", "t0002;\nnot (t0002, t0000)"),
        ("input p0000,\n  output p0001", "output p0000,\n  input p0001"),
        ("output p0001", "input p0001"),
        ("input p0000", "output p0000"),
        ("input p0000,\n  output p0001", "input p0001,\n  output p0000"),
        (",\n  output p0001", ""),
        ("assign p0001", "assign p0000"),
        (pins, "assign p0001 = t0001;\nassign t0000 = p0000;\n"),
        ("assign p0001 = t0001", "assign t0001 = p0001"),
        ("endmodule", "assign t0000 = t0001;\nendmodule"),
        ("endmodule\n", "endmodule\n\n"),
        ("input clock", "output clock"),
    ];
    for (old, new) in faults {
        let text = sound.replace(old, new);
        assert!(text != sound && catch_unwind(|| read_back(&text)).is_err(), "{old} {new}");
    }
}

#[test]
fn generated_modules_are_read_back() {
    let mut random = Random::new(1);
    let (mut modules, mut rings) = (0, 0);
    for index in 0..3_000 {
        let sheet = circuits::any(&mut random, index);
        let lean = netlist(&sheet, true);
        let answer = exported(&sheet, ROOM, 32_768);
        let mut lean = match (lean, &answer) {
            (Ok(lean), _) => lean,
            (Err(refusal), answer) => {
                assert_eq!(*answer, Err(refusal));
                continue;
            }
        };
        let ring = lean.wires.iter().find(|wire| {
            wire.from.0 == wire.to.0 + 1
                && lean.elements.contains(&Element::Point { input: wire.to })
        });
        if let Some(wire) = ring {
            assert_eq!(answer, Err(Refusal::new(18, wire.to.0.into())));
            rings += 1;
            continue;
        }
        let text = String::from_utf8(answer.expect("a module")).expect("a text");
        assert_eq!(text, module(&lean));
        lean.makers.clear();
        assert!(read_back(&text) == lean);
        modules += 1;
    }
    assert!(modules > 1_200 && rings > 100, "{modules} {rings}");
}
