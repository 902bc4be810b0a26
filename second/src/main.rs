//! Document 01, the listing program, and the corpora that other programs are compared on.

use second::answers::{answer, cover};
use second::corpus::{self, Kind};
use second::edges_notation;
use second::editions;
use second::notation_make::{make, Made};
use second::notation_texts;
use second::random::Random;
use second::refusal::Refusal;
use second::run::{ran, runnable, Trace};
use second::sheet::MEMORY;
use std::io::{self, Read, Write};
use std::process::ExitCode;

const USAGE: &str = "second: sheets to netlists, written from documents 01 and 02 alone

usage:
  second listing < sheet            both netlists in words, or the refusal
  second hex < text                 hex bytes to raw bytes; # starts a comment
  second run TICKS STARTS INPUTS < sheet
                                    a line of bits for each tick, what the output pins show; then `held` and
                                    what the registers would show next. A bit is 0 or 1, and - no bit at all
  second make < text                the sheet of a text in the notation: `made`, its bytes in hex, and where the
                                    word of each node begins; or `refused NUMBER PLACE`
  second texts SEED COUNT           write the named texts in the notation, then generated ones, each behind its
                                    length in four bytes
  second makes < texts              one line for each: made, the sheet, the places; or refused NUMBER PLACE
  second corpus SEED COUNT DIR      write generated sheets of both editions DIR/00000.sheet ..
  second pack KIND SEED COUNT LIMIT write a packed corpus in at most LIMIT bytes
  second answers KIND < packed      one line of numbers for each case
  second cover KIND < packed        what becomes of the cases

KIND is reading, typing, making or whole.
";

fn main() -> ExitCode {
    let arguments: Vec<String> = std::env::args().skip(1).collect();
    let words: Vec<&str> = arguments.iter().map(String::as_str).collect();
    let done = match words[..] {
        [] | ["--help"] => write_out(USAGE.as_bytes()),
        ["listing"] => listing(),
        ["hex"] => hex(),
        ["run", ticks, starts, inputs] => run(ticks, starts, inputs),
        ["make"] => read_in().and_then(|text| write_out(made(&text).as_bytes())),
        ["texts", seed, count] => texts(seed, count),
        ["makes"] => makes(),
        ["corpus", seed, count, folder] => corpus(seed, count, folder),
        ["pack", kind, seed, count, limit] => pack(kind, seed, count, limit),
        ["answers", kind] => answers(kind),
        ["cover", kind] => covered(kind),
        _ => Err(format!("these arguments say nothing here\n\n{USAGE}")),
    };
    match done {
        Ok(()) => ExitCode::SUCCESS,
        Err(message) => {
            eprintln!("second: {message}");
            ExitCode::from(2)
        }
    }
}

fn said(error: io::Error) -> String {
    error.to_string()
}

fn write_out(bytes: &[u8]) -> Result<(), String> {
    let mut out = io::stdout().lock();
    out.write_all(bytes).and_then(|()| out.flush()).map_err(said)
}

fn read_in() -> Result<Vec<u8>, String> {
    let mut bytes = Vec::new();
    io::stdin().lock().read_to_end(&mut bytes).map_err(said)?;
    Ok(bytes)
}

fn number<T: std::str::FromStr>(word: &str) -> Result<T, String> {
    word.parse().map_err(|_| format!("{word} is no number here"))
}

fn kind(word: &str) -> Result<Kind, String> {
    Kind::named(word).ok_or_else(|| format!("{word} is no kind of corpus"))
}

/// One byte more than a sheet may have tells refusal 2.
fn listing() -> Result<(), String> {
    let mut sheet = Vec::new();
    let most = second::sheet::SHEET_BYTES as u64 + 1;
    io::stdin().lock().take(most).read_to_end(&mut sheet).map_err(said)?;
    write_out(second::listing(&sheet).as_bytes())
}

fn hex() -> Result<(), String> {
    let text = String::from_utf8(read_in()?).map_err(|_| "the text is no text".to_string())?;
    let mut bytes = Vec::new();
    for line in text.lines() {
        let line = line.split('#').next().unwrap_or("");
        for word in line.split_whitespace() {
            let digits = word.bytes().all(|digit| digit.is_ascii_hexdigit());
            let byte = u8::from_str_radix(word, 16).ok().filter(|_| digits);
            bytes.push(byte.ok_or_else(|| format!("{word} is no hex byte"))?);
        }
    }
    write_out(&bytes)
}

/// Document 02, L4: a refusal is an error here.
fn run(ticks: &str, starts: &str, inputs: &str) -> Result<(), String> {
    let (sheet, ticks) = (read_in()?, number(ticks)?);
    let (starts, inputs) = (bits(starts)?, bits(inputs)?);
    let trace = Trace { ticks, inputs: &inputs, starts: &starts };
    let refused = |refusal: Refusal| format!("refused {} at {}", refusal.number, refusal.place);
    ran(&sheet, trace, usize::MAX, MEMORY).map_err(refused)?;
    let circuit = runnable(&sheet, MEMORY).map_err(refused)?;
    let (went, (_, _, width)) = (circuit.run(trace), circuit.counts());
    let mut text = String::new();
    for tick in 0..usize::from(ticks) {
        text += &format!("{}\n", shown(&went.shown[tick * width..(tick + 1) * width]));
    }
    write_out(format!("{text}held {}\n", shown(&went.held)).as_bytes())
}

fn bits(word: &str) -> Result<Vec<u8>, String> {
    let bit = |digit: u8| match digit {
        b'0' | b'1' => Ok(digit - b'0'),
        _ => Err(format!("{word} is no row of bits")),
    };
    if word == "-" {
        Ok(Vec::new())
    } else {
        word.bytes().map(bit).collect()
    }
}

fn shown(bits: &[u8]) -> String {
    match bits {
        [] => "-".to_string(),
        _ => bits.iter().map(|bit| char::from(b'0' + bit)).collect(),
    }
}

fn texts(seed: &str, count: &str) -> Result<(), String> {
    let (mut random, count): (Random, usize) = (Random::new(number(seed)?), number(count)?);
    let mut texts: Vec<Vec<u8>> =
        edges_notation::edges().into_iter().map(|edge| edge.text).collect();
    texts
        .extend(edges_notation::within_the_limits().into_iter().map(|(_, text)| text.into_bytes()));
    texts.extend((0..count).map(|index| notation_texts::any(&mut random, index)));
    write_out(&notation_texts::packed(&texts))
}

fn makes() -> Result<(), String> {
    let bytes = read_in()?;
    let texts = notation_texts::unpacked(&bytes).ok_or("a text is cut short")?;
    let lines: Vec<String> =
        texts.iter().map(|text| made(text).trim_end().replace('\n', " / ") + "\n").collect();
    write_out(lines.concat().as_bytes())
}

fn made(text: &[u8]) -> String {
    match make(text) {
        Ok(Made { sheet, places }) => {
            let bytes: Vec<String> = sheet.iter().map(|byte| format!("{byte:02X}")).collect();
            let places: Vec<String> = places.iter().map(usize::to_string).collect();
            format!("made\n{}\n{}\n", bytes.join(" "), places.join(" "))
        }
        Err(refusal) => format!("refused {} {}\n", refusal.number, refusal.place),
    }
}

fn corpus(seed: &str, count: &str, folder: &str) -> Result<(), String> {
    let mut random = Random::new(number(seed)?);
    let count: usize = number(count)?;
    std::fs::create_dir_all(folder).map_err(said)?;
    for index in 0..count {
        let sheet = match index % 3 {
            2 => editions::any(&mut random, index / 3),
            _ => corpus::any(&mut random, index),
        };
        let path = std::path::Path::new(folder).join(format!("{index:05}.sheet"));
        std::fs::write(path, sheet).map_err(said)?;
    }
    Ok(())
}

fn pack(kind_word: &str, seed: &str, count: &str, limit: &str) -> Result<(), String> {
    let (cases, left_out) =
        corpus::pack(kind(kind_word)?, number(seed)?, number(count)?, number(limit)?);
    if left_out > 0 {
        eprintln!("second: {left_out} named cases did not fit and were left out");
    }
    write_out(&corpus::pack_cases(&cases))
}

fn answers(kind_word: &str) -> Result<(), String> {
    let kind = kind(kind_word)?;
    let mut text = String::new();
    for case in corpus::unpack(&read_in()?)? {
        text.push_str(&answer(kind, &case));
        text.push('\n');
    }
    write_out(text.as_bytes())
}

fn covered(kind_word: &str) -> Result<(), String> {
    let kind = kind(kind_word)?;
    write_out(cover(kind, &corpus::unpack(&read_in()?)?).as_bytes())
}
