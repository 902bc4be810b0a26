//! docs/NOTATION.md, the paragraph on words: bytes to words; 30, 31, and 34 for a number above 255.

use crate::parts::PARTS;
use crate::refusal::{need, Refusal};

pub const TEXT_BYTES: usize = 65_535;
pub const MOST_NUMBER: usize = 255;

/// The reserved words, and the signs by their plain form: `λ` is `fun`, `→` is `->`.
pub type Key = &'static str;

#[derive(Clone, Copy, Debug, PartialEq, Eq)]
pub enum Kind<'a> {
    Name(&'a [u8]),
    Number(usize),
    Part(u8),
    Key(Key),
    /// Behind the last word.
    End,
}

#[derive(Clone, Copy, Debug, PartialEq, Eq)]
pub struct Word<'a> {
    pub at: usize,
    pub kind: Kind<'a>,
}

const RESERVED: [Key; 7] = ["fun", "fix", "let", "in", "type", "edition", "table"];

/// Longer signs stand before the ones that they begin with.
const SIGNS: [(&str, Key); 18] = [
    ("->", "->"),
    ("-o", "-o"),
    ("λ", "fun"),
    ("×", "*"),
    ("→", "->"),
    ("⊸", "-o"),
    ("=", "="),
    (":", ":"),
    (".", "."),
    (",", ","),
    ("(", "("),
    (")", ")"),
    ("[", "["),
    ("]", "]"),
    ("{", "{"),
    ("}", "}"),
    ("*", "*"),
    ("^", "^"),
];
const PLUS: (&str, Key) = ("+", "+");

/// The words of a whole text, and the end.
pub fn words(text: &[u8]) -> Result<Vec<Word<'_>>, Refusal> {
    need(text.len() <= TEXT_BYTES, 30, 0)?;
    let mut words = Vec::new();
    let mut at = after_blanks(text, 0);
    while at < text.len() {
        let (kind, length) = word(text, at)?;
        words.push(Word { at, kind });
        at = after_blanks(text, at + length);
    }
    words.push(Word { at: text.len(), kind: Kind::End });
    Ok(words)
}

fn after_blanks(text: &[u8], mut at: usize) -> usize {
    loop {
        match text[at..] {
            [9..=13 | 32, ..] => at += 1,
            [b'-', b'-', ..] => at += comment(&text[at..]),
            _ => return at,
        }
    }
}

/// "A comment goes from `--` to byte 10 or 13."
fn comment(text: &[u8]) -> usize {
    text.iter().position(|byte| [10, 13].contains(byte)).unwrap_or(text.len())
}

fn word(text: &[u8], at: usize) -> Result<(Kind<'_>, usize), Refusal> {
    let length = text[at..].iter().take_while(|&&byte| in_a_run(byte)).count();
    if length > 0 && text[at] != b'\'' {
        return Ok((run(&text[at..at + length], at)?, length));
    }
    let begins = |sign: &&(&str, Key)| text[at..].starts_with(sign.0.as_bytes());
    match SIGNS.iter().chain([&PLUS]).find(begins) {
        Some((sign, key)) => Ok((Kind::Key(key), sign.len())),
        None => Err(Refusal::new(31, at)),
    }
}

fn in_a_run(byte: u8) -> bool {
    byte.is_ascii_alphanumeric() || byte == b'_' || byte == b'\''
}

fn run(run: &[u8], at: usize) -> Result<Kind<'_>, Refusal> {
    if run[0].is_ascii_digit() {
        return number(run, at).map(Kind::Number);
    }
    if let Some(key) = RESERVED.iter().find(|key| key.as_bytes() == run) {
        return Ok(Kind::Key(key));
    }
    match PARTS.iter().position(|part| part.name.as_bytes() == run) {
        Some(part) => Ok(Kind::Part(part as u8)),
        None => Ok(Kind::Name(run)),
    }
}

/// "It is a number if it begins with a digit: then all are digits, and it is at most 255."
fn number(run: &[u8], at: usize) -> Result<usize, Refusal> {
    need(run.iter().all(u8::is_ascii_digit), 31, at)?;
    let grown =
        |sum: usize, digit: &u8| (10 * sum + usize::from(digit - b'0')).min(MOST_NUMBER + 1);
    let number = run.iter().fold(0, grown);
    need(number <= MOST_NUMBER, 34, at)?;
    Ok(number)
}
