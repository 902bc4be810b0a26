//! What became of the calls, and the summary that is printed.

use std::collections::BTreeMap;
use std::fmt;

/// Something that is counted: by group, then by label, numbers in their order.
#[derive(Clone, Debug, PartialEq, Eq, PartialOrd, Ord)]
pub struct Key {
    pub group: &'static str,
    length: usize,
    label: String,
}

impl Key {
    pub fn new(group: &'static str, label: impl ToString) -> Key {
        let label = label.to_string();
        Key { group, length: label.len(), label }
    }

    /// An answer's number; 0 for accepted.
    pub fn number(group: &'static str, word: u64) -> Key {
        Key::new(group, Said(word).number())
    }
}

#[derive(Default)]
pub struct Tally {
    pub named: usize,
    pub generated: usize,
    pub calls: usize,
    /// Left out, since a slice is longer than its stretch.
    pub too_long: usize,
    counts: BTreeMap<Key, usize>,
}

impl Tally {
    #[cfg(linked)]
    pub fn of(named: usize, generated: usize) -> Tally {
        Tally { named, generated, ..Tally::default() }
    }

    pub fn count(&mut self, keys: &[Key]) {
        for key in keys {
            *self.counts.entry(key.clone()).or_default() += 1;
        }
    }

    /// Of these keys, those that never occurred.
    pub fn missing(&self, due: &[Key]) -> Vec<String> {
        let missing = due.iter().filter(|key| !self.counts.contains_key(key));
        missing.map(|key| format!("{} {}", key.group, key.label)).collect()
    }

    /// A line for the whole, then one for each group: `0` stands for accepted.
    pub fn print(&self, name: &str) {
        let Tally { named, generated, calls, too_long, .. } = self;
        println!("{name}: {named} named and {generated} generated cases, {calls} calls");
        if *too_long > 0 {
            println!("  NOT TRIED: {too_long} calls with a slice too long for its stretch");
        }
        let mut last = "";
        let mut line = String::new();
        for (key, count) in &self.counts {
            if key.group != last {
                print_line(&line);
                last = key.group;
                line = format!("  {last}");
            }
            line += &format!("  {}: {count}", key.label);
        }
        print_line(&line);
    }
}

fn print_line(line: &str) {
    if !line.is_empty() {
        println!("{line}");
    }
}

/// A word in its four fields: number, value or place, wanted, found.
#[derive(Clone, Copy)]
pub struct Said(pub u64);

impl Said {
    pub fn number(self) -> usize {
        (self.0 >> 32) as usize & 0xFF
    }

    pub fn value(self) -> usize {
        self.0 as usize & 0xFFFF_FFFF
    }

    pub fn wanted(self) -> usize {
        (self.0 >> 40) as usize & 0xFFF
    }

    fn found(self) -> usize {
        (self.0 >> 52) as usize
    }
}

impl fmt::Display for Said {
    fn fmt(&self, to: &mut fmt::Formatter) -> fmt::Result {
        let (number, value) = (self.number(), self.value());
        write!(to, "{number} {value} ({} {})", self.wanted(), self.found())
    }
}
