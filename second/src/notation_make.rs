//! docs/NOTATION.md: the call from a text to a sheet, and the order of its refusals.

use crate::lent::leave;
use crate::notation_grammar::parsed;
use crate::notation_making::{MadeTerm, Maker};
use crate::notation_scope::Place;
use crate::notation_tree::Text;
use crate::refusal::{need, word, Refusal};
use crate::sheet::{MEMORY, SECOND_EDITION};

const MAIN: &[u8] = b"main";

/// A sheet, and for each of its nodes where its word begins.
#[derive(Clone, Debug, PartialEq, Eq)]
pub struct Made {
    pub sheet: Vec<u8>,
    pub places: Vec<usize>,
}

/// A text's sheet; 30 to 36.
pub fn make(text: &[u8]) -> Result<Made, Refusal> {
    let text = parsed(text)?;
    let mut maker = Maker::new(&text);
    table_lines(&text, &mut maker)?;
    maker.cost = judged(&text, &maker)?;
    let main = text.meant(text.clauses.len(), false, MAIN, 0, &[]);
    let clause = main.ok_or(Refusal::new(33, text.end))?;
    let term = maker.clause(clause, text.end)?.expect("a term's clause makes a term");
    Ok(written(&maker, term))
}

/// The call with lent slices: 1 first; 17 and 37 last. Only what is accepted is written. The answer's value is the number
/// of bytes written.
pub fn call(text: &[u8], output: &mut [u8], places: &mut [u16], memory: &mut [u16]) -> u64 {
    let made = need(memory.len() >= MEMORY, 1, 0)
        .and_then(|()| make(text))
        .and_then(|made| fitting(made, output.len(), places.len()));
    if let Ok(Made { places: offsets, .. }) = &made {
        for (place, &at) in places.iter_mut().zip(offsets) {
            *place = at as u16;
        }
    }
    word(leave(made.map(|made| made.sheet), output, memory))
}

/// What was made, where the room does; 17 before 37.
fn fitting(made: Made, room: usize, places: usize) -> Result<Made, Refusal> {
    let (bytes, nodes) = (made.sheet.len(), made.places.len());
    need(room >= bytes, 17, bytes)?;
    need(places >= nodes, 37, nodes)?;
    Ok(made)
}

fn table_lines<'a>(text: &Text<'a>, maker: &mut Maker<'_, 'a>) -> Result<(), Refusal> {
    for table in &text.tables {
        let place = Place { known: table.above, own: 0, around: 0 };
        for written in &table.types {
            maker.type_of(place, written)?;
        }
    }
    Ok(())
}

/// "each is made and thrown away, behind the `table` lines and before `main`": only what it cost is kept.
fn judged(text: &Text, maker: &Maker) -> Result<usize, Refusal> {
    let mut cost = maker.cost;
    for (number, clause) in text.clauses.iter().enumerate() {
        let is_main = !clause.head.of_type && clause.head.named.name == MAIN;
        if !clause.has_parameters() && !is_main {
            let mut alone = maker.clone();
            alone.cost = cost;
            alone.clause(number, clause.head.named.at)?;
            cost = alone.cost;
        }
    }
    Ok(cost)
}

fn written(maker: &Maker, term: MadeTerm) -> Made {
    let mut sheet: Vec<u8> = if maker.text.second { vec![SECOND_EDITION] } else { vec![] };
    sheet.extend(maker.table.records());
    let places = term.nodes.iter().map(|node| node.place).collect();
    sheet.extend(term.nodes.into_iter().flat_map(|node| node.record));
    Made { sheet, places }
}
