//! Document 01, "Numbers of the refusals": one call, refusals 1 to 17 in their order, and what the
//! call leaves in the output and in the working memory; and document 02, L6: which kinds it writes,
//! and L12: the card's profile.

use crate::card::profile;
use crate::check::check;
use crate::full::{full, terminals};
use crate::lean::lean;
use crate::lent::leave;
use crate::netlist::{written, written_length, Netlist};
use crate::read::read;
use crate::refusal::{need, word, Refusal};
use crate::sheet::*;

/// What a call is told by yes or no.
#[derive(Clone, Copy, Debug, Default, PartialEq, Eq, Hash)]
pub struct Wish {
    /// The lean netlist, not the full one.
    pub lean: bool,
    /// The kinds 21 and 22, which name no nodes.
    pub plain: bool,
    /// The card's profile.
    pub card: bool,
}

impl Wish {
    /// What calls could ask for before document 02.
    fn of_document_01(lean: bool) -> Wish {
        Wish { lean, plain: true, card: false }
    }
}

/// A sheet that refusals 2 to 16 let pass.
pub struct Accepted {
    pub sheet: Sheet,
    /// The root's type.
    pub root: TypeNumber,
    pub full: Netlist,
}

/// Refusals 2 to 16.
pub fn accepted(sheet: &[u8]) -> Result<Accepted, Refusal> {
    let sheet = read(sheet)?;
    let root = check(&sheet)?;
    need(terminals(&sheet) <= TERMINALS, 16, 0)?;
    let full = full(&sheet);
    Ok(Accepted { sheet, root, full })
}

/// The netlist asked for: refusals 2 to 16.
pub fn netlist(sheet: &[u8], lean_wanted: bool) -> Result<Netlist, Refusal> {
    let full = accepted(sheet)?.full;
    Ok(if lean_wanted { lean(&full) } else { full })
}

/// The bytes of the netlist asked for, with `room` output bytes and `memory` working numbers lent.
pub fn wished(sheet: &[u8], wish: Wish, room: usize, memory: usize) -> Result<Vec<u8>, Refusal> {
    need(memory >= MEMORY, 1, 0)?;
    let Accepted { sheet, root, full } = accepted(sheet)?;
    if wish.card {
        profile(&sheet, root, &lean(&full))?;
    }
    let netlist = if wish.lean { lean(&full) } else { full };
    let needed = written_length(&netlist, wish.plain);
    need(needed <= room, 17, needed)?;
    Ok(written(&netlist, wish.plain))
}

/// The call: its answer as a word, the output and the working memory left as document 01 says.
pub fn call(sheet: &[u8], output: &mut [u8], memory: &mut [u16], wish: Wish) -> u64 {
    let result = wished(sheet, wish, output.len(), memory.len());
    word(leave(result, output, memory))
}

/// The call of document 01, in plain kinds.
pub fn translate(sheet: &[u8], lean: bool, room: usize, memory: usize) -> Result<Vec<u8>, Refusal> {
    wished(sheet, Wish::of_document_01(lean), room, memory)
}

/// The same call on lent storage.
pub fn translate_into(
    sheet: &[u8],
    lean: bool,
    output: &mut [u8],
    memory: &mut [u16],
) -> Result<usize, Refusal> {
    leave(translate(sheet, lean, output.len(), memory.len()), output, memory)
}
