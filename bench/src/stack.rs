//! The stack's high-water mark of translations by class, and of the other calls on their named cases,
//! measured by the host process on a painted stack.

use crate::boundary::{told, wishes, Call, Host};
use crate::classes::classes;
use crate::differential::lay;
use crate::fences::Fences;
use crate::modes::{Mode, MODES};
use crate::texts::{nested, Nested};
use second::random::Random;
use second::sheet::MEMORY;
use second::Wish;

/// The most that a call may take, and a translation of a sheet that is so deep (request L5, README).
const MOST: u64 = 32_768;
const MOST_AT: [(u8, u64); 1] = [(8, 6_144)];

/// A high-water mark that is within its limit, or which one is not.
fn within(what: &str, bytes: u64, most: u64) -> Result<u64, String> {
    match bytes <= most {
        true => Ok(bytes),
        false => Err(format!("{what}: {bytes} bytes of stack, at most {most} are said")),
    }
}

pub fn print() -> Result<(), String> {
    let mut fences = Fences::new();
    let mut host = Host::start(&fences);
    by_class(&mut fences, &mut host)?;
    by_depth(&mut fences, &mut host)?;
    let others = |mode: &&Mode| mode.call != Call::Translate;
    for mode in MODES.iter().filter(others) {
        by_call(mode, &mut fences, &mut host)?;
    }
    by_text(&mut fences, &mut host)
}

/// Most of all named cases of a call.
fn by_call(mode: &Mode, fences: &mut Fences, host: &mut Host) -> Result<(), String> {
    let mut random = Random::new(1);
    let (mut most, mut cases) = (0, 0);
    for case in (mode.named)(&mut random) {
        let request = case.request(&mut random);
        if request.fits() {
            let places = lay(fences, &request, random.draw());
            most = host.stack(mode.call, &places, request.last)?.max(most);
            cases += 1;
        }
    }
    println!("{:<27}{most:>9}  ({cases} named cases)", mode.call.name());
    within(mode.call.name(), most, MOST).map(|_| ())
}

/// Of texts in which one thing stands in another: as deep as it is taken, and refused one deeper.
fn by_text(fences: &mut Fences, host: &mut Host) -> Result<(), String> {
    println!("\nStack: of texts, by what stands in itself: taken, and refused one deeper.");
    println!("{:<27}{:>9}{:>9}{:>9}", "text", "levels", "taken", "refused");
    for Nested { name, levels, taken, refused } in nested() {
        let most = [make(fences, host, &taken)?, make(fences, host, &refused)?];
        println!("{name:<27}{levels:>9}{:>9}{:>9}", most[0], most[1]);
        within(name, most[0].max(most[1]), MOST)?;
    }
    Ok(())
}

/// The stack of one text.
fn make(fences: &mut Fences, host: &mut Host, text: &str) -> Result<u64, String> {
    let lent = [
        fences.place(0, text.len(), 1, true),
        fences.place(1, 1 << 16, 1, true),
        fences.place(2, 2_048, 2, true),
        fences.place(3, MEMORY, 2, true),
    ];
    fences.bytes_mut(lent[0].offset, text.len()).copy_from_slice(text.as_bytes());
    host.stack(Call::Make, &lent, 0)
}

/// Functions one in the other, as deep as is said: the innermost is the variable with this number.
fn functions(depth: u8, variable: u8) -> Vec<u8> {
    let types = (1..depth).flat_map(|k| [3, 0, k - 1]);
    let nodes = (1..depth).rev().flat_map(|k| [0x13, k]);
    [1].into_iter().chain(types).chain(nodes).chain([0x11, variable]).collect()
}

/// By stage: a sheet that is read to its end and refused there (9), one that is refused at its deepest
/// node (10), and one that is translated.
fn by_depth(fences: &mut Fences, host: &mut Host) -> Result<(), String> {
    println!("\nStack: of functions one in the other, by depth and up to a stage.");
    println!("{:<27}{:>9}{:>11}{:>9}", "depth", "read (9)", "typed (10)", "whole");
    for depth in [1, 2, 4, 8, 16, 32, 64] {
        let whole = functions(depth, 0);
        let longer = whole.iter().copied().chain([0]).collect();
        let mut most = [0; 3];
        for (most, sheet) in most.iter_mut().zip([longer, functions(depth, depth), whole]) {
            for wish in wishes(Call::Translate) {
                *most = translate(fences, host, &sheet, 57728, wish)?.max(*most);
            }
        }
        println!("{depth:<27}{:>9}{:>11}{:>9}", most[0], most[1], most[2]);
        let limit = MOST_AT.iter().find(|(at, _)| *at == depth).map_or(MOST, |(_, limit)| *limit);
        within(&format!("depth {depth}"), most.into_iter().max().unwrap_or(0), limit)?;
    }
    Ok(())
}

/// The stack of one translation.
fn translate(
    fences: &mut Fences,
    host: &mut Host,
    sheet: &[u8],
    room: usize,
    wish: Wish,
) -> Result<u64, String> {
    let lent = [
        fences.place(0, sheet.len(), 1, true),
        fences.place(1, room, 1, true),
        fences.place(2, MEMORY, 2, true),
    ];
    fences.bytes_mut(lent[0].offset, sheet.len()).copy_from_slice(sheet);
    host.stack(Call::Translate, &lent, told(wish))
}

fn by_class(fences: &mut Fences, host: &mut Host) -> Result<(), String> {
    println!("\nStack: most bytes written below the caller's frame, by class, of all wishes.");
    println!("{:<27}{:>9}{:>9}", "class", "full", "lean");
    for class in classes() {
        let mut most = [0, 0];
        for sheet in &class.sheets {
            for wish in wishes(Call::Translate) {
                let which = usize::from(wish.lean);
                most[which] = translate(fences, host, sheet, class.room, wish)?.max(most[which]);
            }
        }
        println!("{:<27}{:>9}{:>9}", class.name, most[0], most[1]);
        within(class.name, most[0].max(most[1]), MOST)?;
    }
    Ok(())
}
