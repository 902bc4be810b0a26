//! The C boundary of the archive: linked in, or called through the host process where the archive was
//! made for another processor. A call is lent slices, in the order of its C signature, and told one
//! number: the node, the ticks, the pin, or its wishes, one bit each.

use crate::fences::{Fences, Place};
use second::Wish;
use std::collections::BTreeSet;
use std::io::{Read, Write};
use std::process::{Child, ChildStdin, ChildStdout, Command, Stdio};

/// The public calls, by their places in host.c's list.
#[derive(Clone, Copy, Debug, PartialEq, Eq)]
pub enum Call {
    Translate,
    Stretch,
    Batch,
    Verilog,
    Run,
    Check,
    Back,
    Lanes,
    Never,
    Make,
}

/// What users are told there is.
const HEADER: &str = include_str!("../../examples/callers/deltawobble.h");

impl Call {
    pub fn name(self) -> &'static str {
        match self {
            Call::Translate => "translate",
            Call::Stretch => "stretch",
            Call::Batch => "batch",
            Call::Verilog => "verilog",
            Call::Run => "run",
            Call::Check => "check",
            Call::Back => "back",
            Call::Lanes => "lanes",
            Call::Never => "never",
            Call::Make => "make",
        }
    }

    /// Its parameters, as the header declares them.
    fn parameters(self) -> &'static str {
        let declared = HEADER.split_once(&format!("deltawobble_{}(", self.name()));
        declared.and_then(|(_, after)| after.split(");").next()).expect("the header declares it")
    }
}

/// What the header declares and what the archive has, held against each other: whether they agree.
pub fn header_and_archive() -> bool {
    let after = HEADER.split("uint64_t deltawobble_").skip(1);
    let declared: BTreeSet<&str> = after.filter_map(|text| text.split('(').next()).collect();
    let there: BTreeSet<&str> = env!("ARCHIVE_CALLS").split(' ').collect();
    for name in declared.difference(&there) {
        println!(
            "NOT THERE: deltawobble.h declares deltawobble_{name}, and the archive has it not"
        );
    }
    for name in there.difference(&declared) {
        println!("NOT DECLARED: the archive has deltawobble_{name}, and deltawobble.h does not");
    }
    println!("header and archive: {} calls declared, {} there", declared.len(), there.len());
    declared == there
}

/// What a call can be asked for, as its declaration has it.
pub fn wishes(call: Call) -> Vec<Wish> {
    let told = |name: &str| call.parameters().contains(&format!("bool {name}"));
    let choices = |there: bool, otherwise: bool| match there {
        true => vec![false, true],
        false => vec![otherwise],
    };
    let mut wishes = Vec::new();
    for lean in [false, true] {
        for &plain in &choices(told("plain"), true) {
            for &card in &choices(told("card"), false) {
                wishes.push(Wish { lean, plain, card });
            }
        }
    }
    wishes
}

/// Wishes as a number.
pub fn told(wish: Wish) -> u64 {
    u64::from(wish.lean) | u64::from(wish.plain) << 1 | u64::from(wish.card) << 2
}

#[cfg(linked)]
pub mod linked {
    use super::{told, Call};
    use second::Wish;

    extern "C" {
        #[rustfmt::skip]
        fn deltawobble_translate(
            sheet: *const u8,
            sheet_len: usize,
            out: *mut u8,
            out_len: usize,
            work: *mut u16,
            work_len: usize,
            lean: bool,
            plain: bool,
            card: bool,
        ) -> u64;
        fn deltawobble_stretch(sheet: *const u8, sheet_len: usize, node: usize) -> u64;
        #[rustfmt::skip]
        fn deltawobble_batch(
            sheets: *const u8,
            sheets_len: usize,
            lengths: *const u32,
            lengths_len: usize,
            out: *mut u8,
            out_len: usize,
            results: *mut u64,
            results_len: usize,
            work: *mut u16,
            work_len: usize,
            lean: bool,
            plain: bool,
            card: bool,
        ) -> u64;
        #[rustfmt::skip]
        fn deltawobble_verilog(
            sheet: *const u8,
            sheet_len: usize,
            out: *mut u8,
            out_len: usize,
            work: *mut u16,
            work_len: usize,
        ) -> u64;
        #[rustfmt::skip]
        fn deltawobble_run(
            sheet: *const u8,
            sheet_len: usize,
            inputs: *const u8,
            inputs_len: usize,
            starts: *const u8,
            starts_len: usize,
            out: *mut u8,
            out_len: usize,
            work: *mut u16,
            work_len: usize,
            ticks: u16,
        ) -> u64;
        #[rustfmt::skip]
        fn deltawobble_check(
            net: *const u8,
            net_len: usize,
            work: *mut u16,
            work_len: usize,
            lean: bool,
        ) -> u64;
        #[rustfmt::skip]
        fn deltawobble_back(
            net: *const u8,
            net_len: usize,
            out: *mut u8,
            out_len: usize,
            work: *mut u16,
            work_len: usize,
            lean: bool,
        ) -> u64;
        #[rustfmt::skip]
        fn deltawobble_lanes(
            sheet: *const u8,
            sheet_len: usize,
            inputs: *const u16,
            inputs_len: usize,
            state: *mut u16,
            state_len: usize,
            out: *mut u16,
            out_len: usize,
            work: *mut u16,
            work_len: usize,
            ticks: u16,
        ) -> u64;
        #[rustfmt::skip]
        fn deltawobble_never(
            sheet: *const u8,
            sheet_len: usize,
            starts: *const u8,
            starts_len: usize,
            trail: *mut u32,
            trail_len: usize,
            queue: *mut u32,
            queue_len: usize,
            out: *mut u8,
            out_len: usize,
            work: *mut u16,
            work_len: usize,
            pin: u16,
        ) -> u64;
        #[rustfmt::skip]
        fn deltawobble_make(
            text: *const u8,
            text_len: usize,
            out: *mut u8,
            out_len: usize,
            places: *mut u16,
            places_len: usize,
            work: *mut u16,
            work_len: usize,
        ) -> u64;
    }

    /// The call on slices, each an address and its number of elements.
    ///
    /// # Safety
    /// The slices are the caller's, whole, apart and of the call's types.
    pub unsafe fn call(call: Call, slices: &[(*mut u8, usize)], last: u64) -> u64 {
        let (lean, plain, card) = (last & 1 == 1, last >> 1 & 1 == 1, last >> 2 & 1 == 1);
        match (call, slices) {
            (Call::Translate, &[(sheet, n), (out, m), (work, k)]) => {
                deltawobble_translate(sheet, n, out, m, work.cast(), k, lean, plain, card)
            }
            (Call::Stretch, &[(sheet, n)]) => deltawobble_stretch(sheet, n, last as usize),
            #[rustfmt::skip]
            (Call::Batch, &[(sheets, n), (lengths, l), (out, m), (results, r), (work, k)]) => {
                deltawobble_batch(sheets, n, lengths.cast(), l, out, m, results.cast(), r, work.cast(), k, lean, plain, card)
            },
            (Call::Verilog, &[(sheet, n), (out, m), (work, k)]) => {
                deltawobble_verilog(sheet, n, out, m, work.cast(), k)
            }
            #[rustfmt::skip]
            (Call::Run, &[(sheet, n), (inputs, i), (starts, s), (out, m), (work, k)]) => {
                deltawobble_run(sheet, n, inputs, i, starts, s, out, m, work.cast(), k, last as u16)
            },
            (Call::Check, &[(net, n), (work, k)]) => {
                deltawobble_check(net, n, work.cast(), k, lean)
            }
            (Call::Back, &[(net, n), (out, m), (work, k)]) => {
                deltawobble_back(net, n, out, m, work.cast(), k, lean)
            }
            #[rustfmt::skip]
            (Call::Lanes, &[(sheet, n), (inputs, i), (state, s), (out, m), (work, k)]) => {
                deltawobble_lanes(sheet, n, inputs.cast(), i, state.cast(), s, out.cast(), m, work.cast(), k, last as u16)
            },
            #[rustfmt::skip]
            (Call::Never, &[(sheet, n), (starts, s), (trail, t), (queue, q), (out, m), (work, k)]) => {
                deltawobble_never(sheet, n, starts, s, trail.cast(), t, queue.cast(), q, out, m, work.cast(), k, last as u16)
            },
            (Call::Make, &[(text, n), (out, m), (places, p), (work, k)]) => {
                deltawobble_make(text, n, out, m, places.cast(), p, work.cast(), k)
            }
            _ => unreachable!("{call:?} on {} slices", slices.len()),
        }
    }

    /// One translation, for the table of times.
    pub fn translate(sheet: &[u8], out: &mut [u8], work: &mut [u16], wish: Wish) -> u64 {
        let lent = [
            (sheet.as_ptr().cast_mut(), sheet.len()),
            (out.as_mut_ptr(), out.len()),
            (work.as_mut_ptr().cast(), work.len()),
        ];
        unsafe { call(Call::Translate, &lent, told(wish)) }
    }
}

/// The host process: fourteen numbers in, two numbers out.
pub struct Host {
    child: Child,
    to: ChildStdin,
    from: ChildStdout,
}

/// Added to a call's number: on a painted stack.
const PAINTED: u64 = 16;

impl Host {
    /// The command line comes from the script: an emulator where one is needed, and the program.
    pub fn start(fences: &Fences) -> Host {
        let line = std::env::var("BENCH_HOST").expect("BENCH_HOST names the host program");
        let mut words = line.split_whitespace();
        let mut command = Command::new(words.next().expect("BENCH_HOST names the host program"));
        command.args(words);
        for number in [fences.file as usize, fences.total, fences.page] {
            command.arg(number.to_string());
        }
        command.args(fences.fences().iter().map(|offset| offset.to_string()));
        let mut child = command
            .stdin(Stdio::piped())
            .stdout(Stdio::piped())
            .spawn()
            .expect("the host program starts");
        let to = child.stdin.take().expect("a pipe");
        let from = child.stdout.take().expect("a pipe");
        Host { child, to, from }
    }

    fn ask(&mut self, what: u64, slices: &[Place], last: u64) -> Result<(u64, u64), String> {
        let mut request = [0; 14];
        request[0] = what;
        for (index, slice) in slices.iter().enumerate() {
            request[1 + 2 * index] = slice.offset as u64;
            request[2 + 2 * index] = slice.count as u64;
        }
        request[13] = last;
        let bytes: Vec<u8> = request.iter().flat_map(|number| number.to_le_bytes()).collect();
        let mut answer = [0; 16];
        let asked = self.to.write_all(&bytes).and_then(|()| self.to.flush());
        match asked.and_then(|()| self.from.read_exact(&mut answer)) {
            Ok(()) => {
                let half = |at: usize| {
                    u64::from_le_bytes(answer[at..at + 8].try_into().expect("eight bytes"))
                };
                Ok((half(0), half(8)))
            }
            Err(_) => Err(format!("the host process ended: {:?}", self.child.wait())),
        }
    }

    /// How many bytes of stack a call wrote on.
    pub fn stack(&mut self, call: Call, slices: &[Place], last: u64) -> Result<u64, String> {
        Ok(self.ask(call as u64 + PAINTED, slices, last)?.1)
    }
}

pub enum Boundary {
    #[cfg(linked)]
    Linked,
    #[cfg(not(linked))]
    Host(Host),
}

impl Boundary {
    #[cfg(linked)]
    pub fn new(_: &Fences) -> Boundary {
        Boundary::Linked
    }

    #[cfg(not(linked))]
    pub fn new(fences: &Fences) -> Boundary {
        Boundary::Host(Host::start(fences))
    }

    /// The call's answer, on places within the fences.
    pub fn call(
        &mut self,
        fences: &Fences,
        call: Call,
        slices: &[Place],
        last: u64,
    ) -> Result<u64, String> {
        let _ = fences;
        match self {
            #[cfg(linked)]
            Boundary::Linked => {
                let at = |place: &Place| (fences.address(*place), place.count);
                let lent: Vec<(*mut u8, usize)> = slices.iter().map(at).collect();
                Ok(unsafe { linked::call(call, &lent, last) })
            }
            #[cfg(not(linked))]
            Boundary::Host(host) => Ok(host.ask(call as u64, slices, last)?.0),
        }
    }
}
