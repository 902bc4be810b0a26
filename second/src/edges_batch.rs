//! Document 02, L10: named batches, with the answer and the results worked out by hand.

use crate::batches::Batch;
use crate::edges_making::KNOWN;
use crate::refusal::Refusal;
use crate::sheet::MEMORY;
use crate::translate::Wish;
use crate::write::{hex, Bytes};

pub struct BatchEdge {
    pub name: &'static str,
    pub batch: Batch,
    /// The number of output bytes used, or the refusal of the whole.
    pub answer: Result<usize, Refusal>,
    /// The results of the sheets, none where the whole is refused.
    pub results: Vec<Result<usize, Refusal>>,
}

const FULL: Wish = Wish { lean: false, plain: true, card: false };

fn known(numbers: &[usize]) -> Vec<Bytes> {
    numbers.iter().map(|number| hex(KNOWN[number - 1])).collect()
}

fn refused(number: usize, place: usize) -> Result<usize, Refusal> {
    Err(Refusal::new(number, place))
}

/// In plain kinds P1 is 7 bytes long, P2 9, P3 32 full and 16 lean, P4 11.
pub fn edges() -> Vec<BatchEdge> {
    let mut edges = accepted();
    edges.extend(too_little());
    edges.extend(refused_as_a_whole());
    edges
}

fn accepted() -> Vec<BatchEdge> {
    let of = |numbers: &[usize], wish| Batch::of(&known(numbers), wish);
    let p11 = Err(Refusal::clash(0, 256, 0));
    vec![
        edge("an empty list", of(&[], FULL), Ok(0), vec![]),
        edge("P1", of(&[1], FULL), Ok(7), vec![Ok(7)]),
        edge("P1 to P4", of(&[1, 2, 3, 4], FULL), Ok(59), vec![Ok(7), Ok(9), Ok(32), Ok(11)]),
        edge(
            "P3 lean, with nodes",
            of(&[3, 3], Wish { lean: true, plain: false, card: false }),
            Ok(40),
            vec![Ok(20), Ok(20)],
        ),
        edge(
            "a refused sheet between",
            of(&[1, 10, 1], FULL),
            Ok(14),
            vec![Ok(7), refused(3, 0), Ok(7)],
        ),
        edge(
            "P8 to P11",
            of(&[8, 9, 10, 11], FULL),
            Ok(0),
            vec![refused(13, 4), refused(14, 0), refused(3, 0), p11],
        ),
        edge(
            "the card takes P1 and P2 and not P4",
            of(&[1, 4, 2], Wish { card: true, ..FULL }),
            Ok(16),
            vec![Ok(7), refused(28, 0), Ok(9)],
        ),
        edge(
            "empty sheets only",
            of(&[10, 10, 10], FULL),
            Ok(0),
            vec![refused(3, 0), refused(3, 0), refused(3, 0)],
        ),
        edge(
            "both editions",
            Batch::of(&[hex("31 01 1A0000"), hex("01 1A0000"), hex("31")], FULL),
            Ok(14),
            vec![Ok(7), Ok(7), refused(3, 1)],
        ),
        edge(
            "P1 cut in two",
            Batch { lengths: vec![2, 2], ..Batch::of(&known(&[1, 10]), FULL) },
            Ok(0),
            vec![refused(3, 1), refused(4, 0)],
        ),
        edge(
            "P1 twice in one length",
            Batch { lengths: vec![8, 0], ..Batch::of(&known(&[1, 1]), FULL) },
            Ok(0),
            vec![refused(9, 4), refused(3, 0)],
        ),
    ]
}

fn too_little() -> Vec<BatchEdge> {
    let of = |numbers: &[usize], room| Batch { room, ..Batch::of(&known(numbers), FULL) };
    vec![
        edge("room exact", of(&[1, 2], 16), Ok(16), vec![Ok(7), Ok(9)]),
        edge("room one short", of(&[1, 2], 15), Ok(7), vec![Ok(7), refused(17, 9)]),
        edge("no room", of(&[1, 2], 0), Ok(0), vec![refused(17, 7), refused(17, 9)]),
        edge(
            "17 keeps no shorter one from fitting",
            of(&[3, 1, 3, 1], 20),
            Ok(14),
            vec![refused(17, 32), Ok(7), refused(17, 32), Ok(7)],
        ),
        edge(
            "what the first leaves is too little",
            of(&[1, 1, 10, 1], 14),
            Ok(14),
            vec![Ok(7), Ok(7), refused(3, 0), refused(17, 7)],
        ),
        edge(
            "memory one short",
            Batch { memory: MEMORY - 1, ..of(&[1, 10], 100) },
            Ok(0),
            vec![refused(1, 0), refused(1, 0)],
        ),
        edge("no memory", Batch { memory: 0, ..of(&[1], 100) }, Ok(0), vec![refused(1, 0)]),
        edge("no memory, an empty list", Batch { memory: 0, ..of(&[], 0) }, Ok(0), vec![]),
        edge(
            "more results than sheets",
            Batch { results: 5, ..of(&[1, 2], 16) },
            Ok(16),
            vec![Ok(7), Ok(9)],
        ),
    ]
}

fn refused_as_a_whole() -> Vec<BatchEdge> {
    let of = |numbers: &[usize]| Batch::of(&known(numbers), FULL);
    let whole = |name, batch| edge(name, batch, refused(24, 0), vec![]);
    let p1 = of(&[1]);
    vec![
        whole("an empty list, a byte", Batch { sheets: vec![1], ..of(&[]) }),
        whole("one result short", Batch { results: 1, ..of(&[1, 2]) }),
        whole("no results", Batch { results: 0, ..p1.clone() }),
        whole("length one less", Batch { lengths: vec![3], ..p1.clone() }),
        whole("length one more", Batch { lengths: vec![5], ..p1.clone() }),
        whole("a length and no bytes", Batch { sheets: vec![], ..p1.clone() }),
        whole("right in 32 bits", Batch { lengths: vec![u32::MAX, 5], results: 2, ..p1.clone() }),
        whole(
            "right in 32 bits, the other way",
            Batch { lengths: vec![4, 1 << 31, 1 << 31], results: 3, ..p1.clone() },
        ),
        whole("before memory", Batch { memory: 0, lengths: vec![3], ..p1.clone() }),
        whole("before room", Batch { room: 0, results: 0, ..p1 }),
    ]
}

fn edge(
    name: &'static str,
    batch: Batch,
    answer: Result<usize, Refusal>,
    results: Vec<Result<usize, Refusal>>,
) -> BatchEdge {
    BatchEdge { name, batch, answer, results }
}
