//! All named edges give the answers that were worked out by hand.

use second::edges_reading::Edge;
use second::wide::{crowd, deep, flat, terminals_and};
use second::{
    edges_edition, edges_making, edges_reading, edges_typing, read, terminals, translate,
};

fn all() -> Vec<Edge> {
    let mut edges = edges_reading::edges();
    edges.extend(edges_typing::edges());
    edges.extend(edges_making::edges());
    edges.extend(edges_edition::edges());
    edges
}

#[test]
fn each_edge_is_answered_as_expected() {
    let mut wrong = Vec::new();
    for edge in all() {
        for lean in [false, true] {
            let answer = translate(&edge.sheet, lean, 41_344, 32_768);
            let refused = answer.err().map(|refusal| (refusal.number, refusal.place));
            if refused != edge.refused {
                wrong.push(format!("{}: {:?}, not {:?}", edge.name, refused, edge.refused));
            }
        }
    }
    assert!(wrong.is_empty(), "{} edges differ:\n{}", wrong.len(), wrong.join("\n"));
}

/// Depth by record order and subterms, apart from the reader.
fn depth(sheet: &[u8], at: &mut usize) -> usize {
    let (body, subterms) = match sheet[*at] {
        0x14 | 0x16 | 0x18 => (0, 2),
        0x17 => (1, 2),
        0x13 | 0x15 | 0x19 => (1, 1),
        0x1A => (2, 0),
        _ => (1, 0),
    };
    *at += 1 + body;
    1 + (0..subterms).map(|_| depth(sheet, at)).max().unwrap_or(0)
}

#[test]
fn large_sheets_are_as_large_as_they_say() {
    for (sheet, nodes, deepest) in [
        (flat(2_048), 2_048, 12),
        (deep(2_048, 12), 2_048, 12),
        (deep(2_048, 64), 2_048, 64),
        (deep(700, 40), 700, 40),
    ] {
        let found = read(&sheet).expect("a readable sheet");
        assert_eq!(found.nodes(), nodes);
        assert_eq!(depth(&sheet, &mut found.stretches[0].0.clone()), deepest);
    }
    for count in [7_941, 8_000, 8_191, 8_192, 8_193, 8_194] {
        assert_eq!(terminals(&read(&crowd(count)).unwrap()), count);
    }
    for more in 0..3 {
        assert_eq!(terminals(&read(&terminals_and(more)).unwrap()), 8_192 + more);
    }
}
