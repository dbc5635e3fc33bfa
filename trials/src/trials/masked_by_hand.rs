//! Cases with masked vertices worked out by hand, which hold the reference itself.

use super::by_hand::{each_prints, A};
use crate::reference::*;

/// Checks the reference on all of them.
pub fn check() -> Result<(), String> {
    edge_lists()?;
    soundness()?;
    forms()?;
    outputs()?;
    verdicts()?;
    reductions()?;
    counts_and_pages()
}

/// Graph A of the worked cases with vertices masked.
fn masked_a(masked: &[u8]) -> Vec<u8> {
    let mut list = A[..A.len() - 1].to_vec();
    masked.iter().for_each(|&v| list.extend([0x23, v]));
    list.push(0xff);
    list
}

fn graph_of(list: &[u8]) -> SignedGraph {
    decode(list).expect("the list is valid")
}

/// An edge list and what decoding it must give: a refusal and its place, or the masked vertices.
type Tried = (&'static [u8], Result<u64, (u64, usize)>);

const EDGE_LISTS: [Tried; 21] = [
    (&[0x10, 2, 0x23], Err((4, 2))),
    (&[0x10, 2, 0x23, 0xff], Err((5, 2))),
    (&[0x10, 2, 0x23, 2, 0xff], Err((5, 2))),
    (&[0x10, 0, 0x23, 0, 0xff], Err((5, 2))),
    (&[0x10, 0x23, 0x23, 0x23, 0xff], Err((5, 2))),
    (&[0x10, 64, 0x23, 64, 0xff], Err((5, 2))),
    (&[0x10, 2, 0x23, 5, 0x23], Err((5, 2))),
    (&[0x10, 2, 0x23, 0, 0x23, 0, 0xff], Err((15, 4))),
    (&[0x10, 2, 0x23, 0, 0x23, 0], Err((15, 4))),
    (&[0x10, 2, 0x23, 0, 0x23], Err((4, 4))),
    (&[0x10, 2, 0x23, 0, 0x23, 0xff], Err((5, 4))),
    (&[0x10, 2, 0x23, 1, 0x21, 0, 1, 0x23, 1, 0xff], Err((15, 7))),
    (
        &[0x10, 2, 0x23, 1, 0x21, 0, 1, 0x22, 1, 0, 0xff],
        Err((7, 7)),
    ),
    (&[0x10, 2, 0x23, 0], Err((8, 4))),
    (&[0x10, 2, 0x23, 0, 0xff, 0], Err((9, 5))),
    (&[0x10, 2, 0x23, 0, 1, 0xff], Err((3, 4))),
    (&[0x10, 2, 0x24, 0, 0xff], Err((3, 2))),
    (&[0x23, 0], Err((1, 0))),
    (&[0x10, 2, 0x23, 1, 0x21, 0, 1, 0x23, 0, 0xff], Ok(0b11)),
    (&[0x10, 64, 0x23, 63, 0xff], Ok(1 << 63)),
    (
        &[0x10, 0x24, 0x21, 0x23, 0, 0x23, 0x23, 0xff],
        Ok(1 << 0x23),
    ),
];

fn edge_lists() -> Result<(), String> {
    for (bytes, must) in EDGE_LISTS {
        if decode(bytes).map(|graph| graph.masked) != must {
            return Err(format!("{bytes:x?} must be {must:?}"));
        }
    }
    Ok(())
}

/// Graphs of n vertices without an edge, their masked vertices, and whether they are sound.
const SOUND: [(u64, u64, bool); 8] = [
    (0, 0, true),
    (0, 1, false),
    (0, 1 << 63, false),
    (5, 0b11111, true),
    (5, 0b100000, false),
    (63, 1 << 62, true),
    (63, 1 << 63, false),
    (64, u64::MAX, true),
];

fn soundness() -> Result<(), String> {
    for (n, masked, sound) in SOUND {
        let mut graph = SignedGraph::new(n);
        graph.masked = masked;
        if graph.is_sound() != sound {
            return Err(format!("{n} vertices with {masked:x} masked"));
        }
    }
    Ok(())
}

/// The canonical form lists masked vertices behind the edges, ascending.
fn forms() -> Result<(), String> {
    let given = [0x10, 3, 0x23, 2, 0x22, 2, 1, 0x23, 0, 0x21, 1, 0, 0xff];
    let form = [0x10, 3, 0x21, 0, 1, 0x22, 1, 2, 0x23, 0, 0x23, 2, 0xff];
    let mut buffer = [0xaa; 14];
    if encode(&graph_of(&given), &mut buffer) != Ok(13) || buffer != *[&form[..], &[0xaa]].concat()
    {
        return Err(format!("the canonical form is {buffer:x?}"));
    }
    if encode(&graph_of(&given), &mut [0; 12]) != Err(13) {
        return Err("the canonical form has room in 12 bytes".to_string());
    }
    Ok(())
}

fn outputs() -> Result<(), String> {
    let pair = vec![0x10, 2, 0x21, 0, 1, 0x23, 0, 0xff];
    let twice = vec![0x10, 3, 0x21, 0, 1, 0x23, 2, 0x23, 2, 0xff];
    let none = "biggest none\ngroups 0\n";
    let cases = [
        (0, pair, none),
        (0, masked_a(&[0, 1, 2, 3, 4]), none),
        (0, masked_a(&[4, 2, 1, 0]), none),
        (
            1,
            masked_a(&[1]),
            "0 | 2 3\n0 4 | 2\nbiggest 0 | 2 3\ngroups 2\n",
        ),
        (
            1,
            masked_a(&[0]),
            "1 | 2 3\n2 | 4\nbiggest 1 | 2 3\ngroups 2\n",
        ),
        (
            0,
            masked_a(&[2]),
            "0 1 | 3\n0 4 |\nbiggest 0 1 | 3\ngroups 2\n",
        ),
        (1, masked_a(&[2]), "0 1 | 3\nbiggest 0 1 | 3\ngroups 1\n"),
        (
            2,
            masked_a(&[4]),
            "0 1 | 2 3\nbiggest 0 1 | 2 3\ngroups 1\n",
        ),
        (2, masked_a(&[3]), none),
        (33, masked_a(&[1]), "refused 11\n"),
        (0, twice.clone(), "refused 15 at 7\n"),
        (255, twice, "refused 15 at 7\n"),
    ];
    each_prints(cases)
}

fn verdicts() -> Result<(), String> {
    let high = 1 << 60;
    let cases: [(&[u8], u64, u64, Verdict); 15] = [
        (&[0], 1, high | 0b1, Verdict::OutOfRange(60)),
        (&[0], 1, 0b1, Verdict::Alone),
        (&[0], 32, 0b1, Verdict::Alone),
        (&[0], 0, 0, Verdict::Empty),
        (&[1], 0, 0b11, Verdict::Masked(1)),
        (&[1], 32, 0b11, Verdict::Masked(1)),
        (&[1], 1, 0b10010, Verdict::Masked(1)),
        (&[1], 1, 0b1111, Verdict::Masked(1)),
        (&[3, 1], 1, 0b1111, Verdict::Masked(1)),
        (&[1, 3], 1, 0b1100, Verdict::Masked(3)),
        (&[1], 1, 0b1101, Verdict::Group(0b1, 0b1100)),
        (&[1], 1, 0b101, Verdict::Extensible(3)),
        (&[1], 2, 0b1101, Verdict::TooSmall(1, 2)),
        (&[1], 0, 0b11000, Verdict::MissingEdge(3, 4)),
        (&[0, 1, 2, 3, 4], 0, 0b11000, Verdict::Masked(3)),
    ];
    for (masked, k, set, must) in cases {
        let graph = graph_of(&masked_a(masked));
        if classify(&graph, k, set) != Ok(must.clone()) {
            return Err(format!(
                "{set:b} for {k} with {masked:?} masked must be {must:?}"
            ));
        }
    }
    Ok(())
}

/// Reductions of A: the masked vertices, a threshold, how many edges are kept, and at how many vertices and edges each round
/// looks.
const REDUCTIONS: [(&[u8], u64, usize, &[u64]); 7] = [
    (&[1], 0, 5, &[5 + 5]),
    (&[1], 1, 5, &[5 + 5]),
    (&[1], 2, 0, &[5 + 5, 4 + 1, 2]),
    (&[4], 2, 6, &[5 + 6]),
    (&[2, 0], 0, 1, &[5 + 1]),
    (&[0, 1, 2, 3, 4], 0, 0, &[5]),
    (&[0, 1, 2, 3, 4], 2, 0, &[5]),
];

fn reductions() -> Result<(), String> {
    for (masked, k, kept, looks) in REDUCTIONS {
        let graph = graph_of(&masked_a(masked));
        let by_round: Vec<u64> = rounds(&graph, k).iter().map(|round| round.looks).collect();
        let reduced = reduce(&graph, k).expect("the graph is sound");
        let found = (reduced.graph.edges().len(), reduced.looks);
        let same = reduced.graph.masked == graph.masked && reduced.graph.n == graph.n;
        if !same || by_round != looks || found != (kept, looks.iter().sum()) {
            return Err(format!("{masked:?} masked, {k}: reduced to {found:?}"));
        }
    }
    Ok(())
}

/// Sets, and in how many groups for 1 they lie where 1 is masked; these are {0, 2, 3} and {0, 2, 4}.
const COUNTS: [(u64, u64); 9] = [
    (0b0, 2),
    (0b1, 2),
    (0b10, 0),
    (0b100, 2),
    (0b1000, 1),
    (0b11, 0),
    (0b101, 2),
    (0b1111, 0),
    (0b1101, 1),
];

fn counts_and_pages() -> Result<(), String> {
    let graph = graph_of(&masked_a(&[1]));
    let mut counts = [7; 9];
    let counted = count(&graph, 1, &COUNTS.map(|(set, _)| set), &mut counts);
    if counted != Ok(()) || counts != COUNTS.map(|(_, count)| count) {
        return Err(format!("the counts with 1 masked are {counts:?}"));
    }
    let mut buffer = [0; 16];
    let page = list_page(&graph, 1, Bookmark::After(0b1111), &mut buffer);
    let must = Page {
        number: 0,
        count: 1,
        next: Bookmark::After(0b1101),
        finished: false,
    };
    if page != must || buffer[0] != 0b1 || buffer[8] != 0b1100 {
        return Err(format!("with 1 masked the first page is {page:?}"));
    }
    let all = graph_of(&masked_a(&[0, 1, 2, 3, 4]));
    let page = list_page(&all, 0, Bookmark::Start, &mut buffer);
    if page.count != 0 || !page.finished || largest(&all, 0) != Err(12) {
        return Err("with all masked there is a group".to_string());
    }
    Ok(())
}
