//! Cases worked out by hand, which hold the reference itself.

use crate::reference::*;

/// Checks the reference on all of them.
pub fn check() -> Result<(), String> {
    worked_edge_lists()?;
    worked_graphs()
}

/// The graph A of the worked cases.
pub const A: [u8; 27] = [
    0x10, 5, 0x21, 0, 1, 0x22, 0, 2, 0x22, 0, 3, 0x21, 0, 4, 0x22, 1, 2, 0x22, 1, 3, 0x21, 2, 3,
    0x22, 2, 4, 0xff,
];

/// Three vertices, all edges negative.
const THREE: [u8; 12] = [0x10, 3, 0x22, 0, 1, 0x22, 0, 2, 0x22, 1, 2, 0xff];

/// One edge among 62 isolated vertices.
const EDGE: [u8; 6] = [0x10, 64, 0x22, 63, 5, 0xff];

/// A path: positive, negative, positive.
const PATH: [u8; 12] = [0x10, 4, 0x21, 0, 1, 0x22, 1, 2, 0x21, 2, 3, 0xff];

/// The groups 2 4 | 3 5, 0 2 | 6 7 and 1 3 | 6 7 for 2; the edge 0,1, which fails for 2; and 1,2, which then fails.
const TAIL: [u8; 60] = [
    0x10, 8, 0x22, 0, 1, 0x22, 1, 2, 0x21, 2, 4, 0x22, 2, 3, 0x22, 2, 5, 0x22, 4, 3, 0x22, 4, 5,
    0x21, 3, 5, 0x21, 0, 2, 0x21, 1, 3, 0x21, 6, 7, 0x22, 0, 6, 0x22, 0, 7, 0x22, 1, 6, 0x22, 1, 7,
    0x22, 2, 6, 0x22, 2, 7, 0x22, 3, 6, 0x22, 3, 7, 0xff,
];

/// An edge list and what decoding it must give: a refusal and its place, or nothing.
type Tried = (&'static [u8], Option<(u64, usize)>);

const EDGE_LISTS: [Tried; 13] = [
    (&[0x10, 0, 0xff], None),
    (&[], Some((1, 0))),
    (&[0x10], Some((4, 0))),
    (&[0x10, 0x41], Some((2, 0))),
    (&[0x10, 0x40, 0xff], None),
    (&[0x10, 2, 0x21, 0], Some((4, 2))),
    (&[0x10, 2, 0x21, 0, 2, 0xff], Some((5, 2))),
    (&[0x10, 2, 0x21, 1, 1, 0xff], Some((6, 2))),
    (&[0x10, 2, 0x21, 0, 1, 0x22, 1, 0, 0xff], Some((7, 5))),
    (&[0x10, 2, 0x21, 0, 1], Some((8, 5))),
    (&[0x10, 2, 0xff, 0], Some((9, 3))),
    (&[0x10, 2, 0x10, 2, 0xff], Some((3, 2))),
    (&[0x10, 2, 0x21, 0, 0xff], Some((5, 2))),
];

fn worked_edge_lists() -> Result<(), String> {
    for (bytes, must) in EDGE_LISTS {
        if decode(bytes).err() != must {
            return Err(format!("{bytes:x?} must be {must:?}"));
        }
    }
    Ok(())
}

/// Inputs of the program and what it must print.
fn worked_outputs() -> Vec<(u8, Vec<u8>, &'static str)> {
    let a = A.to_vec();
    let pair = vec![0x10, 2, 0x21, 0, 1, 0xff];
    let path = vec![0x10, 3, 0x21, 0, 1, 0x21, 1, 2, 0xff];
    vec![
        (0, vec![0x10, 0, 0xff], "biggest none\ngroups 0\n"),
        (0, vec![0x10, 1, 0xff], "biggest none\ngroups 0\n"),
        (1, vec![0x10, 1, 0xff], "biggest none\ngroups 0\n"),
        (0, vec![0x10, 2, 0xff], "biggest none\ngroups 0\n"),
        (0, vec![0x10, 64, 0xff], "biggest none\ngroups 0\n"),
        (0, pair.clone(), "0 1 |\nbiggest 0 1 |\ngroups 1\n"),
        (1, pair, "biggest none\ngroups 0\n"),
        (0, EDGE.to_vec(), "5 | 63\nbiggest 5 | 63\ngroups 1\n"),
        (1, EDGE.to_vec(), "5 | 63\nbiggest 5 | 63\ngroups 1\n"),
        (2, EDGE.to_vec(), "biggest none\ngroups 0\n"),
        (
            1,
            THREE.to_vec(),
            "0 | 1\n0 | 2\n1 | 2\nbiggest 0 | 1\ngroups 3\n",
        ),
        (0, path, "0 1 |\n1 2 |\nbiggest 0 1 |\ngroups 2\n"),
        (
            1,
            a.clone(),
            "0 1 | 2 3\n0 4 | 2\nbiggest 0 1 | 2 3\ngroups 2\n",
        ),
        (2, a.clone(), "0 1 | 2 3\nbiggest 0 1 | 2 3\ngroups 1\n"),
        (3, a.clone(), "biggest none\ngroups 0\n"),
        (33, a, "refused 11\n"),
        (255, vec![0x10], "refused 4 at 0\n"),
    ]
}

fn worked_graphs() -> Result<(), String> {
    for (k, list, must) in worked_outputs() {
        let input = [vec![k], list].concat();
        let printed = program(&input);
        if printed != must {
            return Err(format!("{input:x?} prints {printed}"));
        }
    }
    let a = decode(&A).expect("A is valid");
    worked_reductions()?;
    worked_verdicts(&a)?;
    worked_pages(&a)?;
    worked_counts(&a)?;
    worked_isolated()
}

/// Reductions: an edge list, a threshold, how many edges are kept, and at how many vertices and edges each round looks.
const REDUCTIONS: [(&[u8], u64, usize, &[u64]); 16] = [
    (&A, 0, 8, &[5 + 8]),
    (&A, 1, 8, &[5 + 8]),
    (&A, 2, 6, &[5 + 8, 3 + 5]),
    (&A, 3, 0, &[5 + 8, 5]),
    (&A, 32, 0, &[5 + 8, 5]),
    (&THREE, 0, 3, &[3 + 3]),
    (&THREE, 1, 3, &[3 + 3]),
    (&THREE, 2, 0, &[3 + 3, 3]),
    (&EDGE, 0, 1, &[64 + 1]),
    (&EDGE, 2, 0, &[64 + 1, 2]),
    (&PATH, 0, 3, &[4 + 3]),
    (&PATH, 1, 1, &[4 + 3, 4 + 1]),
    (&TAIL, 2, 17, &[8 + 19, 2 + 7, 2 + 9]),
    (&[0x10, 0, 0xff], 0, 0, &[0]),
    (&[0x10, 0, 0xff], 2, 0, &[0]),
    (&[0x10, 64, 0xff], 32, 0, &[64]),
];

fn worked_reductions() -> Result<(), String> {
    for (list, k, kept, looks) in REDUCTIONS {
        let graph = decode(list).expect("the list is valid");
        let by_round: Vec<u64> = rounds(&graph, k).iter().map(|round| round.looks).collect();
        let reduced = reduce(&graph, k).expect("the graph is sound");
        let found = (reduced.graph.edges().len(), reduced.looks);
        if by_round != looks || found != (kept, looks.iter().sum()) {
            return Err(format!("{list:x?} for {k} is reduced to {found:?}"));
        }
    }
    Ok(())
}

fn worked_verdicts(a: &SignedGraph) -> Result<(), String> {
    let three = &decode(&THREE).expect("three vertices are valid");
    let edge = &decode(&EDGE).expect("one edge is valid");
    let one = &SignedGraph::new(1);
    let two = &SignedGraph::new(2);
    let classified = [
        (a, 1, 0b10011, Verdict::MissingEdge(1, 4)),
        (a, 1, 0b00101, Verdict::Extensible(1)),
        (three, 1, 0b111, Verdict::Unbalanced(0, 1, 2)),
        (a, 2, 0b10101, Verdict::TooSmall(2, 1)),
        (a, 1, 0b00011, Verdict::TooSmall(2, 0)),
        (a, 0, 0b00001, Verdict::Alone),
        (a, 1, 0b10000, Verdict::Alone),
        (a, 32, 0b00001, Verdict::Alone),
        (a, 0, 0b100000, Verdict::OutOfRange(5)),
        (one, 0, 0b1, Verdict::Alone),
        (one, 1, 0b1, Verdict::Alone),
        (one, 32, 0b1, Verdict::Alone),
        (one, 0, 0b10, Verdict::OutOfRange(1)),
        (one, 32, 0b11, Verdict::OutOfRange(1)),
        (one, 0, 0, Verdict::Empty),
        (two, 0, 0b11, Verdict::MissingEdge(0, 1)),
        (edge, 0, 1 << 63, Verdict::Alone),
        (edge, 0, 1 << 63 | 1 << 5, Verdict::Group(1 << 5, 1 << 63)),
        (edge, 2, 1 << 63 | 1 << 5, Verdict::TooSmall(1, 1)),
    ];
    for (graph, k, set, must) in classified {
        if classify(graph, k, set) != Ok(must.clone()) {
            return Err(format!("{set:b} for {k} must be {must:?}"));
        }
    }
    match classify(one, 33, 0b1) {
        Err(11) => Ok(()),
        other => Err(format!("a vertex alone for 33 is {other:?}")),
    }
}

/// Isolated vertices only: there is no group at any threshold.
fn worked_isolated() -> Result<(), String> {
    for (n, k) in [(1, 0), (1, 1), (1, 32), (2, 0), (2, 1), (64, 0), (64, 1)] {
        let graph = SignedGraph::new(n);
        let page = list_page(&graph, k, Bookmark::Start, &mut [0; 64]);
        let mut counts = [7; 3];
        let counted = count(&graph, k, &[0, 1, u64::MAX], &mut counts);
        let none = page.count == 0 && page.finished && largest(&graph, k) == Err(12);
        if !none || counted != Ok(()) || counts != [0; 3] {
            return Err(format!("{n} isolated vertices have a group for {k}"));
        }
    }
    Ok(())
}

fn worked_pages(a: &SignedGraph) -> Result<(), String> {
    let mut buffer = [0; 16];
    let page = list_page(a, 1, Bookmark::After(0b1111), &mut buffer);
    let must = Page {
        number: 0,
        count: 1,
        next: Bookmark::After(0b10101),
        finished: true,
    };
    if page != must || buffer[0] != 0b10001 || buffer[8] != 0b100 {
        return Err(format!("after the first group of A comes {page:?}"));
    }
    for (length, count) in [(15, 0), (31, 1), (32, 2)] {
        let page = list_page(a, 1, Bookmark::Start, &mut vec![0; length]);
        if page.count != count {
            return Err(format!("a buffer of {length} bytes takes {}", page.count));
        }
    }
    let nothing = list_page(a, 1, Bookmark::After(0), &mut [0; 64]);
    if nothing.count != 0 || !nothing.finished {
        return Err("a group comes after the empty set".to_string());
    }
    Ok(())
}

/// Sets, and in how many groups of A for 1 they lie; these are {0, 1, 2, 3} and {0, 2, 4}.
const COUNTS: [(u64, u64); 14] = [
    (0b0, 2),
    (0b1, 2),
    (0b10, 1),
    (0b100, 2),
    (0b1000, 1),
    (0b10000, 1),
    (0b101, 2),
    (0b1111, 1),
    (0b10101, 1),
    (0b10010, 0),
    (0b101, 2),
    (0b11111, 0),
    (0b100001, 0),
    (u64::MAX, 0),
];

fn worked_counts(a: &SignedGraph) -> Result<(), String> {
    let sets = COUNTS.map(|(set, _)| set);
    let mut counts = [7; 15];
    let must = [COUNTS.map(|(_, count)| count).as_slice(), &[7]].concat();
    if count(a, 1, &sets, &mut counts) != Ok(()) || counts != *must {
        return Err(format!("the counts of A are {counts:?}"));
    }
    let mut unsound = a.clone();
    unsound.negative[0] |= 1;
    let tried = [
        (a, 32, 0, 0, Ok(())),
        (a, 0, 256, 256, Ok(())),
        (a, 0, 256, 300, Ok(())),
        (a, 0, 1, 0, Err(13)),
        (a, 0, 257, 257, Err(14)),
        (a, 0, 300, 299, Err(13)),
        (a, 33, 300, 299, Err(11)),
        (&unsound, 33, 300, 299, Err(10)),
    ];
    for (graph, k, sets, places, must) in tried {
        if count(graph, k, &vec![0; sets], &mut vec![0; places]) != must {
            return Err(format!(
                "{sets} sets into {places} for {k} must be {must:?}"
            ));
        }
    }
    Ok(())
}

/// Each threshold and list is answered by the program's reference with the output beside it.
pub fn each_prints<const N: usize>(cases: [(u8, Vec<u8>, &str); N]) -> Result<(), String> {
    for (k, list, must) in cases {
        let input = [vec![k], list].concat();
        let printed = program(&input);
        if printed != must {
            return Err(format!("{input:x?} prints {printed}"));
        }
    }
    Ok(())
}
