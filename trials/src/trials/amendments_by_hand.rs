//! Cases of amendment lists worked out by hand, which hold the reference itself, and the library without the reference.

use super::by_hand::{each_prints, A};
use super::expect::words;
use super::tally::{hex, hex_words};
use crate::reference::*;

/// What decoding gives: a graph, or a refusal and its place.
pub type Decoded = Result<SignedGraph, (u64, usize)>;

/// Checks the reference on all of them.
pub fn check() -> Result<(), String> {
    lists(|list| Ok(decode(list)))?;
    forms()?;
    outputs()
}

/// A list and what decoding it must give: a refusal and its place, or the edges and the masked vertices.
type Tried = (&'static [u8], Result<(&'static [Edge], u64), (u64, usize)>);

const NONE: &[Edge] = &[];

/// Lists that are accepted.
const ACCEPTED: [Tried; 20] = [
    (&[0x11, 0, 0xff], Ok((NONE, 0))),
    (&[0x11, 64, 0xff], Ok((NONE, 0))),
    (&[0x11, 2, 0x24, 0, 1, 0xff], Ok((NONE, 0))),
    (
        &[0x11, 2, 0x21, 0, 1, 0x22, 1, 0, 0xff],
        Ok((&[(0, 1, false)], 0)),
    ),
    (
        &[0x11, 2, 0x22, 0, 1, 0x21, 0, 1, 0xff],
        Ok((&[(0, 1, true)], 0)),
    ),
    (
        &[0x11, 2, 0x21, 0, 1, 0x21, 0, 1, 0xff],
        Ok((&[(0, 1, true)], 0)),
    ),
    (&[0x11, 2, 0x21, 0, 1, 0x24, 1, 0, 0xff], Ok((NONE, 0))),
    (&[0x11, 2, 0x22, 1, 0, 0x24, 1, 0, 0xff], Ok((NONE, 0))),
    (
        &[0x11, 2, 0x24, 0, 1, 0x22, 1, 0, 0xff],
        Ok((&[(0, 1, false)], 0)),
    ),
    (
        &[0x11, 2, 0x21, 0, 1, 0x24, 0, 1, 0x24, 1, 0, 0xff],
        Ok((NONE, 0)),
    ),
    (
        &[0x11, 2, 0x21, 0, 1, 0x24, 0, 1, 0x22, 0, 1, 0xff],
        Ok((&[(0, 1, false)], 0)),
    ),
    (&[0x11, 2, 0x23, 1, 0x23, 1, 0xff], Ok((NONE, 0b10))),
    (&[0x11, 2, 0x23, 1, 0x24, 0, 1, 0xff], Ok((NONE, 0b10))),
    (
        &[0x11, 2, 0x23, 0, 0x21, 0, 1, 0x23, 1, 0x24, 1, 0, 0xff],
        Ok((NONE, 0b11)),
    ),
    (
        &[0x11, 2, 0x24, 1, 0, 0x23, 0, 0x22, 1, 0, 0x23, 0, 0xff],
        Ok((&[(0, 1, false)], 0b1)),
    ),
    (
        &[0x11, 3, 0x21, 0, 1, 0x22, 1, 2, 0x24, 2, 0, 0xff],
        Ok((&[(0, 1, true), (1, 2, false)], 0)),
    ),
    (
        &[0x11, 3, 0x21, 0, 1, 0x22, 1, 2, 0x24, 1, 0, 0xff],
        Ok((&[(1, 2, false)], 0)),
    ),
    (
        &[0x11, 64, 0x21, 63, 0, 0x22, 62, 63, 0x24, 0, 63, 0xff],
        Ok((&[(62, 63, false)], 0)),
    ),
    (
        &[
            0x11, 0x25, 0x21, 0x24, 0x23, 0x23, 0x24, 0x24, 0x11, 0x10, 0xff,
        ],
        Ok((&[(0x23, 0x24, true)], 1 << 0x24)),
    ),
    (&[0x11, 0x11, 0xff], Ok((NONE, 0))),
];

/// Lists that are refused.
const REFUSED: [Tried; 39] = [
    (&[0x11], Err((4, 0))),
    (&[0x11, 0x41], Err((2, 0))),
    (&[0x11, 0xff], Err((2, 0))),
    (&[0x11, 0x41, 0x24], Err((2, 0))),
    (&[0x12, 0, 0xff], Err((1, 0))),
    (&[0x0f, 0, 0xff], Err((1, 0))),
    (&[0x13, 0, 0xff], Err((1, 0))),
    (&[0x24, 0, 1, 0xff], Err((1, 0))),
    (&[0x11, 2], Err((8, 2))),
    (&[0x11, 2, 0x24], Err((4, 2))),
    (&[0x11, 2, 0x24, 0], Err((4, 2))),
    (&[0x11, 2, 0x24, 0xff], Err((4, 2))),
    (&[0x11, 2, 0x24, 5], Err((4, 2))),
    (&[0x11, 2, 0x24, 0, 2, 0xff], Err((5, 2))),
    (&[0x11, 2, 0x24, 2, 0, 0xff], Err((5, 2))),
    (&[0x11, 2, 0x24, 0, 0xff], Err((5, 2))),
    (&[0x11, 2, 0x24, 5, 5, 0xff], Err((5, 2))),
    (&[0x11, 0, 0x24, 0, 0, 0xff], Err((5, 2))),
    (&[0x11, 2, 0x24, 1, 1, 0xff], Err((6, 2))),
    (&[0x11, 1, 0x24, 0, 0], Err((6, 2))),
    (&[0x11, 2, 0x21, 0], Err((4, 2))),
    (&[0x11, 2, 0x22, 0, 2, 0xff], Err((5, 2))),
    (&[0x11, 2, 0x21, 1, 1, 0xff], Err((6, 2))),
    (&[0x11, 2, 0x23], Err((4, 2))),
    (&[0x11, 2, 0x23, 0xff], Err((5, 2))),
    (&[0x11, 2, 0x23, 1, 0x23, 1], Err((8, 6))),
    (&[0x11, 2, 0x21, 0, 1, 0x22, 1, 0], Err((8, 8))),
    (&[0x11, 2, 0x21, 0, 1, 0x24, 1, 0, 0x24], Err((4, 8))),
    (&[0x11, 2, 0x25, 0, 1, 0xff], Err((3, 2))),
    (&[0x11, 2, 0x11, 2, 0xff], Err((3, 2))),
    (&[0x11, 2, 0x10, 2, 0xff], Err((3, 2))),
    (&[0x11, 2, 0x24, 0, 1, 0x10], Err((3, 5))),
    (&[0x11, 2, 0xff, 0], Err((9, 3))),
    (&[0x11, 2, 0x24, 0, 1, 0xff, 0xff], Err((9, 6))),
    (&[0x10, 2, 0x11, 2, 0xff], Err((3, 2))),
    (&[0x10, 2, 0x24, 0xff], Err((3, 2))),
    (&[0x10, 2, 0x24], Err((3, 2))),
    (&[0x10, 2, 0x24, 0, 1, 0xff], Err((3, 2))),
    (&[0x10, 2, 0x21, 0, 1, 0x24, 0, 1, 0xff], Err((3, 5))),
];

/// Holds a decoder to all of these lists.
pub fn lists(mut decoder: impl FnMut(&[u8]) -> Result<Decoded, String>) -> Result<(), String> {
    for (list, must) in ACCEPTED.iter().chain(&REFUSED) {
        let must = must.map(|(edges, masked)| {
            let mut graph = SignedGraph::with_edges(list[1].into(), edges);
            graph.masked = masked;
            graph
        });
        let decoded = decoder(list)?;
        if decoded != must {
            let [decoded, must] =
                [decoded, must].map(|it| it.map(|graph| hex_words(&words(&graph))));
            return Err(format!("{} is {decoded:?}, must be {must:?}", hex(list)));
        }
    }
    Ok(())
}

/// The canonical form of what an amendment list comes to opens with 10 and gives everything once.
fn forms() -> Result<(), String> {
    let given = [
        0x11, 3, 0x23, 2, 0x22, 1, 0, 0x21, 0, 2, 0x22, 2, 1, 0x23, 0, 0x24, 2, 0, 0x21, 1, 0,
        0x23, 2, 0xff,
    ];
    let form = [0x10, 3, 0x21, 0, 1, 0x22, 1, 2, 0x23, 0, 0x23, 2, 0xff];
    let graph = decode(&given).map_err(|refusal| format!("{given:x?} is refused: {refusal:?}"))?;
    let mut buffer = [0xaa; 14];
    if encode(&graph, &mut buffer) != Ok(13) || buffer != *[&form[..], &[0xaa]].concat() {
        return Err(format!("the canonical form is {buffer:x?}"));
    }
    Ok(())
}

/// Graph A of the worked cases as an amendment list, with other commands behind it.
fn amended_a(commands: &[u8]) -> Vec<u8> {
    [&[0x11], &A[1..A.len() - 1], commands, &[0xff]].concat()
}

fn outputs() -> Result<(), String> {
    let report = "0 1 | 2 3\n0 4 | 2\nbiggest 0 1 | 2 3\ngroups 2\n";
    let none = "biggest none\ngroups 0\n";
    let cases = [
        (1, amended_a(&[]), report),
        (1, amended_a(&[0x22, 0, 1, 0x21, 1, 0]), report),
        (1, amended_a(&[0x24, 4, 3, 0x24, 1, 4]), report),
        (
            1,
            amended_a(&[0x24, 3, 2]),
            "0 1 | 2\n0 1 | 3\n0 4 | 2\nbiggest 0 1 | 2\ngroups 3\n",
        ),
        (
            0,
            amended_a(&[0x21, 4, 2]),
            "0 1 | 2 3\n0 4 |\n2 4 |\nbiggest 0 1 | 2 3\ngroups 3\n",
        ),
        (
            1,
            amended_a(&[0x24, 2, 0, 0x24, 2, 1, 0x24, 2, 3, 0x24, 2, 4]),
            "0 1 | 3\nbiggest 0 1 | 3\ngroups 1\n",
        ),
        (2, amended_a(&[0x23, 3, 0x24, 3, 0, 0x23, 3]), none),
        (33, amended_a(&[0x24, 0, 1]), "refused 11\n"),
        (255, amended_a(&[0x24, 0, 5]), "refused 5 at 26\n"),
        (0, amended_a(&[0x11]), "refused 3 at 26\n"),
        (0, vec![0x11], "refused 4 at 0\n"),
        (0, vec![0x11, 2], "refused 8 at 2\n"),
        (0, vec![0x12, 0, 0xff], "refused 1 at 0\n"),
        (0, vec![0x10, 2, 0x24], "refused 3 at 2\n"),
    ];
    each_prints(cases)
}
