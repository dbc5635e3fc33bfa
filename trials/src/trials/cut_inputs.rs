//! Inputs of the program around the bytes that it reads: amendment lists that are cut off there, and ones that close right
//! before. What it must print is worked out by hand.

use super::by_hand::A;
use super::program::{from_file, hold, pieces, through_pipe, Piece};
use crate::generate::{amended_to_length, fill, Rng};
use crate::reference::{decode, program, SignedGraph, MOST_INPUT};
use std::path::Path;

/// An input: the place in its list where a command is due, what stands there, the bytes of the whole input, and what the
/// program must print. Other commands and a close follow where there is room.
type Cut = (usize, &'static [u8], usize, &'static str);

/// What the program must print where it reads the graph.
const REPORT: &str = "0 1 | 2 3\n0 4 | 2\nbiggest 0 1 | 2 3\ngroups 2\n";

/// The inputs. The last byte read is the one at place 65,534 of the list.
const CUTS: [Cut; 25] = [
    (65_533, &[0xff], 65_535, REPORT),
    (65_534, &[0xff], 65_536, REPORT),
    (65_534, &[0xff], 65_537, REPORT),
    (65_534, &[0xff], 200_000, REPORT),
    (65_533, &[0xff], 65_536, "refused 9 at 65534\n"),
    (65_533, &[0xff, 0], 65_537, "refused 9 at 65534\n"),
    (65_533, &[0xff], 200_000, "refused 9 at 65534\n"),
    (65_534, &[], 65_535, "refused 8 at 65534\n"),
    (65_535, &[], 65_536, "refused 8 at 65535\n"),
    (65_535, &[0xff], 65_537, "refused 8 at 65535\n"),
    (65_535, &[], 200_000, "refused 8 at 65535\n"),
    (65_535, &[0x30], 200_000, "refused 8 at 65535\n"),
    (65_532, &[0x24, 0, 1], 200_000, "refused 8 at 65535\n"),
    (65_532, &[0x21, 0], 65_535, "refused 4 at 65532\n"),
    (65_534, &[0x24], 65_536, "refused 4 at 65534\n"),
    (65_533, &[0x21, 0], 65_536, "refused 4 at 65533\n"),
    (65_534, &[0x23, 5], 65_537, "refused 4 at 65534\n"),
    (65_533, &[0x22, 1, 0], 65_537, "refused 4 at 65533\n"),
    (65_534, &[0x23, 5], 200_000, "refused 4 at 65534\n"),
    (65_534, &[0x24, 0, 1], 200_000, "refused 4 at 65534\n"),
    (65_533, &[0x21, 0, 1], 200_000, "refused 4 at 65533\n"),
    (65_533, &[0x24, 0, 0xff], 200_000, "refused 4 at 65533\n"),
    (65_532, &[0x21, 0, 0xff], 65_536, "refused 5 at 65532\n"),
    (65_533, &[0x23, 0xff], 65_536, "refused 5 at 65533\n"),
    (65_532, &[0x22, 1, 1], 200_000, "refused 6 at 65532\n"),
];

/// Runs the program on each of them, from a file and through a pipe; gives how many runs that are.
pub fn check(rng: &mut Rng, file: &Path) -> Result<u64, String> {
    let mut runs = 0;
    for cut in CUTS {
        let input = input(rng, cut);
        let (due, there, length, must) = cut;
        let at = |fault: String| format!("{there:x?} at {due}, {length} bytes: {fault}");
        if input.len() != length || program(&input) != must {
            return Err(at(format!("the reference prints {}", program(&input))));
        }
        let any = pieces(rng, &input);
        for printed in [
            from_file(file, &input),
            through_pipe(&any),
            through_pipe(&around_end(&input)),
        ] {
            let printed = printed.map_err(|fault| at(fault.to_string()))?;
            hold(&printed, must).map_err(at)?;
            runs += 1;
        }
    }
    Ok(runs)
}

/// The input in pieces that end in front of the last byte read and behind it, each with time enough to be read by itself.
fn around_end(input: &[u8]) -> [Piece<'_>; 3] {
    let (front, rest) = input.split_at(MOST_INPUT - 1);
    let (last, behind) = rest.split_at(rest.len().min(1));
    [(0, front), (3_000, last), (3_000, behind)]
}

/// The graph A of the worked cases and a masked vertex beside it.
fn graph() -> SignedGraph {
    let mut graph = decode(&A).expect("A is valid");
    graph.n += 1;
    graph.mask(5);
    graph.add(0, 5, true);
    graph.add(2, 5, true);
    graph
}

/// The input for threshold 1; up to where the command is due its list comes to the graph.
fn input(rng: &mut Rng, (due, there, length, _): Cut) -> Vec<u8> {
    let mut list = amended_to_length(rng, &graph(), due);
    list.extend(there);
    if list.len() + 1 < length {
        fill(rng, &mut list, &[5], length - 2);
        list.push(0xff);
    }
    [vec![1], list].concat()
}
