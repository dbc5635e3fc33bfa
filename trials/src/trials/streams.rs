//! The trial of the program's streams: output that fails, output that has to wait, and input that cannot be read.

mod inputs;
mod outputs;
mod waits;

use super::child::Held;
use super::tally::Tally;
use crate::generate::{balanced_on, moon_moser, scrambled, Rng};
use crate::reference::SignedGraph;
use std::io::{pipe, PipeReader, Write};

/// A case: its name and what runs it.
type Case = (&'static str, fn(&mut Rng) -> Held<()>);

pub fn run(seed: u64, _amount: u64) -> Result<Tally, String> {
    let cases = [&outputs::CASES[..], &waits::CASES, &inputs::CASES].concat();
    let mut tally = Tally::default();
    let mut faults = Vec::new();
    for (name, case) in cases {
        let mut rng = Rng::of_case(seed, tally.cases);
        match case(&mut rng) {
            Ok(()) => tally.count(name),
            Err(fault) => faults.push(format!("\n  {name}: {fault}")),
        }
        tally.cases += 1;
    }
    if faults.is_empty() {
        Ok(tally)
    } else {
        Err(format!("seed {seed:#x}:{}", faults.concat()))
    }
}

/// The input of a threshold and a graph.
fn input(rng: &mut Rng, k: u8, graph: &SignedGraph) -> Vec<u8> {
    let mut input = vec![k];
    input.extend(scrambled(rng, graph));
    input
}

/// An input with 3^20 groups, whose listing takes minutes.
fn endless(rng: &mut Rng) -> Vec<u8> {
    input(rng, 0, &moon_moser(20))
}

/// The first line for that input.
const ENDLESS_FIRST: &str = "0 3 6 9 12 15 18 21 24 27 30 33 36 39 42 45 48 51 54 57 |\n";

/// The balanced graph of n vertices with all edges but those inside so many triples; a group has one vertex of each triple.
fn with_triples(n: u64, triples: u64, side: u64) -> SignedGraph {
    let mut graph = balanced_on(n, u64::MAX, side);
    for v in (0..triples).map(|triple| 3 * triple) {
        graph.remove(v, v + 1);
        graph.remove(v, v + 2);
        graph.remove(v + 1, v + 2);
    }
    graph
}

/// A pipe in which bytes lie, at most as many as it holds, and whose writer is closed.
fn lying_in_pipe(bytes: &[u8]) -> std::io::Result<PipeReader> {
    let (reader, mut writer) = pipe()?;
    writer.write_all(bytes)?;
    Ok(reader)
}
