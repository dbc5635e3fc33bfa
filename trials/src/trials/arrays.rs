//! The arrays that trials hand over, and the comparison of what calls leave in them.

use super::expect::words;
use super::tally::{hex, hex_words};
use crate::generate::{graph, rich_graph, unsound, Rng, UNSOUND_KINDS};
use crate::interface::{noise, Outcome, GRAPH_WORDS};
use crate::reference::{groups, SignedGraph};

/// Mostly sound graphs, and some that are not.
pub fn any_graph(rng: &mut Rng) -> SignedGraph {
    if rng.chance(88) {
        graph(rng)
    } else {
        let kind = rng.below(UNSOUND_KINDS);
        unsound(rng, kind)
    }
}

/// A graph, often one with many groups, and its groups for threshold 0; none where it is not sound.
pub fn graph_with_groups(rng: &mut Rng) -> (SignedGraph, Vec<(u64, u64)>) {
    let graph = if rng.chance(40) {
        rich_graph(rng)
    } else {
        any_graph(rng)
    };
    let all = if graph.is_sound() {
        groups(&graph, 0)
    } else {
        Vec::new()
    };
    (graph, all)
}

/// A graph's words; now and then with others behind them, or too few of them.
pub fn graph_array(rng: &mut Rng, graph: &SignedGraph) -> Vec<u64> {
    let mut array = words(graph);
    match rng.below(16) {
        0 => {
            let behind = rng.length(1, 9);
            array.extend(noise::<u64>(rng, behind));
        }
        1 => array.truncate(short_of(rng, GRAPH_WORDS)),
        _ => {}
    }
    array
}

/// An array to be written: noise of the length that is needed, now and then longer or too short.
pub fn room(rng: &mut Rng, need: usize) -> Vec<u64> {
    let length = match rng.below(16) {
        0 => need + rng.length(1, 9),
        1 => short_of(rng, need),
        _ => need,
    };
    noise(rng, length)
}

/// A length under `need`; the longest and the shortest come up often.
fn short_of(rng: &mut Rng, need: usize) -> usize {
    let any = rng.length(0, need - 1);
    rng.pick(&[0, need - 1, any])
}

/// Nothing where a call left what it must, else a message with the call and both outcomes.
pub fn same(
    call: impl FnOnce() -> String,
    left: Result<Outcome, String>,
    must: &Outcome,
) -> Result<(), String> {
    match left {
        Ok(left) if left == *must => Ok(()),
        Ok(left) => Err(format!(
            "{}\n  left {}\n  must {}",
            call(),
            text(&left),
            text(must)
        )),
        Err(fault) => Err(format!("{}: {fault}", call())),
    }
}

fn text(outcome: &Outcome) -> String {
    format!(
        "{} graph {} out {} answer {} counts {}",
        outcome.number,
        hex_words(&outcome.graph),
        hex(&outcome.out),
        hex_words(&outcome.answer),
        hex_words(&outcome.counts)
    )
}
