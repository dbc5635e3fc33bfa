//! Holding the peers to the reference on small graphs, so that a peer's time is that of a right answer.

use crate::library::Graph;
use crate::measure::in_listing_order;
use crate::peers::cliquer::Cliquer;
use crate::peers::igraph::Igraph;
use crate::peers::{fixpoint, mbcenum, mbcsear};
use crate::verdict::Verdict;
use mastpickle_trials::generate::{small_graph, unsound, Rng, UNSOUND_KINDS};
use mastpickle_trials::interface::GRAPH_WORDS;
use mastpickle_trials::reference::{groups, reduce, split, SignedGraph};
use mastpickle_trials::trials::words;

const GRAPHS: u64 = 1500;

/// The highest threshold; most graphs have no group for more.
const MOST: u64 = 4;

pub fn compare(verdict: &mut Verdict) {
    let all = (0..GRAPHS).try_for_each(|i| {
        let graph = small_graph(&mut Rng::of_case(2, i));
        (0..=MOST)
            .try_for_each(|k| searches(&graph, k).map_err(|peer| (i, k, peer)))
            .and_then(|()| in_c(&graph).map_err(|peer| (i, 0, peer)))
    });
    let all = all.map_err(|(i, k, peer)| format!("{peer} differs on graph {i}, k = {k}"));
    verdict.take("small graphs", &all);
    let refused = (0..GRAPHS).all(|i| {
        let rng = &mut Rng::of_case(3, i);
        fixpoint_reduces(&unsound(rng, i % UNSOUND_KINDS), MOST)
            && fixpoint_reduces(&small_graph(rng), 33)
    });
    verdict.compare("calls that the fixpoint refuses", refused, true);
}

/// The name of the search in Rust that differs from the reference.
fn searches(graph: &SignedGraph, k: u64) -> Result<(), &'static str> {
    if !fixpoint_reduces(graph, k) {
        return Err("the fixpoint");
    }
    let expected = groups(graph, k);
    let bare = graph.without_masked();
    let mut found = Vec::new();
    mbcenum::groups(&bare, k, &mut found);
    in_listing_order(&mut found);
    if found != expected {
        return Err("MBCEnum*");
    }
    let (one, other) = mbcsear::largest(&bare, k);
    let sides = split(graph, one | other);
    let valid = sides == Some((one, other)) || sides == Some((other, one));
    if valid && (one | other).count_ones() == most(&expected) {
        Ok(())
    } else {
        Err("MBCSear-SSP*")
    }
}

/// Whether the fixpoint gives the reduced graph, or refuses, as the reference does.
fn fixpoint_reduces(graph: &SignedGraph, k: u64) -> bool {
    let mut reduced = [u64::MAX; GRAPH_WORDS];
    let found = fixpoint::reduce(&Graph::new(graph).words, k, &mut reduced);
    found.map(|()| reduced.to_vec()) == reduce(graph, k).map(|reduced| words(&reduced.graph))
}

/// The name of the peer in C that differs from the reference for threshold 0.
fn in_c(graph: &SignedGraph) -> Result<(), &'static str> {
    if graph.n == 0 {
        return Ok(());
    }
    let expected = groups(graph, 0);
    let count = expected.len() as u64;
    let bare = graph.without_masked();
    let igraph = Igraph::new(&bare).is_none_or(|igraph| {
        igraph.count() == count && igraph.by_smaller_side().iter().sum::<u64>() == count
    });
    if !igraph {
        return Err("igraph");
    }
    let cliquer = Cliquer::new(&bare).is_none_or(|cliquer| cliquer.largest() == most(&expected));
    cliquer.then_some(()).ok_or("cliquer")
}

/// The size of the largest group, 0 where there is none.
fn most(groups: &[(u64, u64)]) -> u32 {
    let sizes = groups.iter().map(|sides| (sides.0 | sides.1).count_ones());
    sizes.max().unwrap_or(0)
}
