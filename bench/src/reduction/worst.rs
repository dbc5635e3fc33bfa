//! A search for graphs whose reduction takes long.

use super::graphs::{balanced, families};
use super::looks;
use crate::library::Graph;
use mastpickle_trials::generate::{with_density, Rng};
use mastpickle_trials::reference::SignedGraph;

/// How many looks a round weighs, for what it does besides looking.
const ROUND: u64 = 180;

/// Changes edges of the best start for k at random, so many times, and keeps a change that does not lower the weight:
/// the looks, and the rounds by theirs.
pub fn search(k: u64, steps: u64) -> SignedGraph {
    let rng = &mut Rng::of_case(1, k);
    let weight = |graph: &SignedGraph| {
        let counted = looks::count(&Graph::new(graph).words, k);
        counted.looks + ROUND * counted.rounds
    };
    let best = starts(rng).into_iter().max_by_key(weight);
    let mut best = best.expect("there are starts");
    let mut most = weight(&best);
    for _ in 0..steps {
        let next = changed(rng, &best);
        let weight = weight(&next);
        if weight >= most {
            (best, most) = (next, weight);
        }
    }
    best
}

/// A graph of each family, and graphs of many densities, with signs at random and balanced.
fn starts(rng: &mut Rng) -> Vec<SignedGraph> {
    let mut starts: Vec<SignedGraph> = families().map(|(_, family)| family.graph(0)).collect();
    for density in (5..=100).step_by(5) {
        starts.extend([with_density(rng, 64, density, 50), balanced(rng, density)]);
    }
    starts
}

/// The graph with one to three edges taken out, added or of the other sign.
fn changed(rng: &mut Rng, graph: &SignedGraph) -> SignedGraph {
    let mut graph = graph.clone();
    for _ in 0..rng.between(1, 3) {
        let u = rng.below(graph.n);
        let v = (u + rng.between(1, graph.n - 1)) % graph.n;
        let (edge, positive) = (graph.is_edge(u, v), graph.is_positive(u, v));
        graph.remove(u, v);
        if !edge || rng.chance(50) {
            let added = if edge { !positive } else { rng.chance(50) };
            graph.add(u, v, added);
        }
    }
    graph
}
