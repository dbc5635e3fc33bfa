//! Masked vertices: they keep their edges and are in no group.

use super::graphs::with_density;
use super::random::Rng;
use crate::reference::SignedGraph;

/// The graph, which half of the time is given masked vertices: one, some, nearly all or all.
pub fn masking(rng: &mut Rng, mut graph: SignedGraph) -> SignedGraph {
    let [one, other] = [(); 2].map(|()| 1u64 << rng.below(graph.n.max(1)));
    let chosen = match rng.below(16) {
        0..=7 => 0,
        8 | 9 => one,
        10 => one | other,
        11 => rng.next() & rng.next(),
        12 => rng.next(),
        13 => !(one | other),
        14 => !one,
        _ => u64::MAX,
    };
    for v in (0..graph.n).filter(|v| chosen >> v & 1 == 1) {
        graph.mask(v);
    }
    graph
}

/// The graph with masked vertices behind its own, n in all, which have any edges; its groups are the same.
pub fn with_masked(rng: &mut Rng, mut graph: SignedGraph, n: u64) -> SignedGraph {
    let density = rng.below(101);
    for v in graph.n..n {
        graph.mask(v);
        for u in 0..v {
            if rng.chance(density) {
                graph.add(u, v, rng.chance(50));
            }
        }
    }
    graph.n = n;
    graph
}

/// A graph with the longest canonical form: 64 vertices, all edges, all masked.
pub fn longest(rng: &mut Rng) -> SignedGraph {
    let negative = rng.below(101);
    let mut graph = with_density(rng, 64, 100, negative);
    graph.masked = u64::MAX;
    graph
}
