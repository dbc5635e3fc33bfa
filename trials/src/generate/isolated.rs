//! Graphs with isolated vertices: nothing can be added to one, and alone it is no group.

use super::graphs::{size, some_vertices};
use super::random::Rng;
use super::traps::shuffled;
use crate::reference::{vertices, SignedGraph};

/// The graph, which one time in four is given isolated vertices: some vertices lose their edges, or
/// others come in between, up to so many in all.
pub fn isolating(rng: &mut Rng, mut graph: SignedGraph, most: u64) -> SignedGraph {
    match rng.below(8) {
        0 => {
            for v in vertices(some_vertices(rng)) {
                (0..graph.n).for_each(|u| graph.remove(u, v));
            }
            graph
        }
        1 => {
            graph.n = rng.between(graph.n, most);
            shuffled(rng, &graph)
        }
        _ => graph,
    }
}

/// A graph of one vertex, of isolated vertices only, or of isolated vertices and one edge.
pub fn nearly_empty(rng: &mut Rng, most: u64) -> SignedGraph {
    let n = size(rng, most);
    match rng.below(3) {
        0 => SignedGraph::new(1),
        1 => SignedGraph::new(n),
        _ => {
            let mut graph = SignedGraph::new(n.max(2));
            let u = rng.below(graph.n);
            let v = (u + rng.between(1, graph.n - 1)) % graph.n;
            graph.add(u, v, rng.chance(50));
            graph
        }
    }
}
