//! Dropping what no group of the wanted sizes can use, before a search.

use super::sets::{above, members, size};
use mastpickle_trials::reference::SignedGraph;

/// The sizes that a search looks for: both sides at least `smaller`, one of them at least `larger`, and more vertices than
/// `most` in all.
#[derive(Clone, Copy)]
pub struct Sizes {
    pub smaller: u32,
    pub larger: u32,
    pub most: u32,
}

impl Sizes {
    /// Whether sides of so many vertices at most can still be of these sizes.
    pub fn reached(&self, one: u32, other: u32) -> bool {
        one.min(other) >= self.smaller && one.max(other) >= self.larger && one + other > self.most
    }
}

/// The vertices with enough partners of each sign, where only these are counted.
pub fn vertex_reduction(graph: &SignedGraph, sizes: Sizes, mut vertices: u64) -> u64 {
    loop {
        let fits = |&v: &usize| {
            let same = size(graph.positive[v] & vertices) + 1;
            sizes.reached(same, size(graph.negative[v] & vertices))
        };
        let kept = members(vertices)
            .filter(fits)
            .fold(0, |set, v| set | 1 << v);
        if kept == vertices {
            return kept;
        }
        vertices = kept;
    }
}

/// Drops edges with too few common partners until each has enough.
///
/// The third vertices of a group that holds a positive edge are positive to both ends or negative to both, those of one that
/// holds a negative edge are positive to one end and negative to the other.
pub fn edge_reduction(graph: &mut SignedGraph, sizes: Sizes) {
    let mut again = true;
    while again {
        again = false;
        for u in 0..graph.n as usize {
            let (positive, negative) = (graph.positive[u], graph.negative[u]);
            for v in members((positive | negative) & above(u)) {
                if !edge_fits(graph, sizes, u, v) {
                    graph.remove(u as u64, v as u64);
                    again = true;
                }
            }
        }
    }
}

fn edge_fits(graph: &SignedGraph, sizes: Sizes, u: usize, v: usize) -> bool {
    let (p, q) = (&graph.positive, &graph.negative);
    if p[u] >> v & 1 == 1 {
        sizes.reached(size(p[u] & p[v]) + 2, size(q[u] & q[v]))
    } else {
        sizes.reached(size(p[u] & q[v]) + 1, size(q[u] & p[v]) + 1)
    }
}

/// The graph without edges of vertices outside the set.
pub fn within(graph: &SignedGraph, vertices: u64) -> SignedGraph {
    let mut part = SignedGraph::new(graph.n);
    for v in members(vertices) {
        part.positive[v] = graph.positive[v] & vertices;
        part.negative[v] = graph.negative[v] & vertices;
    }
    part
}
