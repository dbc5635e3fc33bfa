//! MBCSear-SSP*, the search of a maximum balanced clique of the paper that `mbcenum` names, on bitsets.
//!
//! The search space is cut into regions by the size of the larger side, from the largest that the positive degeneracy allows
//! downwards by halves, with edges dropped for each region and, at each node, vertices dropped, colours counted, and vertices
//! skipped that the pivot dominates. Where the printed text would lose a result or leaves a choice, this does what is right:
//! - a clique of exactly 2 k vertices counts, so the size to beat begins one below;
//! - a vertex alone is no result, so for k = 0 the size to beat begins at 1;
//! - the loop over regions begins with no region before the first (the printed start ends it at once);
//! - a vertex that has exactly as many partners as the region asks for stays;
//! - a vertex is dominated by the pivot only on the pivot's side, since an exchange across would change the sizes of the sides;
//! - two vertices cannot be in one clique with no edge, and not with an edge of the wrong sign either;
//! - edges are dropped by the size to beat too, as vertices are;
//! - a clique with no vertex open is a result whatever is done: it is larger than the best so far, which is all that is asked.

use super::node::{placed, Candidates, Node};
use super::order::degeneracy;
use super::reduction::{edge_reduction, Sizes};
use super::sets::{below, size};
use mastpickle_trials::reference::SignedGraph;

/// A group for k with the most vertices; its sides may be exchanged, and both are empty where there is none.
pub fn largest(graph: &SignedGraph, k: u64) -> (u64, u64) {
    let k = k as u32;
    let all = below(graph.n);
    let (_, positive) = degeneracy(|v| graph.positive[v], all);
    let mut sizes = Sizes {
        smaller: k,
        larger: positive + 1,
        most: (2 * k).saturating_sub(1).max(1),
    };
    let mut best = [0, 0];
    let mut before = u32::MAX;
    while sizes.larger >= sizes.smaller && sizes.larger < before {
        let mut part = graph.clone();
        edge_reduction(&mut part, sizes);
        let (order, _) = degeneracy(|v| part.positive[v] | part.negative[v], all);
        let mut search = Search {
            graph: &part,
            sizes,
            first: 0,
            best,
        };
        for node in Node::roots(&part, &order) {
            search.below(node);
        }
        (sizes, best) = (search.sizes, search.best);
        before = sizes.larger;
        sizes.smaller = sizes.most.saturating_sub(before).max(k);
        sizes.larger = before.div_ceil(2).max(sizes.smaller);
    }
    (best[0], best[1])
}

struct Search<'a> {
    graph: &'a SignedGraph,
    sizes: Sizes,
    first: usize,
    best: [u64; 2],
}

impl Search<'_> {
    fn below(&mut self, mut node: Node) {
        self.drop_vertices(&mut node);
        if !self.sizes.reached(node.reach(0), node.reach(1)) {
            return;
        }
        if node.all_open() == 0 {
            self.best = node.clique;
            self.sizes.most = size(node.clique[0]) + size(node.clique[1]);
            return;
        }
        let colours = |side: usize| size(node.clique[side]) + self.colours(node.open[side]);
        if !self.sizes.reached(colours(0), colours(1)) {
            return;
        }
        let mut degrees = [0; 64];
        let branches = self.branches(&node, &mut degrees);
        self.first = 1 - self.first;
        for at in Candidates::new(branches, self.first, &degrees).iter() {
            self.below(node.with(self.graph, at));
            node.finish(at);
        }
    }

    /// Drops open vertices with too few open partners for the region until each has enough.
    fn drop_vertices(&self, node: &mut Node) {
        let chosen = node.clique.map(size);
        let mut again = true;
        while again {
            again = false;
            for at in placed(node.open) {
                let same = size(self.graph.positive[at.v] & node.open[at.side]);
                let across = size(self.graph.negative[at.v] & node.open[1 - at.side]);
                let (same, across) = (same + 1 + chosen[at.side], across + chosen[1 - at.side]);
                if !self.sizes.reached(same, across) {
                    node.open[at.side] &= !(1 << at.v);
                    again = true;
                }
            }
        }
    }

    /// How many colours a greedy colouring of the set's positive edges takes.
    fn colours(&self, mut set: u64) -> u32 {
        let mut colours = 0;
        while set != 0 {
            colours += 1;
            let mut free = set;
            while free != 0 {
                let v = free.trailing_zeros() as usize;
                set &= !(1 << v);
                free &= !(self.graph.positive[v] | 1 << v);
            }
        }
        colours
    }

    /// The open vertices to branch on: those that do not fit beside the pivot, without what it dominates.
    fn branches(&self, node: &Node, degrees: &mut [u8; 64]) -> [u64; 2] {
        let (mut side, mut most, mut near_pivot, mut own) = (0, 0, 0, 0);
        for at in placed(node.done) {
            let near = node.near(self.graph, at);
            if size(near) >= most {
                (side, most, near_pivot) = (at.side, size(near), near);
            }
        }
        for at in placed(node.open) {
            let near = node.near(self.graph, at);
            degrees[at.v] = size(near) as u8;
            if own == 0 && most == 0 || size(near) > most {
                (side, most, near_pivot, own) = (at.side, size(near), near, 1 << at.v);
            }
        }
        let mut branches = node.open.map(|open| open & !near_pivot & !own);
        self.drop_dominated(side, &mut branches);
        branches[side] |= own;
        branches
    }

    /// Drops what a pivot on a side dominates: one vertex, or two that are in no clique together.
    fn drop_dominated(&self, side: usize, branches: &mut [u64; 2]) {
        let all = branches[0] | branches[1];
        let alone = match size(all) {
            1 => true,
            2 => {
                let mut ends = placed(*branches);
                let (Some(one), Some(other)) = (ends.next(), ends.next()) else {
                    return;
                };
                let rows = if one.side == other.side {
                    &self.graph.positive
                } else {
                    &self.graph.negative
                };
                rows[one.v] >> other.v & 1 == 0
            }
            _ => false,
        };
        if alone {
            branches[side] = 0;
        }
    }
}
