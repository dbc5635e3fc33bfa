//! MBCEnum*, the enumeration of maximal balanced cliques by Chen, Yuan, Lin, Qin and Zhang, *Balanced Clique Computation in
//! Signed Networks: Concepts and Algorithms*, on bitsets.
//!
//! Start vertices go in degeneracy order and sides in turns; the pivot has the most open partners, and vertices with few open
//! partners go first; three rules end a branch, and for k over 0 vertices and edges are dropped before the search. Where the
//! text leaves a choice:
//! - the branches are the open vertices that do not fit beside the pivot, which may be any open or done vertex; the text says of
//!   every searched vertex that its partners can be skipped, which is right for one vertex of a node alone;
//! - the pass that chooses the pivot also finds a done vertex beside all open ones, and whether the open ones form a clique,
//!   which with no vertex open is the test of a result;
//! - vertices are dropped once more after the edges;
//! - a vertex alone is no result.

use super::node::{placed, Candidates, Node};
use super::order::degeneracy;
use super::reduction::{edge_reduction, vertex_reduction, within, Sizes};
use super::sets::{below, size};
use mastpickle_trials::reference::SignedGraph;

/// Puts the groups for k into the list, in no order; a group's sides may be exchanged.
pub fn groups(graph: &SignedGraph, k: u64, found: &mut Vec<(u64, u64)>) {
    found.clear();
    let (reduced, vertices) = reduced(graph, k as u32);
    let (order, _) = degeneracy(|v| reduced.positive[v] | reduced.negative[v], vertices);
    let mut search = Search {
        graph: &reduced,
        k: k as u32,
        first: 0,
        found,
    };
    // Where nothing is open beside a start vertex, it is alone, or all its groups are found.
    for node in Node::roots(&reduced, &order).filter(|node| node.all_open() != 0) {
        search.below(node);
    }
}

/// The graph without the edges that no group for k can use, and the vertices that are left.
fn reduced(graph: &SignedGraph, k: u32) -> (SignedGraph, u64) {
    let all = below(graph.n);
    if k == 0 {
        return (graph.clone(), all);
    }
    let sizes = Sizes {
        smaller: k,
        larger: k,
        most: 0,
    };
    let mut part = within(graph, vertex_reduction(graph, sizes, all));
    edge_reduction(&mut part, sizes);
    let kept = vertex_reduction(&part, sizes, all);
    (within(&part, kept), kept)
}

struct Search<'a> {
    graph: &'a SignedGraph,
    k: u32,
    first: usize,
    found: &'a mut Vec<(u64, u64)>,
}

impl Search<'_> {
    fn below(&mut self, mut node: Node) {
        if node.reach(0) < self.k || node.reach(1) < self.k {
            return;
        }
        let open = node.all_open();
        let (mut most, mut near_pivot) = (0, 0);
        for at in placed(node.done) {
            let near = node.near(self.graph, at);
            if near == open {
                return;
            }
            if size(near) >= most {
                (most, near_pivot) = (size(near), near);
            }
        }
        let (mut least, mut degrees) = (64, [0; 64]);
        for at in placed(node.open) {
            let near = node.near(self.graph, at);
            degrees[at.v] = size(near) as u8;
            least = least.min(size(near));
            if size(near) > most {
                (most, near_pivot) = (size(near), near);
            }
        }
        if least + 1 >= size(open) {
            let [left, right] = [0, 1].map(|side| node.clique[side] | node.open[side]);
            self.found.push((left, right));
            return;
        }
        self.first = 1 - self.first;
        let branches = node.open.map(|open| open & !near_pivot);
        for at in Candidates::new(branches, self.first, &degrees).iter() {
            self.below(node.with(self.graph, at));
            node.finish(at);
        }
    }
}
