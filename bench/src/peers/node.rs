//! The search states that both searches of balanced cliques go through.

use super::sets::{members, size};
use mastpickle_trials::reference::SignedGraph;

/// A balanced clique and the vertices that fit beside it, by sides: those still open, and those whose cliques are done.
#[derive(Clone, Copy)]
pub struct Node {
    pub clique: [u64; 2],
    pub open: [u64; 2],
    pub done: [u64; 2],
}

/// A vertex and the side on which it stands.
#[derive(Clone, Copy)]
pub struct Placed {
    pub v: usize,
    pub side: usize,
}

impl Node {
    /// The states that the search begins with: one vertex, open those after it in the order, done those before it.
    ///
    /// A clique is found from its first vertex, which stands on side 0, so it is not found again with its sides exchanged.
    pub fn roots<'a>(
        graph: &'a SignedGraph,
        order: &'a [usize],
    ) -> impl Iterator<Item = Node> + 'a {
        let mut before = 0;
        order.iter().map(move |&v| {
            let (positive, negative) = (graph.positive[v], graph.negative[v]);
            let node = Node {
                clique: [1 << v, 0],
                open: [positive & !before, negative & !before],
                done: [positive & before, negative & before],
            };
            before |= 1 << v;
            node
        })
    }

    /// All open vertices; no vertex is open on both sides, since its sign with the clique says on which it may stand.
    pub fn all_open(&self) -> u64 {
        self.open[0] | self.open[1]
    }

    /// The open vertices that fit beside a vertex.
    pub fn near(&self, graph: &SignedGraph, at: Placed) -> u64 {
        graph.positive[at.v] & self.open[at.side] | graph.negative[at.v] & self.open[1 - at.side]
    }

    /// The state with an open vertex in the clique.
    pub fn with(&self, graph: &SignedGraph, at: Placed) -> Node {
        let mut rows = [graph.negative[at.v]; 2];
        rows[at.side] = graph.positive[at.v];
        let mut clique = self.clique;
        clique[at.side] |= 1 << at.v;
        Node {
            clique,
            open: [self.open[0] & rows[0], self.open[1] & rows[1]],
            done: [self.done[0] & rows[0], self.done[1] & rows[1]],
        }
    }

    /// Moves an open vertex to the done ones.
    pub fn finish(&mut self, at: Placed) {
        self.open[at.side] &= !(1 << at.v);
        self.done[at.side] |= 1 << at.v;
    }

    /// The most vertices that a side can come to have.
    pub fn reach(&self, side: usize) -> u32 {
        size(self.clique[side]) + size(self.open[side])
    }
}

/// Vertices of both sides, each with the side on which it stands.
pub fn placed(sets: [u64; 2]) -> impl Iterator<Item = Placed> {
    let on = |side| members(sets[side]).map(move |v| Placed { v, side });
    on(0).chain(on(1))
}

/// The vertices to go on with, ascending by their number of open partners, those of one side before those of the other.
pub struct Candidates {
    keys: [u16; 64],
    count: usize,
}

impl Candidates {
    pub fn new(sets: [u64; 2], first: usize, degrees: &[u8; 64]) -> Candidates {
        let mut all = Candidates {
            keys: [0; 64],
            count: 0,
        };
        for (rank, side) in [first, 1 - first].into_iter().enumerate() {
            for v in members(sets[side]) {
                all.insert((rank << 14 | side << 13 | usize::from(degrees[v]) << 6 | v) as u16);
            }
        }
        all
    }

    fn insert(&mut self, key: u16) {
        let mut at = self.count;
        while at > 0 && self.keys[at - 1] > key {
            self.keys[at] = self.keys[at - 1];
            at -= 1;
        }
        self.keys[at] = key;
        self.count += 1;
    }

    pub fn iter(&self) -> impl Iterator<Item = Placed> + '_ {
        self.keys[..self.count].iter().map(|&key| Placed {
            v: usize::from(key & 63),
            side: usize::from(key >> 13 & 1),
        })
    }
}
