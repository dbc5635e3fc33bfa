//! Signed graphs and what makes one sound.

/// The most vertices that a graph has.
pub const MOST_VERTICES: u64 = 64;

/// A signed graph (sheet) of n vertices (paths): for each vertex the set of its positive (tracking) partners and of its
/// negative (opposing) partners, and the set of the masked (parked) vertices, which keep their edges and are in no group.
#[derive(Clone, PartialEq, Eq, Debug)]
pub struct SignedGraph {
    pub n: u64,
    pub positive: [u64; 64],
    pub negative: [u64; 64],
    pub masked: u64,
}

/// An edge: its two vertices, the lower first, and whether it is positive.
pub type Edge = (u64, u64, bool);

/// Whether vertex v is in the set.
pub fn holds(set: u64, v: u64) -> bool {
    v < 64 && (set >> v) & 1 == 1
}

/// The vertices of a set, ascending.
pub fn vertices(set: u64) -> Vec<u64> {
    (0..64).filter(|&v| holds(set, v)).collect()
}

impl SignedGraph {
    /// The graph of n vertices with no edge and nothing masked; of no vertices where n is over the most.
    pub fn new(n: u64) -> SignedGraph {
        SignedGraph {
            n: if n > MOST_VERTICES { 0 } else { n },
            positive: [0; 64],
            negative: [0; 64],
            masked: 0,
        }
    }

    /// The graph of n vertices with these edges and nothing masked.
    pub fn with_edges(n: u64, edges: &[Edge]) -> SignedGraph {
        let mut graph = SignedGraph::new(n);
        for &(u, v, positive) in edges {
            graph.add(u, v, positive);
        }
        graph
    }

    /// The edges of a sound graph, ascending.
    pub fn edges(&self) -> Vec<Edge> {
        (0..self.n)
            .flat_map(|u| (u + 1..self.n).map(move |v| (u, v)))
            .filter(|&(u, v)| self.is_edge(u, v))
            .map(|(u, v)| (u, v, self.is_positive(u, v)))
            .collect()
    }

    /// The edges of a sound graph between vertices that are not masked, ascending.
    pub fn unmasked_edges(&self) -> Vec<Edge> {
        let mut edges = self.edges();
        edges.retain(|&(u, v, _)| !self.is_masked(u) && !self.is_masked(v));
        edges
    }

    /// The graph of the vertices and unmasked edges of a sound graph, with nothing masked.
    pub fn without_masked(&self) -> SignedGraph {
        SignedGraph::with_edges(self.n, &self.unmasked_edges())
    }

    /// Whether vertex v is masked (parked).
    pub fn is_masked(&self, v: u64) -> bool {
        holds(self.masked, v)
    }

    /// Whether u and v have a positive edge (track).
    pub fn is_positive(&self, u: u64, v: u64) -> bool {
        holds(self.positive[u as usize], v)
    }

    /// Whether u and v have a negative edge (oppose).
    pub fn is_negative(&self, u: u64, v: u64) -> bool {
        holds(self.negative[u as usize], v)
    }

    /// Whether u and v have an edge (are a given pair).
    pub fn is_edge(&self, u: u64, v: u64) -> bool {
        self.is_positive(u, v) || self.is_negative(u, v)
    }

    /// Masks a vertex.
    pub fn mask(&mut self, v: u64) {
        self.masked |= 1 << v;
    }

    /// Adds an edge in both rows.
    pub fn add(&mut self, u: u64, v: u64, positive: bool) {
        let rows = if positive {
            &mut self.positive
        } else {
            &mut self.negative
        };
        rows[u as usize] |= 1 << v;
        rows[v as usize] |= 1 << u;
    }

    /// Takes an edge of either sign out of both rows.
    pub fn remove(&mut self, u: u64, v: u64) {
        for rows in [&mut self.positive, &mut self.negative] {
            rows[u as usize] &= !(1 << v);
            rows[v as usize] &= !(1 << u);
        }
    }

    /// Whether the graph is sound: partners are mutual with the same sign, never of both signs, never the vertex itself,
    /// and no vertex from n up is or has one or is masked.
    pub fn is_sound(&self) -> bool {
        if self.n > MOST_VERTICES {
            return false;
        }
        for u in 0..64 {
            if u >= self.n && self.is_masked(u) {
                return false;
            }
            for v in 0..64 {
                let edge = self.is_edge(u, v);
                let both = self.is_positive(u, v) && self.is_negative(u, v);
                let mutual = self.is_positive(u, v) == self.is_positive(v, u)
                    && self.is_negative(u, v) == self.is_negative(v, u);
                let outside = u >= self.n || v >= self.n;
                if !mutual || both || (edge && (u == v || outside)) {
                    return false;
                }
            }
        }
        true
    }
}

/// The refusals that every call on a graph with a threshold begins with.
pub fn check(graph: &SignedGraph, k: u64) -> Result<(), u64> {
    if !graph.is_sound() {
        Err(10)
    } else if k > 32 {
        Err(11)
    } else {
        Ok(())
    }
}
