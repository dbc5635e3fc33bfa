//! The families of graphs that are reduced, all of 64 vertices.

use crate::families::{family, shuffled, thinned, Family};
use mastpickle_trials::generate::{balanced_on, relabelled, with_density, Rng};
use mastpickle_trials::reference::SignedGraph;

/// What a family is held to.
#[derive(Clone, Copy, PartialEq, Eq)]
pub enum Kind {
    Sparse,
    Tail,
    Other,
}

impl Kind {
    /// The thresholds that a graph is reduced for; a tail for the one at which it falls round by round.
    pub fn thresholds(self) -> &'static [u64] {
        match self {
            Kind::Tail => &[2],
            Kind::Sparse | Kind::Other => &[0, 1, 2, 3, 5, 8, 12, 16],
        }
    }
}

/// All families, each with its kind.
pub fn families() -> impl Iterator<Item = (Kind, &'static Family)> {
    let of = |kind, families: &'static [Family]| families.iter().map(move |family| (kind, family));
    of(Kind::Sparse, &SPARSE)
        .chain(of(Kind::Tail, &TAILS))
        .chain(of(Kind::Other, &OTHERS))
}

static SPARSE: [Family; 12] = [
    family("sparse, 2 %", |rng| with_density(rng, 64, 2, 50)),
    family("sparse, 4 %", |rng| with_density(rng, 64, 4, 50)),
    family("sparse, 6 %", |rng| with_density(rng, 64, 6, 50)),
    family("sparse, 8 %", |rng| with_density(rng, 64, 8, 50)),
    family("sparse, 10 %", |rng| with_density(rng, 64, 10, 50)),
    family("sparse balanced, 2 %", |rng| balanced(rng, 2)),
    family("sparse balanced, 4 %", |rng| balanced(rng, 4)),
    family("sparse balanced, 6 %", |rng| balanced(rng, 6)),
    family("sparse balanced, 8 %", |rng| balanced(rng, 8)),
    family("sparse balanced, 10 %", |rng| balanced(rng, 10)),
    family("path", |rng| with_path(rng, 1)),
    family("band", band),
];

/// Edges that fall from an end, round by round.
static TAILS: [Family; 4] = [
    family("falling band", band),
    family("falling tube at a group of 8", |rng| with_tube(rng, 8)),
    family("falling tube at a group of 16", |rng| with_tube(rng, 16)),
    family("falling tube at a group of 32", |rng| with_tube(rng, 32)),
];

static OTHERS: [Family; 12] = [
    family("path at a group of 8", |rng| with_path(rng, 8)),
    family("path at a group of 16", |rng| with_path(rng, 16)),
    family("path at a group of 32", |rng| with_path(rng, 32)),
    family("tube at a group of 8", |rng| with_tube(rng, 8)),
    family("tube at a group of 16", |rng| with_tube(rng, 16)),
    family("tube at a group of 32", |rng| with_tube(rng, 32)),
    family("uniform, 50 %", |rng| with_density(rng, 64, 50, 50)),
    family("uniform, 80 %", |rng| with_density(rng, 64, 80, 50)),
    family("uniform, 100 %", |rng| with_density(rng, 64, 100, 50)),
    family("planted group of 16", |rng| planted(rng, 16)),
    family("planted group of 32", |rng| planted(rng, 32)),
    family("balanced, 100 %", |rng| balanced(rng, 100)),
];

/// Edges of a density, balanced by random sides.
pub fn balanced(rng: &mut Rng, density: u64) -> SignedGraph {
    let whole = balanced_on(64, u64::MAX, rng.next());
    thinned(rng, &whole, density, 0)
}

/// A group of so many vertices, balanced by random sides, and a path from one of them through all others.
fn with_path(rng: &mut Rng, group: u64) -> SignedGraph {
    let mut graph = balanced_on(64, (1 << group) - 1, rng.next());
    for v in group..64 {
        graph.add(v - 1, v, rng.chance(50));
    }
    relabelled(&graph, &shuffled(rng))
}

/// Vertices in a row, each with a positive edge to the next, and negative ones to the second and the third after it.
/// For k = 2 each edge needs two vertices beside it and has no more, so the ends fall, and then what is next to them.
fn band(rng: &mut Rng) -> SignedGraph {
    let mut graph = SignedGraph::new(64);
    for u in 0..64 {
        for v in u + 1..64.min(u + 4) {
            graph.add(u, v, v == u + 1);
        }
    }
    relabelled(&graph, &shuffled(rng))
}

/// Rings of four vertices, one after another, the first of them a group of so many vertices. A vertex has negative
/// edges to its two neighbours in the ring, and into the next ring a positive edge to its like and a negative one to the
/// vertex after it. For k = 2 each edge needs two vertices beside it and, away from the group, has no more, so the last
/// ring falls, and then the one before it.
fn with_tube(rng: &mut Rng, group: u64) -> SignedGraph {
    let mut graph = balanced_on(64, (1 << group) - 1, 0x5555_5555_5555_5555);
    let next = |v: u64| v / 4 * 4 + (v + 1) % 4;
    for v in 0..64 {
        graph.add(v, next(v), false);
        if v + 4 < 64 {
            graph.add(v, v + 4, true);
            graph.add(v, next(v) + 4, false);
        }
    }
    relabelled(&graph, &shuffled(rng))
}

/// Edges at random, and over them a group of so many vertices, one edge in twenty of it with the wrong sign.
fn planted(rng: &mut Rng, group: u64) -> SignedGraph {
    let around = with_density(rng, 64, 20, 50);
    let side = rng.next();
    let mut graph = thinned(rng, &balanced_on(64, (1 << group) - 1, side), 100, 5);
    for u in 0..64 {
        for v in u + 1..64 {
            if around.is_edge(u, v) && !graph.is_edge(u, v) {
                graph.add(u, v, around.is_positive(u, v));
            }
        }
    }
    relabelled(&graph, &shuffled(rng))
}
