//! The families of graphs, all of 64 vertices.

use mastpickle_trials::generate::{balanced_on, moon_moser, relabelled, with_density, Rng};
use mastpickle_trials::reference::SignedGraph;

/// How many graphs of each family there are.
pub const GRAPHS: u64 = 3;

pub struct Family {
    pub name: &'static str,
    make: fn(&mut Rng) -> SignedGraph,
}

impl Family {
    /// Graph number i of the family.
    pub fn graph(&self, i: u64) -> SignedGraph {
        (self.make)(&mut Rng::of_case(1, i))
    }

    /// The same graph with a quarter of its vertices masked.
    pub fn masked(&self, i: u64) -> SignedGraph {
        let mut graph = self.graph(i);
        let labels = shuffled(&mut Rng::of_case(2, i));
        labels[..16].iter().for_each(|&v| graph.mask(v));
        graph
    }
}

pub const FAMILIES: [Family; 9] = [
    family("uniform, 30 %", |rng| with_density(rng, 64, 30, 50)),
    family("uniform, 50 %", |rng| with_density(rng, 64, 50, 50)),
    family("uniform, 70 %", |rng| with_density(rng, 64, 70, 50)),
    family("uniform, 90 %", |rng| with_density(rng, 64, 90, 50)),
    family("uniform, 95 %", |rng| with_density(rng, 64, 95, 50)),
    family("two sides, 90 %", |rng| two_sides(rng, 90)),
    family("two sides, complete", |rng| two_sides(rng, 100)),
    family("positive, 90 %", |rng| with_density(rng, 64, 90, 0)),
    family("Moon-Moser, 12 triples", twelve_triples),
];

pub const fn family(name: &'static str, make: fn(&mut Rng) -> SignedGraph) -> Family {
    Family { name, make }
}

/// Two sides of 32 vertices, edges of a density, one in twenty of them with the wrong sign.
fn two_sides(rng: &mut Rng, density: u64) -> SignedGraph {
    let labels = shuffled(rng);
    let side = labels[..32].iter().fold(0, |set, &v| set | 1 << v);
    thinned(rng, &balanced_on(64, u64::MAX, side), density, 5)
}

/// Edges of a graph with a density, some of them, in percent, with the wrong sign.
pub fn thinned(rng: &mut Rng, whole: &SignedGraph, density: u64, wrong: u64) -> SignedGraph {
    let mut graph = SignedGraph::new(64);
    for u in 0..64 {
        for v in u + 1..64 {
            if whole.is_edge(u, v) && rng.chance(density) {
                graph.add(u, v, whole.is_positive(u, v) != rng.chance(wrong));
            }
        }
    }
    graph
}

/// The Moon-Moser graph of twelve triples, among 28 vertices with no edge.
fn twelve_triples(rng: &mut Rng) -> SignedGraph {
    let mut graph = moon_moser(12);
    graph.n = 64;
    relabelled(&graph, &shuffled(rng))
}

/// The vertices in a random order.
pub fn shuffled(rng: &mut Rng) -> Vec<u64> {
    let mut labels: Vec<u64> = (0..64).collect();
    rng.shuffle(&mut labels);
    labels
}
