//! Graphs with few groups or none on which a search without the right prunes takes minutes or hours.

use super::graphs::in_parts;
use super::masks::with_masked;
use super::random::Rng;
use crate::reference::{left_first, listing_order, vertices, SignedGraph};

/// A trap: a graph, a threshold, its groups in listing order unless they are too many, and the sides of the largest, the first
/// in listing order among equals; both are empty where there is no group.
pub struct Trap {
    pub name: String,
    pub graph: SignedGraph,
    pub k: u64,
    pub groups: Option<Vec<(u64, u64)>>,
    pub largest: (u64, u64),
}

/// The traps, each with its labels in order of construction and in a random order.
pub fn traps(rng: &mut Rng) -> Vec<Trap> {
    with_shuffled(
        rng,
        [
            missing_one(32, 1),
            missing_one(21, 2),
            short_side(10, &[7, 7, 7, 6, 6], false),
            short_side(10, &[7, 7, 7, 6, 6], true),
            doubled_cycles(10, 3, false),
            doubled_cycles(10, 3, true),
            joined_cycles(8),
            joined_cycles(12),
        ],
    )
}

/// Traps of the same kinds that are small enough for every method.
pub fn small_traps(rng: &mut Rng) -> Vec<Trap> {
    with_shuffled(
        rng,
        [
            missing_one(5, 1),
            missing_one(4, 2),
            short_side(4, &[2, 2], false),
            short_side(4, &[2, 2], true),
            doubled_cycles(4, 1, false),
            doubled_cycles(4, 1, true),
            joined_cycles(1),
            joined_cycles(3),
        ],
    )
}

/// Each trap, and the same with its labels in a random order.
fn with_shuffled<const N: usize>(rng: &mut Rng, natural: [Trap; N]) -> Vec<Trap> {
    natural
        .into_iter()
        .flat_map(|trap| {
            let shuffled = trap.shuffled(rng);
            [trap, shuffled]
        })
        .collect()
}

/// All edges positive: v_1 to v_m joined to each other, and for each v_i some w, joined to every v but v_i.
fn missing_one(m: u64, copies: u64) -> Trap {
    let n = m + m * copies;
    let clique = (1u64 << m) - 1;
    let mut groups = vec![(clique, 0)];
    let mut graph = SignedGraph::new(n);
    for v in 0..m {
        (0..v).for_each(|u| graph.add(u, v, true));
        for w in (0..copies).map(|copy| m + v * copies + copy) {
            vertices(clique & !(1 << v))
                .into_iter()
                .for_each(|u| graph.add(u, w, true));
            groups.push((clique & !(1 << v) | 1 << w, 0));
        }
    }
    Trap::with_groups(
        format!("missing one, {m} and {}", m * copies),
        graph,
        0,
        groups,
    )
}

/// Moon-Moser against a side in parts, for a threshold of one more than the parts: no group, since a side has at most one
/// vertex of a part.
fn short_side(triples: u64, parts: &[u64], exchanged: bool) -> Trap {
    let k = parts.len() as u64 + 1;
    let name = format!("{triples} triples against {} parts, k = {k}", parts.len());
    without_group(name, moon_moser(triples), in_parts_of(parts), k, exchanged)
}

/// Moon-Moser against joined 5-cycles with each vertex doubled, for a threshold of one more than twice the cycles: no group,
/// since a clique has at most two vertices of a cycle, although a colouring needs three colours for each.
fn doubled_cycles(triples: u64, cycles: u64, exchanged: bool) -> Trap {
    let k = 2 * cycles + 1;
    let name = format!("{triples} triples against {cycles} doubled 5-cycles, k = {k}");
    let other = joined(&vec![doubled(&cycle(5)); cycles as usize]);
    without_group(name, moon_moser(triples), other, k, exchanged)
}

/// Joined 5-cycles, all positive: the largest group has two vertices of each.
fn joined_cycles(cycles: u64) -> Trap {
    let graph = joined(&vec![cycle(5); cycles as usize]);
    Trap::of_cycles(format!("{cycles} joined 5-cycles"), graph)
}

/// Two sides that oppose each other, one of which has too small cliques for k.
fn without_group(
    name: String,
    one: SignedGraph,
    other: SignedGraph,
    k: u64,
    exchanged: bool,
) -> Trap {
    let graph = if exchanged {
        beside(&other, &one, false)
    } else {
        beside(&one, &other, false)
    };
    let name = if exchanged {
        format!("{name}, sides exchanged")
    } else {
        name
    };
    Trap::with_groups(name, graph, k, Vec::new())
}

impl Trap {
    fn with_groups(name: String, graph: SignedGraph, k: u64, mut groups: Vec<(u64, u64)>) -> Trap {
        groups.sort_by(|a, b| listing_order(a.0 | a.1, b.0 | b.1));
        let size = |sides: &(u64, u64)| (sides.0 | sides.1).count_ones();
        let most = groups.iter().map(size).max();
        let largest = groups
            .iter()
            .copied()
            .find(|sides| Some(size(sides)) == most);
        Trap {
            name,
            graph,
            k,
            groups: Some(groups),
            largest: largest.unwrap_or((0, 0)),
        }
    }

    /// A trap of joined 5-cycles. The first of the largest groups has, of each cycle, the lowest vertex and the lower of its
    /// two partners there.
    fn of_cycles(name: String, graph: SignedGraph) -> Trap {
        let cycles = graph.without_masked();
        // The vertices that have an edge.
        let all = cycles.positive.iter().fold(0, |all, row| all | row);
        let apart = |v: u64| all & !cycles.positive[v as usize];
        let (mut largest, mut left) = (0, all);
        while left != 0 {
            let lowest = u64::from(left.trailing_zeros());
            // What is in no edge with the lowest, or in none with one of these, is its cycle.
            let cycle = vertices(apart(lowest))
                .into_iter()
                .fold(0, |cycle, v| cycle | apart(v));
            let partners = cycle & !apart(lowest);
            largest |= 1 << lowest | partners & partners.wrapping_neg();
            left &= !cycle;
        }
        Trap {
            name,
            graph,
            k: 0,
            groups: None,
            largest: (largest, 0),
        }
    }

    /// The same trap with isolated vertices, 64 vertices in all, and its labels in a random order.
    pub fn among_isolated(mut self, rng: &mut Rng) -> Trap {
        self.name += ", among isolated vertices";
        self.graph.n = 64;
        self.shuffled(rng)
    }

    /// The same trap with masked vertices, 64 vertices in all, and its labels in a random order.
    pub fn among_masked(mut self, rng: &mut Rng) -> Trap {
        self.name += ", among masked vertices";
        self.graph = with_masked(rng, self.graph, 64);
        self.shuffled(rng)
    }

    /// The same graph and threshold with all vertices masked, which leaves no group.
    pub fn all_masked(&self) -> Trap {
        let mut graph = self.graph.clone();
        (0..graph.n).for_each(|v| graph.mask(v));
        Trap::with_groups(
            format!("{}, all masked", self.name),
            graph,
            self.k,
            Vec::new(),
        )
    }

    /// The same trap with its labels in a random order.
    fn shuffled(&self, rng: &mut Rng) -> Trap {
        let mut labels: Vec<u64> = (0..self.graph.n).collect();
        rng.shuffle(&mut labels);
        let name = format!("{}, shuffled", self.name);
        let graph = relabelled(&self.graph, &labels);
        let sides = |&(left, right)| left_first(renamed(left, &labels), renamed(right, &labels));
        match &self.groups {
            Some(groups) => {
                Trap::with_groups(name, graph, self.k, groups.iter().map(sides).collect())
            }
            None => Trap::of_cycles(name, graph),
        }
    }
}

/// A set with vertex v replaced by the label that it has.
fn renamed(set: u64, labels: &[u64]) -> u64 {
    vertices(set)
        .into_iter()
        .fold(0, |renamed, v| renamed | 1 << labels[v as usize])
}

/// The graph in which vertex v is called by its label.
pub fn relabelled(graph: &SignedGraph, labels: &[u64]) -> SignedGraph {
    let mut renamed_graph = SignedGraph::new(graph.n);
    for (v, &label) in labels.iter().enumerate() {
        renamed_graph.positive[label as usize] = renamed(graph.positive[v], labels);
        renamed_graph.negative[label as usize] = renamed(graph.negative[v], labels);
    }
    renamed_graph.masked = renamed(graph.masked, labels);
    renamed_graph
}

/// The graph with its labels in a random order.
pub fn shuffled(rng: &mut Rng, graph: &SignedGraph) -> SignedGraph {
    let mut labels: Vec<u64> = (0..graph.n).collect();
    rng.shuffle(&mut labels);
    relabelled(graph, &labels)
}

/// Two graphs side by side, with every edge between them of one sign.
fn beside(one: &SignedGraph, other: &SignedGraph, positive: bool) -> SignedGraph {
    let mut graph = SignedGraph::new(one.n + other.n);
    for (part, from) in [(one, 0), (other, one.n)] {
        for v in 0..part.n {
            graph.positive[(from + v) as usize] |= part.positive[v as usize] << from;
            graph.negative[(from + v) as usize] |= part.negative[v as usize] << from;
        }
    }
    for u in 0..one.n {
        for v in one.n..graph.n {
            graph.add(u, v, positive);
        }
    }
    graph
}

/// Graphs with all positive edges between each other.
fn joined(parts: &[SignedGraph]) -> SignedGraph {
    let none = SignedGraph::new(0);
    parts
        .iter()
        .fold(none, |graph, part| beside(&graph, part, true))
}

/// Parts of so many vertices, with no edge inside a part and all positive edges between them.
fn in_parts_of(parts: &[u64]) -> SignedGraph {
    let parts: Vec<SignedGraph> = parts.iter().map(|&part| SignedGraph::new(part)).collect();
    joined(&parts)
}

/// Triples with no edge inside and all positive edges between them.
pub fn moon_moser(triples: u64) -> SignedGraph {
    in_parts(3 * triples, 3, 0)
}

/// The positive cycle of n vertices.
fn cycle(n: u64) -> SignedGraph {
    let mut graph = SignedGraph::new(n);
    (0..n).for_each(|v| graph.add(v, (v + 1) % n, true));
    graph
}

/// Each vertex replaced by two that have no edge with each other and the edges of the vertex.
fn doubled(graph: &SignedGraph) -> SignedGraph {
    let mut twice = SignedGraph::new(2 * graph.n);
    for u in 0..graph.n {
        for v in (0..graph.n).filter(|&v| graph.is_edge(u, v)) {
            for (a, b) in [(0, 0), (0, 1), (1, 0), (1, 1)] {
                twice.add(2 * u + a, 2 * v + b, graph.is_positive(u, v));
            }
        }
    }
    twice
}
