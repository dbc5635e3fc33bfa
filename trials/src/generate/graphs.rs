//! Sound graphs of many families, each with a moderate number of groups.

use super::isolated::{isolating, nearly_empty};
use super::masks::{masking, with_masked};
use super::random::Rng;
use super::traps::shuffled;
use crate::reference::SignedGraph;

/// A number of vertices up to `most`; the ends of the range come up often.
pub fn size(rng: &mut Rng, most: u64) -> u64 {
    match rng.below(8) {
        0 => rng.below(3).min(most),
        1 => most,
        2 => most - most.min(1),
        3 | 4 => rng.below(13).min(most),
        _ => rng.between(0, most),
    }
}

/// A graph of any family.
pub fn graph(rng: &mut Rng) -> SignedGraph {
    let graph = match rng.below(19) {
        0..=4 => random_graph(rng, 64),
        5..=8 => planted(rng),
        9 => one_sign(rng),
        10 => two_sides(rng),
        11 => parts(rng),
        12 => complete_balanced(rng),
        13..=15 => nearly_empty(rng, 64),
        16 => thin(rng),
        17 => sparse_signs(rng),
        _ => small_graph(rng),
    };
    let graph = isolating(rng, graph, 64);
    masking(rng, graph)
}

/// A graph with many groups for small thresholds.
pub fn rich_graph(rng: &mut Rng) -> SignedGraph {
    let n = rng.between(12, 64);
    let graph = match rng.below(4) {
        0 if rng.chance(1) => many_groups(rng),
        0 => parts(rng),
        1 => planted(rng),
        _ => {
            let (density, negative) = (rng.between(15, 50), rng.between(10, 90));
            with_density(rng, n, density, negative)
        }
    };
    let graph = isolating(rng, graph, 64);
    masking(rng, graph)
}

/// A graph of 64 vertices, or near that, with up to some twenty thousand groups.
pub fn dense_graph(rng: &mut Rng) -> SignedGraph {
    let graph = match rng.below(3) {
        0 => {
            let density = rng.between(60, 97);
            with_density(rng, 64, density, 50)
        }
        1 => {
            let (density, negative) = (rng.between(50, 75), rng.between(20, 80));
            with_density(rng, 64, density, negative)
        }
        _ => {
            let side = rng.next();
            let n = rng.between(40, 64);
            let mut graph = balanced_on(n, u64::MAX, side);
            sign_noise(rng, &mut graph, 40);
            graph
        }
    };
    let graph = isolating(rng, graph, 64);
    masking(rng, graph)
}

/// A graph of at most 12 vertices.
pub fn small_graph(rng: &mut Rng) -> SignedGraph {
    let graph = match rng.below(7) {
        0 | 1 => {
            let n = rng.between(1, 12);
            let density = rng.between(60, 100);
            let negative = rng.below(101);
            with_density(rng, n, density, negative)
        }
        2 | 3 => {
            let n = rng.between(4, 12);
            let side = rng.next();
            let mut graph = balanced_on(n, (1 << n) - 1, side);
            let noise = rng.below(30);
            sign_noise(rng, &mut graph, noise);
            graph
        }
        4 | 5 => random_graph(rng, 12),
        _ => nearly_empty(rng, 12),
    };
    let graph = isolating(rng, graph, 12);
    masking(rng, graph)
}

/// The most vertices for which a random graph of a density in percent has a moderate number of groups.
fn most_vertices(density: u64) -> u64 {
    match density {
        0..=50 => 64,
        51..=70 => 44,
        71..=85 => 30,
        _ => 22,
    }
}

/// Edges at random with one density and one share of negative edges.
fn random_graph(rng: &mut Rng, most: u64) -> SignedGraph {
    let density = match rng.below(6) {
        0 => 0,
        1 => 100,
        _ => rng.below(101),
    };
    let negative = match rng.below(6) {
        0 => 0,
        1 => 100,
        2 => 50,
        _ => rng.below(101),
    };
    let n = size(rng, most.min(most_vertices(density)));
    with_density(rng, n, density, negative)
}

/// A graph of n vertices with edges at random, of a density and a share of negative edges in percent.
pub fn with_density(rng: &mut Rng, n: u64, density: u64, negative: u64) -> SignedGraph {
    let mut graph = SignedGraph::new(n);
    for u in 0..n {
        for v in u + 1..n {
            if rng.chance(density) {
                let positive = !rng.chance(negative);
                graph.add(u, v, positive);
            }
        }
    }
    graph
}

/// The graph of n vertices whose edges join every two members of a set, balanced with the members in `side` on one side.
pub fn balanced_on(n: u64, set: u64, side: u64) -> SignedGraph {
    let mut graph = SignedGraph::new(n);
    for u in 0..n {
        for v in u + 1..n {
            if (set >> u) & (set >> v) & 1 == 1 {
                graph.add(u, v, (side >> u) & 1 == (side >> v) & 1);
            }
        }
    }
    graph
}

/// Gives each edge, with a chance in percent, another state: no edge or the other sign.
pub fn sign_noise(rng: &mut Rng, graph: &mut SignedGraph, percent: u64) {
    for u in 0..graph.n {
        for v in u + 1..graph.n {
            if graph.is_edge(u, v) && rng.chance(percent) {
                let flipped = !graph.is_positive(u, v);
                graph.remove(u, v);
                if rng.chance(50) {
                    graph.add(u, v, flipped);
                }
            }
        }
    }
}

/// One to three balanced cliques with few faults, over a thin random graph.
pub fn planted(rng: &mut Rng) -> SignedGraph {
    let n = rng.between(6, 64);
    let density = rng.below(36);
    let negative = rng.between(20, 80);
    let mut graph = with_density(rng, n, density, negative);
    for _ in 0..rng.between(1, 3) {
        let mut order: Vec<u64> = (0..n).collect();
        rng.shuffle(&mut order);
        let most = rng.pick(&[10, 14, 24, 50]).min(n as usize);
        let members = rng.length(4, most);
        let set = order[..members].iter().fold(0, |set, &v| set | 1 << v);
        let side = some_vertices(rng);
        let mut clique = balanced_on(n, set, side);
        // A large clique with many faults would have too many groups.
        let noise = if members > 24 {
            rng.pick(&[0, 0, 1])
        } else {
            rng.pick(&[0, 0, 2, 5, 15])
        };
        sign_noise(rng, &mut clique, noise);
        for (u, v, positive) in clique.edges() {
            graph.remove(u, v);
            graph.add(u, v, positive);
        }
    }
    graph
}

/// All edges of one sign, complete or of some density.
fn one_sign(rng: &mut Rng) -> SignedGraph {
    let negative = rng.pick(&[0, 100]);
    let density = rng.pick(&[20, 50, 80, 100]);
    // Only negative edges make small groups, so a complete graph stays moderate; a complete positive one is one group.
    let most = if density == 100 {
        64
    } else {
        most_vertices(density)
    };
    let n = size(rng, most);
    with_density(rng, n, density, negative)
}

/// Positive inside two halves, negative across, with a density across and inside.
fn two_sides(rng: &mut Rng) -> SignedGraph {
    let n = size(rng, 24);
    let side = rng.next();
    let (inside, across) = (rng.between(30, 100), rng.between(30, 100));
    let mut graph = balanced_on(n, u64::MAX, side);
    for u in 0..n {
        for v in u + 1..n {
            let density = if graph.is_positive(u, v) {
                inside
            } else {
                across
            };
            if !rng.chance(density) {
                graph.remove(u, v);
            }
        }
    }
    graph
}

/// Parts with no edge inside and all edges between them: Moon–Moser graphs up to 7 parts of 3, with any balanced signs.
fn parts(rng: &mut Rng) -> SignedGraph {
    let part = rng.between(2, 4);
    let n = rng.between(part, [14, 21, 24][part as usize - 2]);
    let side = rng.pick(&[0, 0x5555_5555_5555_5555, 0x9999_6666_3333_cccc]);
    in_parts(n, part, side)
}

/// The balanced graph of n vertices in parts of so many, with no edge inside a part and all edges between them.
pub fn in_parts(n: u64, part: u64, side: u64) -> SignedGraph {
    let mut graph = balanced_on(n, u64::MAX, side);
    for u in 0..n {
        for v in u + 1..n {
            if u / part == v / part {
                graph.remove(u, v);
            }
        }
    }
    graph
}

/// One balanced clique on all vertices, with a few edges taken out or flipped; now and then of two sides of 32.
fn complete_balanced(rng: &mut Rng) -> SignedGraph {
    let n = if rng.chance(30) { 64 } else { size(rng, 64) };
    let any = some_vertices(rng);
    let side = rng.pick(&[any, any, 0x5555_5555_5555_5555, 0xffff_ffff]);
    let mut graph = balanced_on(n, u64::MAX, side);
    if n < 2 {
        return graph;
    }
    for _ in 0..rng.pick(&[0, 0, 1, 2, 5]) {
        let (u, v) = (rng.below(n), rng.below(n));
        let positive = graph.is_positive(u, v);
        graph.remove(u, v);
        if u != v && rng.chance(50) {
            graph.add(u, v, !positive);
        }
    }
    graph
}

/// A complete graph with few negative edges, or with few positive ones.
fn sparse_signs(rng: &mut Rng) -> SignedGraph {
    let n = size(rng, 22);
    let negative = rng.pick(&[3, 10, 90, 97]);
    with_density(rng, n, 100, negative)
}

/// A forest in which most vertices have an edge with the one before or with any earlier one.
fn thin(rng: &mut Rng) -> SignedGraph {
    let n = size(rng, 64);
    let (density, near) = (rng.between(40, 100), rng.below(101));
    forest(rng, n, density, near)
}

/// A forest of n vertices: with a chance `density` in percent a vertex has an edge with an earlier one, and with a
/// chance `near` in percent that is the one before.
pub fn forest(rng: &mut Rng, n: u64, density: u64, near: u64) -> SignedGraph {
    let mut graph = SignedGraph::new(n);
    for v in 1..n {
        if rng.chance(density) {
            let u = if rng.chance(near) {
                v - 1
            } else {
                rng.below(v)
            };
            let positive = rng.chance(50);
            graph.add(u, v, positive);
        }
    }
    graph
}

/// A graph with more groups than fit into 65,536 bytes: parts of two to four, all edges between them.
fn many_groups(rng: &mut Rng) -> SignedGraph {
    let part = rng.between(2, 4);
    let n = [26, 24, 28][part as usize - 2];
    in_parts(n, part, rng.next())
}

/// A graph with so many groups for threshold 0, as long as 64 vertices are enough: balanced graphs
/// in parts, with no edge from one to another, isolated vertices, masked ones half of the time, and
/// labels in a random order.
pub fn with_groups(rng: &mut Rng, number: u64) -> SignedGraph {
    // For each vertex, the number that was open when its graph was made, and its part there.
    let mut homes: Vec<(u64, usize)> = Vec::new();
    let mut open = number;
    while open > 0 {
        let parts = parts_within(open);
        for (part, &size) in parts.iter().enumerate() {
            homes.extend((0..size).map(|_| (open, part)));
        }
        open -= parts.iter().product::<u64>();
    }
    // Isolated vertices, as a graph of one part.
    homes.resize(rng.length(homes.len(), 64), (0, 0));
    rng.shuffle(&mut homes);
    let mut graph = balanced_on(homes.len() as u64, u64::MAX, rng.next());
    for u in 0..graph.n {
        for v in u + 1..graph.n {
            let (one, other) = (homes[u as usize], homes[v as usize]);
            if one.0 != other.0 || one.1 == other.1 {
                graph.remove(u, v);
            }
        }
    }
    if rng.chance(50) {
        let n = rng.between(graph.n, 64);
        graph = with_masked(rng, graph, n);
        graph = shuffled(rng, &graph);
    }
    graph
}

/// Parts of two and three with the largest product up to a number, which is not 0; and of one where
/// they are fewer than two, since it is the edges between parts that make groups.
fn parts_within(most: u64) -> Vec<u64> {
    let twos = |threes: u32| (most / 3u64.pow(threes)).ilog2();
    let threes = (0..=most.ilog(3))
        .max_by_key(|&threes| 3u64.pow(threes) << twos(threes))
        .expect("no threes are tried as well");
    let mut parts = vec![2; twos(threes) as usize];
    parts.resize(parts.len() + threes as usize, 3);
    parts.resize(parts.len().max(2), 1);
    parts
}

/// The vertices that are on one side, or that are to be isolated: about half of 64, a few or one.
pub fn some_vertices(rng: &mut Rng) -> u64 {
    match rng.below(4) {
        0 => 1 << rng.below(64),
        1 => rng.next() & rng.next() & rng.next(),
        _ => rng.next(),
    }
}
