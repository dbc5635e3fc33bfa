//! Graphs that are not sound, of every kind.

use super::graphs::{graph, with_density};
use super::random::Rng;
use crate::reference::SignedGraph;

/// How many kinds of unsoundness there are.
pub const UNSOUND_KINDS: u64 = 11;

/// The kind that has a masked vertex from n up, and no other fault.
pub const MASKED_BEYOND: u64 = 10;

/// A sound graph of `low` to `high` vertices.
fn sound(rng: &mut Rng, low: u64, high: u64) -> SignedGraph {
    for _ in 0..20 {
        let graph = graph(rng);
        if (low..=high).contains(&graph.n) {
            return graph;
        }
    }
    SignedGraph::new(rng.between(low, high))
}

/// Two different numbers below n; the first is often the lowest or the highest.
fn two(rng: &mut Rng, n: u64) -> (usize, usize) {
    let any = rng.below(n);
    let u = rng.pick(&[0, any, any, n - 1]);
    let v = (u + 1 + rng.below(n - 1)) % n;
    (u as usize, v as usize)
}

/// A graph with one fault of the given kind.
pub fn unsound(rng: &mut Rng, kind: u64) -> SignedGraph {
    match kind {
        0 => too_many(rng),
        1..=5 => wrong_pair(rng, kind),
        MASKED_BEYOND => masked_beyond(rng),
        _ => beyond(rng, kind),
    }
}

/// n over 64, with any rows.
fn too_many(rng: &mut Rng) -> SignedGraph {
    let mut graph = sound(rng, 0, 64);
    graph.n = match rng.below(3) {
        0 => rng.between(65, 70),
        1 => rng.pick(&[127, 128, 256, 1 << 32, 1 << 63, u64::MAX]),
        _ => rng.next() | 1 << 40,
    };
    graph
}

/// A fault between two vertices, or at one; now and then one of them is masked.
fn wrong_pair(rng: &mut Rng, kind: u64) -> SignedGraph {
    let mut graph = sound(rng, 2, 64);
    let (u, v) = two(rng, graph.n);
    if rng.chance(30) {
        graph.mask(rng.pick(&[u, v]) as u64);
    }
    let (bit_u, bit_v) = (1u64 << u, 1u64 << v);
    let positive = rng.chance(50);
    graph.remove(u as u64, v as u64);
    let (rows, others) = if positive {
        (&mut graph.positive, &mut graph.negative)
    } else {
        (&mut graph.negative, &mut graph.positive)
    };
    match kind {
        // its own partner
        1 => rows[u] |= bit_u,
        // both signs, each mutual
        2 => {
            rows[u] |= bit_v;
            rows[v] |= bit_u;
            others[u] |= bit_v;
            others[v] |= bit_u;
        }
        // on one side only
        3 => rows[u] |= bit_v,
        // one sign seen from u, the other from v
        4 => {
            rows[u] |= bit_v;
            others[v] |= bit_u;
        }
        // one sign mutual, the other on one side only
        _ => {
            rows[u] |= bit_v;
            rows[v] |= bit_u;
            others[u] |= bit_v;
        }
    }
    graph
}

/// A fault that has to do with vertices from n up.
fn beyond(rng: &mut Rng, kind: u64) -> SignedGraph {
    let (low, high) = match kind {
        6 => (0, 63),
        7 | 8 => (1, 63),
        _ => (0, 62),
    };
    let mut graph = sound(rng, low, high);
    let n = graph.n;
    let inside = rng.below(n.max(1));
    let outside = rng.between(n, 63);
    let positive = rng.chance(50);
    let rows = if positive {
        &mut graph.positive
    } else {
        &mut graph.negative
    };
    match kind {
        // a row from n up that is not empty
        6 => rows[outside as usize] |= 1 << rng.below(64),
        // a bit from n up
        7 => rows[inside as usize] |= 1 << outside,
        // a mutual edge with one vertex from n up
        8 => graph.add(inside, outside, positive),
        // a mutual edge with both from n up
        _ => {
            let other = if outside == 63 { n } else { 63 };
            graph.add(outside, other, positive);
        }
    }
    graph
}

/// Masked vertices from n up; graphs of no vertices and of 63 come up often.
fn masked_beyond(rng: &mut Rng) -> SignedGraph {
    let mut graph = match rng.below(4) {
        0 => SignedGraph::new(0),
        1 => {
            let density = rng.below(101);
            with_density(rng, 63, density, 50)
        }
        _ => sound(rng, 0, 63),
    };
    let n = graph.n;
    let any = rng.between(n, 63);
    graph.masked |= rng.pick(&[1 << n, 1 << 63, 1 << any, u64::MAX << n]);
    graph
}
