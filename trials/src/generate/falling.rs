//! Graphs and thresholds for which reducing drops edges, in few rounds or in many.

use super::graphs::{balanced_on, forest, planted, sign_noise, with_density};
use super::isolated::isolating;
use super::masks::{masking, with_masked};
use super::random::Rng;
use super::traps::shuffled;
use crate::reference::SignedGraph;

/// A graph with its labels in a random order, and a threshold for which most graphs of its family lose edges.
pub fn falling(rng: &mut Rng) -> (SignedGraph, u64) {
    let (graph, k) = match rng.below(6) {
        0 => sparse(rng),
        1 => tree(rng, 100),
        2 => {
            let near = rng.below(100);
            tree(rng, near)
        }
        3 => {
            let (graph, k, _) = with_tail(rng);
            (graph, k)
        }
        4 => faulty_tail(rng),
        _ => (planted(rng), rng.between(1, 8)),
    };
    let graph = isolating(rng, graph, 64);
    let graph = masking(rng, graph);
    (shuffled(rng, &graph), k)
}

/// Few edges at random.
fn sparse(rng: &mut Rng) -> (SignedGraph, u64) {
    let n = rng.between(10, 64);
    let (density, negative) = (rng.between(2, 10), rng.below(101));
    (with_density(rng, n, density, negative), rng.between(1, 2))
}

/// A tree of any signs; a path where `near` is 100.
fn tree(rng: &mut Rng, near: u64) -> (SignedGraph, u64) {
    let n = rng.between(2, 64);
    (forest(rng, n, 100, near), rng.between(1, 3))
}

/// The vertices of one side.
const EVEN: u64 = 0x5555_5555_5555_5555;

/// A balanced clique with a tail, now and then masked vertices, a threshold k, and how many edges fall for k: one in each
/// round.
///
/// The clique is on the vertices from `tail` up. Even vertices are on one side, odd ones on the other. Each vertex of
/// the tail has edges with the next two, with k - 2 of the clique on either side, and with two more of it across. So
/// each edge lies in a balanced set with k on each side, but for those from a vertex v of the tail to v + 1. Such an
/// edge has k - 1 third vertices on either side, just enough: those k - 2, and v - 1 or v + 2. But 0 has none before
/// it, so its edge falls, then the next one, and so on. The last one, into the clique, has enough there.
pub fn with_tail(rng: &mut Rng) -> (SignedGraph, u64, usize) {
    let any = rng.between(2, 30);
    let k = rng.pick(&[2, 2, 3, 4, any]);
    let shared = 2 * (k - 2);
    let tail = rng.between(2, 58 - shared);
    let n = rng.between(tail + shared + 6, 64);
    let mut graph = balanced_on(n, u64::MAX << tail, EVEN);
    for v in 0..tail {
        graph.add(v, v + 1, false);
        graph.add(v, v + 2, true);
        for u in n - 4 - shared..n {
            let across = (u + v) % 2 == 1;
            if u < n - 4 || across {
                graph.add(u, v, !across);
            }
        }
    }
    if rng.chance(30) {
        let n = rng.between(n, 64);
        graph = with_masked(rng, graph, n);
    }
    (graph, k, tail as usize - 1)
}

/// A clique with a tail, some edges of which are gone or have the other sign.
fn faulty_tail(rng: &mut Rng) -> (SignedGraph, u64) {
    let (mut graph, k, _) = with_tail(rng);
    let faults = rng.between(1, 3);
    sign_noise(rng, &mut graph, faults);
    (graph, k)
}
