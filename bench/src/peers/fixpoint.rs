//! Reduction by a plain fixpoint: the edges of masked vertices are taken out, and then every round looks at all vertices and
//! at all kept edges.

use super::sets::{above, below, members, size};
use crate::library::Words;

type Rows = [u64; 64];

/// The highest threshold.
const MOST: u64 = 32;

/// Writes the graph reduced for k, or gives the number of the refusal. Never inlined, as the call is not.
#[inline(never)]
pub fn reduce(graph: &Words, k: u64, reduced: &mut Words) -> Result<(), u64> {
    if !is_sound(graph) {
        return Err(10);
    }
    if k > MOST {
        return Err(11);
    }
    reduce_sound(graph, k, reduced);
    Ok(())
}

/// Writes a sound graph reduced for k.
#[inline(never)]
pub fn reduce_sound(graph: &Words, k: u64, reduced: &mut Words) {
    *reduced = *graph;
    take_out_masked(reduced);
    while round(reduced, k) {}
}

/// Drops the edges of masked vertices.
pub fn take_out_masked(kept: &mut Words) {
    let (positive, negative, masked) = parts_mut(kept);
    if masked != 0 {
        let failing = Failing {
            vertices: masked,
            edges: [0; 64],
        };
        failing.drop_from(64, positive, negative);
    }
}

/// Drops what fails by the edges kept at the start, and says whether that was anything.
pub fn round(kept: &mut Words, k: u64) -> bool {
    let n = kept[0] as usize;
    let (positive, negative, _) = parts_mut(kept);
    failing(n, positive, negative, k as u32).drop_from(n, positive, negative)
}

/// The rows of positive and of negative partners, and the masked vertices.
fn parts_mut(graph: &mut Words) -> (&mut Rows, &mut Rows, u64) {
    let ([positive, negative], [masked]) = graph[1..].as_chunks_mut::<64>() else {
        unreachable!("a graph has rows of two signs, and a word behind them");
    };
    (positive, negative, *masked)
}

/// What fails: vertices, and edges, each in the rows of both its ends.
struct Failing {
    vertices: u64,
    edges: Rows,
}

impl Failing {
    /// The partners that a vertex loses.
    fn at(&self, u: usize) -> u64 {
        match self.vertices >> u & 1 {
            1 => u64::MAX,
            _ => self.edges[u] | self.vertices,
        }
    }

    /// Drops what fails from the rows of the first n vertices, and says whether that was anything.
    fn drop_from(&self, n: usize, positive: &mut Rows, negative: &mut Rows) -> bool {
        let mut dropped = 0;
        for u in 0..n.min(64) {
            let gone = self.at(u);
            dropped |= (positive[u] | negative[u]) & gone;
            positive[u] &= !gone;
            negative[u] &= !gone;
        }
        dropped != 0
    }
}

/// Looks at every vertex and, from its lower end, at every edge.
fn failing(n: usize, positive: &Rows, negative: &Rows, k: u32) -> Failing {
    let (mut vertices, mut edges) = (0, [0; 64]);
    for u in 0..n.min(64) {
        let (p, q) = (positive[u], negative[u]);
        if p | q == 0 {
            continue;
        }
        if size(p) + 1 < k || size(q) < k {
            vertices |= 1 << u;
        }
        let mut fail = |v: usize| {
            edges[u] |= 1 << v;
            edges[v] |= 1 << u;
        };
        for v in members(p & above(u)) {
            if size(q & negative[v]) < k || size(p & positive[v]) + 2 < k {
                fail(v);
            }
        }
        for v in members(q & above(u)) {
            if size(p & negative[v]) + 1 < k || size(q & positive[v]) + 1 < k {
                fail(v);
            }
        }
    }
    Failing { vertices, edges }
}

/// Whether partners are mutual and below n, none of both signs and no vertex its own, and masked vertices below n.
fn is_sound(graph: &Words) -> bool {
    let n = graph[0];
    let ([positive, negative], [masked]) = graph[1..].as_chunks::<64>() else {
        unreachable!("a graph has rows of two signs, and a word behind them");
    };
    if n > 64 {
        return false;
    }
    let outside = !below(n);
    let rows = positive.iter().zip(negative);
    let wrong = rows.fold(masked & outside, |wrong, (p, q)| {
        wrong | p & q | (p | q) & outside
    });
    wrong == 0 && is_mutual(positive) && is_mutual(negative)
}

/// Whether partners are mutual and no vertex its own: what a row has up to its own vertex comes from the rows before.
fn is_mutual(rows: &Rows) -> bool {
    let mut from_before = [0; 64];
    rows.iter().enumerate().all(|(u, row)| {
        for v in members(row & above(u)) {
            from_before[v] |= 1 << u;
        }
        row & !above(u) == from_before[u]
    })
}
