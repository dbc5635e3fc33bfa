//! Counting the looks of a reduction that goes in rounds.

use crate::library::Words;
use crate::peers::fixpoint;
use crate::peers::sets::{above, below, members, size};

/// How many rounds there are, with the last, which drops nothing, and how many looks in all of them.
#[derive(Clone, Copy, Default)]
pub struct Looks {
    pub rounds: u64,
    pub looks: u64,
}

/// Goes through the rounds of a sound graph for k, once the edges of masked vertices are taken out. The first looks at all
/// vertices and edges, a later one at the vertices that lost an edge in the round before, and at their edges.
pub fn count(graph: &Words, k: u64) -> Looks {
    let mut kept = *graph;
    fixpoint::take_out_masked(&mut kept);
    let mut vertices = below(graph[0]);
    let mut counted = Looks::default();
    loop {
        counted.rounds += 1;
        counted.looks += looks(&kept, vertices);
        let before = kept;
        if !fixpoint::round(&mut kept, k) {
            return counted;
        }
        vertices = (0..64)
            .filter(|&v| partners(&kept, v) != partners(&before, v))
            .fold(0, |set, v| set | 1 << v);
    }
}

/// The looks at vertices and at the edges that have one of them; an edge of two is looked at from the higher.
fn looks(kept: &Words, vertices: u64) -> u64 {
    let edges = |v: usize| size(partners(kept, v) & !(vertices & above(v)));
    members(vertices).map(|v| u64::from(1 + edges(v))).sum()
}

fn partners(graph: &Words, v: usize) -> u64 {
    graph[1 + v] | graph[65 + v]
}
