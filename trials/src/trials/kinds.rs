//! Counting graphs by kinds: with masked vertices, which are in no group, and with isolated vertices at threshold 0, where a
//! set of one vertex is none.

use super::tally::Tally;
use crate::reference::SignedGraph;

/// Graphs with nothing masked and a vertex that has no edge.
pub const ISOLATED: &str = "at 0 with isolated vertices";

/// Graphs by how many vertices are masked, and those with an unmasked vertex all of whose edges have a masked one.
pub const MASKED: [&str; 5] = [
    "with none masked",
    "with some masked",
    "with all but one masked",
    "with all masked",
    "with edges to masked vertices alone",
];

/// All kinds: these, and with nothing masked graphs of one vertex, of more vertices without an edge, and of one edge.
pub const KINDS: [&str; 9] = [
    ISOLATED,
    "at 0 with one vertex",
    "at 0 with no edge",
    "at 0 with one edge",
    MASKED[0],
    MASKED[1],
    MASKED[2],
    MASKED[3],
    MASKED[4],
];

/// Counts the sound graph of a call with a threshold by its kinds.
pub fn count_kinds(tally: &mut Tally, graph: &SignedGraph, k: u64) {
    count_masked(tally, graph);
    if k == 0 && graph.masked == 0 {
        count_isolated(tally, graph);
    }
}

/// Counts a sound graph by its masked vertices.
pub fn count_masked(tally: &mut Tally, graph: &SignedGraph) {
    let masked = (0..graph.n).filter(|&v| graph.is_masked(v)).count() as u64;
    tally.count(match graph.n - masked {
        _ if masked == 0 => MASKED[0],
        0 => MASKED[3],
        1 => MASKED[2],
        _ => MASKED[1],
    });
    if masked > 0 {
        let [before, after] = [graph, &graph.without_masked()].map(degrees);
        let lost = |v: u64| before[v as usize] > 0 && after[v as usize] == 0;
        if (0..graph.n).any(|v| !graph.is_masked(v) && lost(v)) {
            tally.count(MASKED[4]);
        }
    }
}

/// Counts a sound graph with nothing masked by its isolated vertices.
fn count_isolated(tally: &mut Tally, graph: &SignedGraph) {
    let degrees = degrees(graph);
    if degrees.contains(&0) {
        tally.count(ISOLATED);
    }
    match (graph.n, degrees.iter().sum::<u32>() / 2) {
        (1, _) => tally.count(KINDS[1]),
        (2.., 0) => tally.count(KINDS[2]),
        (_, 1) => tally.count(KINDS[3]),
        _ => {}
    }
}

/// How many partners each vertex has.
fn degrees(graph: &SignedGraph) -> Vec<u32> {
    let partners = |v: u64| graph.positive[v as usize] | graph.negative[v as usize];
    (0..graph.n).map(|v| partners(v).count_ones()).collect()
}
