//! Reduction (cutting down): the largest collection of edges that has no masked vertex and fits the degree conditions for k.

use super::graph::{check, Edge, SignedGraph};

/// A reduced graph, and the looks: at how many vertices and edges all rounds looked.
#[derive(Clone, PartialEq, Eq, Debug)]
pub struct Reduced {
    pub graph: SignedGraph,
    pub looks: u64,
}

impl Reduced {
    /// What a refused call leaves: the graph of no vertices, with nothing masked, and no look.
    pub fn nothing() -> Reduced {
        Reduced {
            graph: SignedGraph::new(0),
            looks: 0,
        }
    }
}

/// Reduces a graph for k by taking out the edges of masked vertices, and then one failing vertex's edges or one failing
/// edge at a time until nothing fails. The looks are those of the rounds, which have to leave the same edges.
///
/// What fails goes on failing when other edges go, so the order of removal does not change what is left.
pub fn reduce(graph: &SignedGraph, k: u64) -> Result<Reduced, u64> {
    check(graph, k)?;
    let mut kept = graph.clone();
    for u in (0..kept.n).filter(|&u| graph.is_masked(u)) {
        (0..kept.n).for_each(|v| kept.remove(u, v));
    }
    while remove_failing(&mut kept, k) {}
    let rounds = rounds(graph, k);
    let left = rounds.last().map(|last| &last.kept);
    assert!(left == Some(&kept.edges()), "rounds leave other edges");
    Ok(Reduced {
        graph: kept,
        looks: rounds.iter().map(|round| round.looks).sum(),
    })
}

/// A round: the edges that it keeps, those that it drops, and at how many vertices and edges it looks.
pub struct Round {
    pub kept: Vec<Edge>,
    pub dropped: Vec<Edge>,
    pub looks: u64,
}

/// The rounds of a sound graph for k, up to and with the first that drops nothing. The first starts with the edges that
/// have no masked vertex and looks at all vertices, masked ones too, each other one at those of the edges that the round
/// before it dropped.
pub fn rounds(graph: &SignedGraph, k: u64) -> Vec<Round> {
    let vertices: Vec<u64> = (0..graph.n).collect();
    let mut rounds = vec![round(graph.n, k, &graph.unmasked_edges(), &vertices)];
    while let Some(last) = rounds.last().filter(|last| !last.dropped.is_empty()) {
        let next = round(graph.n, k, &last.kept, &ends(&last.dropped));
        rounds.push(next);
    }
    rounds
}

/// The vertices of edges, each once.
fn ends(edges: &[Edge]) -> Vec<u64> {
    let mut ends: Vec<u64> = edges.iter().flat_map(|&(u, v, _)| [u, v]).collect();
    ends.sort_unstable();
    ends.dedup();
    ends
}

/// The round that looks at these vertices and at the edges that have one of them, and judges by all edges at its start.
/// It drops the edges that fail and those of the vertices that fail.
pub fn round(n: u64, k: u64, start: &[Edge], vertices: &[u64]) -> Round {
    let graph = SignedGraph::with_edges(n, start);
    let mut round = Round {
        kept: Vec::new(),
        dropped: Vec::new(),
        looks: 0,
    };
    let mut failing = Vec::new();
    for &u in vertices {
        round.looks += 1;
        if !vertex_fits(&graph, k, u) {
            failing.push(u);
        }
    }
    for &(u, v, positive) in start {
        let looked_at = vertices.contains(&u) || vertices.contains(&v);
        round.looks += u64::from(looked_at);
        let falls = failing.contains(&u)
            || failing.contains(&v)
            || looked_at && !edge_fits(&graph, k, u, v);
        let edges = if falls {
            &mut round.dropped
        } else {
            &mut round.kept
        };
        edges.push((u, v, positive));
    }
    round
}

/// Goes once over vertices and edges, removes what fails at that moment, and says whether anything did.
fn remove_failing(kept: &mut SignedGraph, k: u64) -> bool {
    let before = kept.clone();
    for u in 0..kept.n {
        if !vertex_fits(kept, k, u) {
            (0..kept.n).for_each(|v| kept.remove(u, v));
        }
        for v in u + 1..kept.n {
            if kept.is_edge(u, v) && !edge_fits(kept, k, u, v) {
                kept.remove(u, v);
            }
        }
    }
    *kept != before
}

/// Whether every vertex and every edge of a sound graph meets its condition, and no edge has a masked vertex.
pub fn fits(graph: &SignedGraph, k: u64) -> bool {
    let edge_fits = |u: u64, v: u64| !graph.is_masked(u) && edge_fits(graph, k, u, v);
    (0..graph.n).all(|u| {
        vertex_fits(graph, k, u) && (0..graph.n).all(|v| !graph.is_edge(u, v) || edge_fits(u, v))
    })
}

/// How many members a set has.
fn size(set: u64) -> u64 {
    set.count_ones().into()
}

/// The vertex has no edge, or k - 1 positive and k negative partners.
fn vertex_fits(graph: &SignedGraph, k: u64, u: u64) -> bool {
    let (positive, negative) = (graph.positive[u as usize], graph.negative[u as usize]);
    let lone = positive | negative == 0;
    lone || size(positive) >= k.saturating_sub(1) && size(negative) >= k
}

/// The edge has enough third vertices that a group could hold: of each side for a positive edge, and of each of the two
/// sides for a negative one.
fn edge_fits(graph: &SignedGraph, k: u64, u: u64, v: u64) -> bool {
    let (u, v, positive) = (u as usize, v as usize, graph.is_positive(u, v));
    let (p, q) = (&graph.positive, &graph.negative);
    if positive {
        size(p[u] & p[v]) >= k.saturating_sub(2) && size(q[u] & q[v]) >= k
    } else {
        let enough = k.saturating_sub(1);
        size(p[u] & q[v]) >= enough && size(q[u] & p[v]) >= enough
    }
}
