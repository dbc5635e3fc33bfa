//! The signed double cover of a graph, for peers that know edges of one kind.

use mastpickle_trials::reference::SignedGraph;

/// The ends of the cover's edges, one edge after another.
///
/// Vertex v gives v and n + v. A positive edge joins those of the same half, a negative one those
/// of different halves. A maximal clique of two vertices or more has one side of a group in each
/// half, so each group is found twice, the second time with its sides exchanged; the two are never
/// the same clique, since one of v and n + v is in it for any vertex v of the group.
pub fn edges(graph: &SignedGraph) -> Vec<u64> {
    let n = graph.n;
    let mut ends = Vec::new();
    for u in 0..n {
        for v in u + 1..n {
            if graph.is_positive(u, v) {
                ends.extend([u, v, n + u, n + v]);
            } else if graph.is_negative(u, v) {
                ends.extend([u, n + v, n + u, v]);
            }
        }
    }
    ends
}
