//! The groups of a graph, by two methods: all subsets, and maximal cliques of the signed double cover.

use super::graph::{holds, vertices, SignedGraph};
use super::pages::listing_order;

/// Up to this many vertices the groups are found among all subsets.
const FEW_VERTICES: u64 = 12;

/// The sides (left, right) of a balanced set, left with the lowest vertex; none where the set is not balanced or holds
/// a masked vertex.
pub fn split(graph: &SignedGraph, set: u64) -> Option<(u64, u64)> {
    let members = vertices(set);
    if members.iter().any(|&v| v >= graph.n || graph.is_masked(v)) {
        return None;
    }
    let Some(&lowest) = members.first() else {
        return Some((0, 0));
    };
    // The lowest vertex is on the left, and its edges say on which side each other vertex has to be.
    let right = set & graph.negative[lowest as usize];
    let left = set & !right;
    for (i, &u) in members.iter().enumerate() {
        for &v in &members[i + 1..] {
            let same_side = holds(left, u) == holds(left, v);
            let fits = if same_side {
                graph.is_positive(u, v)
            } else {
                graph.is_negative(u, v)
            };
            if !fits {
                return None;
            }
        }
    }
    Some((left, right))
}

/// Whether both sides have at least k vertices.
pub fn meets(sides: (u64, u64), k: u64) -> bool {
    u64::from(sides.0.count_ones()) >= k && u64::from(sides.1.count_ones()) >= k
}

/// The groups for k as (left, right), in listing order.
pub fn groups(graph: &SignedGraph, k: u64) -> Vec<(u64, u64)> {
    let mut found = if graph.n <= FEW_VERTICES {
        groups_by_subsets(graph)
    } else {
        groups_by_cover(graph)
    };
    found.retain(|&sides| meets(sides, k));
    found
}

/// Of the maximal balanced sets of a graph the groups for threshold 0, which have two vertices or
/// more: each once, in listing order.
fn groups_among(mut maximal: Vec<(u64, u64)>) -> Vec<(u64, u64)> {
    maximal.retain(|(left, right)| (left | right).count_ones() >= 2);
    maximal.sort_by(|a, b| listing_order(a.0 | a.1, b.0 | b.1));
    maximal.dedup();
    maximal
}

/// The groups for threshold 0 of a graph of few vertices: every subset is tried.
pub fn groups_by_subsets(graph: &SignedGraph) -> Vec<(u64, u64)> {
    let subsets = 1usize << graph.n;
    let sides: Vec<Option<(u64, u64)>> = (0..subsets).map(|set| split(graph, set as u64)).collect();
    // Whether a larger balanced set contains the subset; larger sets have larger numbers, so they are known first.
    let mut contained = vec![false; subsets];
    for set in (0..subsets).rev() {
        contained[set] = (0..graph.n).any(|v| {
            let larger = set | 1 << v;
            larger != set && (sides[larger].is_some() || contained[larger])
        });
    }
    let maximal = (0..subsets).filter(|&set| !contained[set]);
    groups_among(maximal.filter_map(|set| sides[set]).collect())
}

/// The groups for threshold 0 of a sound graph, from the maximal cliques of its signed double cover.
///
/// The cover has the vertices v+ (bit v) and v- (bit 64 + v). A clique's plus half is one side of a balanced set and its
/// minus half the other, so each set comes up twice, with its sides exchanged. A masked vertex has no part in the cover.
pub fn groups_by_cover(graph: &SignedGraph) -> Vec<(u64, u64)> {
    let mut adjacent = vec![0u128; 128];
    for v in 0..64 {
        let (positive, negative) = (u128::from(graph.positive[v]), u128::from(graph.negative[v]));
        adjacent[v] = positive | negative << 64;
        adjacent[64 + v] = positive << 64 | negative;
    }
    let all = (0..graph.n)
        .filter(|&v| !graph.is_masked(v))
        .fold(0u128, |set, v| set | 1 << v | 1 << (64 + v));
    let mut cliques = Vec::new();
    maximal_cliques(&adjacent, 0, all, 0, &mut cliques);
    let sides = |clique: u128| left_first(clique as u64, (clique >> 64) as u64);
    groups_among(cliques.into_iter().map(sides).collect())
}

/// Two sides, the one that holds the lowest vertex first.
pub fn left_first(one: u64, other: u64) -> (u64, u64) {
    let lowest = (one | other).trailing_zeros();
    if holds(one, u64::from(lowest)) {
        (one, other)
    } else {
        (other, one)
    }
}

/// Bron–Kerbosch with a pivot: the maximal cliques that contain `clique`, more vertices only of `open`, none of `done`.
fn maximal_cliques(
    adjacent: &[u128],
    clique: u128,
    mut open: u128,
    mut done: u128,
    found: &mut Vec<u128>,
) {
    if open | done == 0 {
        found.push(clique);
        return;
    }
    let pivot = members(open | done)
        .max_by_key(|&v| (open & adjacent[v]).count_ones())
        .expect("the sets are not both empty");
    for v in members(open & !adjacent[pivot]) {
        let near = adjacent[v];
        maximal_cliques(adjacent, clique | 1 << v, open & near, done & near, found);
        open &= !(1 << v);
        done |= 1 << v;
    }
}

/// The members of a set of cover vertices, ascending.
fn members(mut set: u128) -> impl Iterator<Item = usize> {
    std::iter::from_fn(move || {
        let v = set.trailing_zeros() as usize;
        set &= set.wrapping_sub(1);
        (v < 128).then_some(v)
    })
}
