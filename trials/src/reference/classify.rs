//! Classification (judging) of a set of vertices.

use super::graph::{check, holds, vertices, SignedGraph};
use super::groups::{meets, split};

/// What a set is: the first of these that applies.
#[derive(Clone, PartialEq, Eq, Debug)]
pub enum Verdict {
    /// empty
    Empty,
    /// foreign: the lowest vertex from n up
    OutOfRange(u64),
    /// alone: a single vertex
    Alone,
    /// parked: the lowest masked vertex
    Masked(u64),
    /// missing: the first two vertices with no edge
    MissingEdge(u64, u64),
    /// torn: the first three vertices with one or three negative edges
    Unbalanced(u64, u64, u64),
    /// short: the sizes of left and right
    TooSmall(u64, u64),
    /// widens: the lowest vertex whose addition keeps the balance
    Extensible(u64),
    /// group: left and right
    Group(u64, u64),
}

/// Classifies a set at threshold k.
pub fn classify(graph: &SignedGraph, k: u64, set: u64) -> Result<Verdict, u64> {
    check(graph, k)?;
    let members = vertices(set);
    if members.is_empty() {
        return Ok(Verdict::Empty);
    }
    if let Some(&v) = members.iter().find(|&&v| v >= graph.n) {
        return Ok(Verdict::OutOfRange(v));
    }
    if members.len() == 1 {
        return Ok(Verdict::Alone);
    }
    if let Some(&v) = members.iter().find(|&&v| graph.is_masked(v)) {
        return Ok(Verdict::Masked(v));
    }
    if let Some((a, b)) = missing_edge(graph, &members) {
        return Ok(Verdict::MissingEdge(a, b));
    }
    if let Some((a, b, c)) = unbalanced_triple(graph, &members) {
        return Ok(Verdict::Unbalanced(a, b, c));
    }
    let (left, right) = split(graph, set).expect("edges without an odd triple are balanced");
    if !meets((left, right), k) {
        let sizes = (left.count_ones(), right.count_ones());
        return Ok(Verdict::TooSmall(sizes.0.into(), sizes.1.into()));
    }
    let extension = (0..graph.n).find(|&v| !holds(set, v) && split(graph, set | 1 << v).is_some());
    Ok(match extension {
        Some(v) => Verdict::Extensible(v),
        None => Verdict::Group(left, right),
    })
}

/// The first two members with no edge, by the lower and then the higher.
fn missing_edge(graph: &SignedGraph, members: &[u64]) -> Option<(u64, u64)> {
    for (i, &a) in members.iter().enumerate() {
        for &b in &members[i + 1..] {
            if !graph.is_edge(a, b) {
                return Some((a, b));
            }
        }
    }
    None
}

/// The first three members, all joined, with an odd number of negative edges.
fn unbalanced_triple(graph: &SignedGraph, members: &[u64]) -> Option<(u64, u64, u64)> {
    for (i, &a) in members.iter().enumerate() {
        for (j, &b) in members.iter().enumerate().skip(i + 1) {
            for &c in &members[j + 1..] {
                let negative = [(a, b), (a, c), (b, c)]
                    .iter()
                    .filter(|&&(u, v)| graph.is_negative(u, v))
                    .count();
                if negative % 2 == 1 {
                    return Some((a, b, c));
                }
            }
        }
    }
    None
}
