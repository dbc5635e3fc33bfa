//! In how many groups sets of vertices lie.

use super::graph::{check, holds, vertices, SignedGraph};
use super::groups::groups;

/// The most sets of one call.
const MOST_SETS: usize = 256;

/// Writes in how many groups for k each set lies, set by set, at the beginning of `counts`.
pub fn count(graph: &SignedGraph, k: u64, sets: &[u64], counts: &mut [u64]) -> Result<(), u64> {
    check_count(graph, k, sets.len(), counts.len())?;
    let found = counts_of(&groups(graph, k), sets);
    counts[..found.len()].copy_from_slice(&found);
    Ok(())
}

/// The refusals of a call that counts for so many sets into so many places.
pub fn check_count(graph: &SignedGraph, k: u64, sets: usize, places: usize) -> Result<(), u64> {
    check(graph, k)?;
    if places < sets {
        Err(13)
    } else if sets > MOST_SETS {
        Err(14)
    } else {
        Ok(())
    }
}

/// For each set, how many groups of a list already made have each of its vertices on their left or
/// on their right.
pub fn counts_of(groups: &[(u64, u64)], sets: &[u64]) -> Vec<u64> {
    let count = |&set: &u64| {
        let members = vertices(set);
        groups
            .iter()
            .filter(|&&(left, right)| members.iter().all(|&v| holds(left, v) || holds(right, v)))
            .count() as u64
    };
    sets.iter().map(count).collect()
}
