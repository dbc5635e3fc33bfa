//! Sets, thresholds, bookmarks, buffer lengths and numbers of sets.

use super::random::Rng;
use crate::reference::{split, vertices, Bookmark, SignedGraph};

/// A threshold; most are small, 0 above all, and some are over 32.
pub fn threshold(rng: &mut Rng) -> u64 {
    match rng.below(20) {
        0 => rng.below(33),
        1 => rng.pick(&[31, 32]),
        2 => over_most(rng),
        _ => rng.pick(&[0, 0, 0, 0, 1, 1, 1, 2, 2, 3, 4, 5]),
    }
}

/// A threshold near the size of the smaller of two sides.
pub fn threshold_near(rng: &mut Rng, sides: (u64, u64)) -> u64 {
    let smaller = sides.0.count_ones().min(sides.1.count_ones());
    u64::from(smaller) + rng.below(2)
}

/// A threshold; now and then one near the size of the smaller side of a group.
pub fn threshold_among(rng: &mut Rng, groups: &[(u64, u64)]) -> u64 {
    if rng.chance(10) && !groups.is_empty() {
        let sides = rng.pick(groups);
        threshold_near(rng, sides)
    } else {
        threshold(rng)
    }
}

/// A threshold over 32.
pub fn over_most(rng: &mut Rng) -> u64 {
    match rng.below(3) {
        0 => 33,
        1 => rng.between(33, 40),
        _ => rng.pick(&[1 << 32, (1 << 32) + 1, 1 << 63, u64::MAX]),
    }
}

/// A buffer's length; those around one and two records come up often.
pub fn buffer_length(rng: &mut Rng) -> usize {
    match rng.below(64) {
        0..=31 => rng.pick(&[0, 1, 15, 16, 17, 31, 32, 33]),
        32..=47 => rng.length(0, 200),
        48 => rng.length(6000, 100_000),
        _ => rng.length(0, 6000),
    }
}

/// A balanced set, grown vertex by vertex in a random order; often one that nothing can be added to. Now and then masked
/// vertices are taken like others.
pub fn balanced_set(rng: &mut Rng, graph: &SignedGraph) -> u64 {
    let mut graph = graph.clone();
    if rng.chance(40) {
        graph.masked = 0;
    }
    let mut order: Vec<u64> = (0..graph.n).collect();
    rng.shuffle(&mut order);
    let limit = if rng.chance(70) { 64 } else { rng.below(8) };
    let mut set = 0u64;
    for v in order {
        let larger = set | 1 << v;
        if u64::from(set.count_ones()) < limit && split(&graph, larger).is_some() {
            set = larger;
        }
    }
    set
}

/// A set whose members all have edges with each other, of any sign.
fn joined_set(rng: &mut Rng, graph: &SignedGraph) -> u64 {
    let mut order: Vec<u64> = (0..graph.n).collect();
    rng.shuffle(&mut order);
    let limit = rng.between(3, 12);
    let mut set = 0u64;
    for v in order {
        let partners = graph.positive[v as usize] | graph.negative[v as usize];
        if u64::from(set.count_ones()) < limit && set & !partners == 0 {
            set |= 1 << v;
        }
    }
    set
}

/// A set near a balanced one, with and without masked vertices, one of joined vertices, a single vertex, or any set.
pub fn set_to_classify(rng: &mut Rng, graph: &SignedGraph) -> u64 {
    let set = balanced_set(rng, graph);
    let one = 1u64 << rng.below(64);
    let inside = 1u64 << rng.below(graph.n.max(1));
    let below_highest = u64::MAX.checked_shr(set.leading_zeros() + 1).unwrap_or(0);
    let last_two = 3 << graph.n.saturating_sub(2);
    let masked = any_vertex(rng, graph.masked);
    match rng.below(18) {
        0..=2 => set,
        3 => set & !(set & set.wrapping_neg()),
        4 => set & !one,
        5 | 6 => set | inside,
        7 => set | one,
        8 => rng.pick(&[0, u64::MAX, one, one | 1, last_two]),
        9 => rng.next() & rng.next() & rng.next(),
        10 => set & below_highest,
        11 => rng.pick(&[inside, inside, one]),
        12 | 13 => set & !graph.masked,
        14 => set & !graph.masked | masked,
        15 => rng.pick(&[masked, masked | one, masked | inside]),
        _ => joined_set(rng, graph),
    }
}

/// The set of one vertex of a set; empty where that is empty.
fn any_vertex(rng: &mut Rng, set: u64) -> u64 {
    match vertices(set).as_slice() {
        [] => 0,
        members => 1 << rng.pick(members),
    }
}

/// A bookmark: the start, a group's own or a balanced set's, one near these, or any.
pub fn bookmark(rng: &mut Rng, graph: &SignedGraph, groups: &[(u64, u64)]) -> Bookmark {
    let set = if groups.is_empty() || rng.chance(20) {
        balanced_set(rng, graph)
    } else {
        let (left, right) = rng.pick(groups);
        left | right
    };
    let one = 1u64 << rng.below(64);
    Bookmark::After(match rng.below(12) {
        0..=2 => return Bookmark::Start,
        3..=5 => set,
        6 => set & !one,
        7 => set | one,
        8 => set | 1 << rng.between(graph.n.min(63), 63),
        9 => rng.pick(&[0, u64::MAX, one, 1 << 63]),
        10 => rng.next() & rng.next(),
        _ => rng.next(),
    })
}

/// How many sets a call counts for; most are few, and none, one and those around 256 come up often.
pub fn number_of_sets(rng: &mut Rng) -> usize {
    match rng.below(32) {
        0..=4 => rng.pick(&[0, 1, 255, 256, 257, 300]),
        5 => rng.length(0, 300),
        _ => rng.length(2, 12),
    }
}

/// So many sets to count for in a graph of n vertices with these groups; some come up again.
pub fn sets_to_count(rng: &mut Rng, number: usize, n: u64, groups: &[(u64, u64)]) -> Vec<u64> {
    let mut sets: Vec<u64> = Vec::new();
    while sets.len() < number {
        let set = if !sets.is_empty() && rng.chance(10) {
            rng.pick(&sets)
        } else {
            set_to_count(rng, n, groups)
        };
        sets.push(set);
    }
    sets
}

/// A group, a part of one, what two share or have together, one with a vertex more, a single
/// vertex, or any set.
fn set_to_count(rng: &mut Rng, n: u64, groups: &[(u64, u64)]) -> u64 {
    let (set, other) = (any_group(rng, groups), any_group(rng, groups));
    let inside = 1u64 << rng.below(n.max(1));
    let outside = 1u64 << rng.between(n.min(63), 63);
    let all = u64::MAX.checked_shr(64 - n as u32).unwrap_or(0);
    match rng.below(16) {
        0 | 1 => set,
        2 | 3 => set & rng.next(),
        4 | 5 => set & rng.next() & rng.next(),
        6 => set & other,
        7 => set & other & rng.next(),
        8 => set | other,
        9 => set | inside,
        10 => set & rng.next() | outside,
        11 | 12 => inside,
        13 => rng.pick(&[0, all, u64::MAX, outside]),
        14 => rng.next() & rng.next() & rng.next() & all,
        _ => rng.next(),
    }
}

/// The set of a group; any set where there is no group.
fn any_group(rng: &mut Rng, groups: &[(u64, u64)]) -> u64 {
    if groups.is_empty() {
        return rng.next();
    }
    let (left, right) = rng.pick(groups);
    left | right
}
