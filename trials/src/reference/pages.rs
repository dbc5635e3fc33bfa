//! Listing order, pages, records and the largest (biggest) group.

use super::graph::{check, holds, SignedGraph};
use super::groups::groups;
use std::cmp::Ordering;

/// Where a page begins: at the first group, or after a set in listing order.
#[derive(Clone, Copy, PartialEq, Eq, Debug)]
pub enum Bookmark {
    Start,
    After(u64),
}

/// A page's answer: refusal number or 0, records written, the next bookmark, and whether no due group is left.
#[derive(Clone, PartialEq, Eq, Debug)]
pub struct Page {
    pub number: u64,
    pub count: u64,
    pub next: Bookmark,
    pub finished: bool,
}

/// Listing order: the set that holds the lowest vertex on which two sets differ is the earlier one.
pub fn listing_order(a: u64, b: u64) -> Ordering {
    match (0..64).find(|&v| holds(a, v) != holds(b, v)) {
        None => Ordering::Equal,
        Some(v) if holds(a, v) => Ordering::Less,
        Some(_) => Ordering::Greater,
    }
}

/// Whether set a comes before set b in listing order.
pub fn comes_before(a: u64, b: u64) -> bool {
    listing_order(a, b) == Ordering::Less
}

/// The page of a graph's groups for k that are due at a bookmark.
pub fn list_page(graph: &SignedGraph, k: u64, from: Bookmark, buffer: &mut [u8]) -> Page {
    match check(graph, k) {
        Ok(()) => page_of(&groups(graph, k), from, buffer),
        Err(number) => Page {
            number,
            count: 0,
            next: from,
            finished: false,
        },
    }
}

/// The page of a list of groups already made, in listing order.
pub fn page_of(groups: &[(u64, u64)], from: Bookmark, buffer: &mut [u8]) -> Page {
    let due: Vec<(u64, u64)> = groups
        .iter()
        .copied()
        .filter(|&(left, right)| match from {
            Bookmark::Start => true,
            Bookmark::After(set) => comes_before(set, left | right),
        })
        .collect();
    let count = due.len().min(buffer.len() / 16);
    let mut next = from;
    for (i, &(left, right)) in due[..count].iter().enumerate() {
        buffer[16 * i..16 * i + 8].copy_from_slice(&left.to_le_bytes());
        buffer[16 * i + 8..16 * i + 16].copy_from_slice(&right.to_le_bytes());
        next = Bookmark::After(left | right);
    }
    Page {
        number: 0,
        count: count as u64,
        next,
        finished: count == due.len(),
    }
}

/// The group with the most vertices, of equals the first in listing order.
pub fn largest(graph: &SignedGraph, k: u64) -> Result<(u64, u64), u64> {
    check(graph, k)?;
    let mut best = Err(12);
    let mut most = 0;
    for (left, right) in groups(graph, k) {
        let size = (left | right).count_ones();
        if size > most {
            most = size;
            best = Ok((left, right));
        }
    }
    best
}

/// The bytes of record i of a listing; none where the listing ends before or inside it.
pub fn record_at(listing: &[u8], i: u64) -> &[u8] {
    let records = listing.len() / 16;
    if u128::from(i) >= records as u128 {
        return &[];
    }
    let start = 16 * i as usize;
    &listing[start..start + 16]
}
