//! The trial of graphs with thousands of groups: the whole listing, in one call and by pages, the
//! largest group, and counts.

use super::expect::{records, words};
use super::kinds::count_kinds;
use super::tally::{each_case, hex_words, Tally};
use crate::generate::{dense_graph, sets_to_count, Rng};
use crate::interface::{self, noise};
use crate::reference::{counts_of, groups, meets};

/// The bytes of a page.
const PAGE: usize = 1024;

/// The most sets that a call counts for.
const MOST_SETS: usize = 256;

pub fn run(seed: u64, amount: u64) -> Result<Tally, String> {
    each_case("many_groups", seed, amount, |rng, tally| {
        let graph = dense_graph(rng);
        let all = groups(&graph, 0);
        let k = rng.pick(&[0, 0, 1, 2, 4]);
        let due: Vec<(u64, u64)> = all.into_iter().filter(|&g| meets(g, k)).collect();
        tally.add("groups", due.len() as u64);
        count_kinds(tally, &graph, k);
        let graph = words(&graph);
        compare(rng, &graph, k, &due, PAGE)
            .map_err(|fault| format!("{} k {k:x}: {fault}", hex_words(&graph)))
    })
}

/// Holds the listing in one call, the listing by pages of so many bytes, the largest and counts to
/// the groups in listing order.
pub fn compare(
    rng: &mut Rng,
    graph: &[u64],
    k: u64,
    due: &[(u64, u64)],
    page: usize,
) -> Result<(), String> {
    let records = records(due);
    if listed(rng, graph, k, records.len())? != records {
        return Err("one call lists other groups".to_string());
    }
    if listed(rng, graph, k, page)? != records {
        return Err("pages list other groups".to_string());
    }
    let largest = interface::largest(rng, graph, k, &[7, 7])?;
    let size = |&(left, right): &(u64, u64)| (left | right).count_ones();
    let most = due.iter().map(size).max();
    let must = due.iter().find(|&group| Some(size(group)) == most);
    let found = (largest.answer[0], largest.answer[1]);
    if found != must.copied().unwrap_or((0, 0)) || (largest.number == 12) != due.is_empty() {
        return Err(format!("the largest is {largest:x?}"));
    }
    compare_counts(rng, graph, k, due)
}

/// Holds the counts for the most sets to the groups.
pub fn compare_counts(
    rng: &mut Rng,
    graph: &[u64],
    k: u64,
    due: &[(u64, u64)],
) -> Result<(), String> {
    let sets = sets_to_count(rng, MOST_SETS, graph[0], due);
    let counts: Vec<u64> = noise(rng, MOST_SETS);
    let found = interface::count(rng, graph, k, &sets, &counts)?;
    if found.number != 0 || found.counts != counts_of(due, &sets) {
        return Err(format!("the counts for {sets:x?} are {found:x?}"));
    }
    Ok(())
}

/// The records of all pages, each into so many bytes, until one is finished.
pub fn listed(rng: &mut Rng, graph: &[u64], k: u64, room: usize) -> Result<Vec<u8>, String> {
    let mut joined = Vec::new();
    let mut from = (0, 0);
    loop {
        let page = interface::list_page(rng, graph, k, from, &vec![0xaa; room], &[9; 4])?;
        let written = page.answer[0].saturating_mul(16) as usize;
        let more = page.answer[1] == 1;
        if page.number != 0 || written > room || more && (room == 0 || written < room) {
            return Err(format!("page {page:x?}"));
        }
        joined.extend(&page.out[..written]);
        if !more {
            return Ok(joined);
        }
        from = (page.answer[2], page.answer[3]);
    }
}
