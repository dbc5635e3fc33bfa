//! Trials of list_page, largest and record_at.

use super::arrays::{any_graph, graph_array, graph_with_groups, room, same};
use super::expect::{self, graph_of};
use super::kinds::{count_kinds, KINDS};
use super::tally::{each_case, hex, hex_words, Tally};
use crate::generate::{bookmark, buffer_length, threshold, threshold_among, Rng};
use crate::interface::{self, noise, Place};
use crate::reference::{groups, meets, SignedGraph};

/// Calls that each graph of list_page gets.
const CALLS: u64 = 4;

/// Bookmarks that have to come up.
const AFTER_MASKED: &str = "after sets with masked vertices";

/// Several pages of one graph, each with its own threshold, bookmark and buffer.
pub fn list_page(seed: u64, amount: u64) -> Result<Tally, String> {
    let mut tally = each_case("list_page", seed, amount / CALLS, |rng, tally| {
        let (graph, all) = graph_with_groups(rng);
        for _ in 0..CALLS {
            one_page(rng, tally, &graph, &all)?;
        }
        Ok(())
    })?;
    tally.each_refused(&[10, 11, 101, 102, 103])?;
    tally.each_counted(&KINDS)?;
    tally.each_counted(&[AFTER_MASKED])?;
    tally.cases *= CALLS;
    Ok(tally)
}

fn one_page(
    rng: &mut Rng,
    tally: &mut Tally,
    graph: &SignedGraph,
    all: &[(u64, u64)],
) -> Result<(), String> {
    let k = threshold_among(rng, all);
    let due: Vec<(u64, u64)> = all.iter().copied().filter(|&g| meets(g, k)).collect();
    let from = place(rng, graph, &due);
    let array = graph_array(rng, graph);
    let length = buffer_length(rng);
    let out: Vec<u8> = noise(rng, length);
    let answer = room(rng, 4);
    let must = expect::list_page(&array, k, from, &due, &out, &answer);
    tally.count_number(must.number);
    if must.number == 0 {
        tally.add("records", must.answer[0]);
        tally.count(["finished", "more"][must.answer[1] as usize]);
        count_kinds(tally, graph, k);
        if from.0 == 1 && from.1 & graph.masked != 0 {
            tally.count(AFTER_MASKED);
        }
    }
    let left = interface::list_page(rng, &array, k, from, &out, &answer);
    let call = || {
        let graph = hex_words(&array);
        format!(
            "list_page {graph} k {k:x} from {:x} {:x} into {length:x}",
            from.0, from.1
        )
    };
    same(call, left, &must)
}

/// A bookmark as kind and set; at the start with any set, and now and then of a kind that does not exist.
fn place(rng: &mut Rng, graph: &SignedGraph, groups: &[(u64, u64)]) -> Place {
    let sound = if graph.is_sound() {
        graph.clone()
    } else {
        SignedGraph::new(9)
    };
    let (kind, set) = expect::place(bookmark(rng, &sound, groups));
    match rng.below(16) {
        0 => (
            rng.pick(&[2, 3, 255, 1 << 32, (1 << 32) + 1, u64::MAX]),
            set,
        ),
        1..=4 if kind == 0 => (0, rng.next()),
        _ => (kind, set),
    }
}

pub fn largest(seed: u64, amount: u64) -> Result<Tally, String> {
    let tally = each_case("largest", seed, amount, |rng, tally| {
        let graph = any_graph(rng);
        let graph = graph_array(rng, &graph);
        let k = threshold(rng);
        let answer = room(rng, 2);
        let must = expect::largest(&graph, k, &answer);
        tally.count_number(must.number);
        if matches!(must.number, 0 | 12) {
            count_kinds(tally, &graph_of(&graph), k);
        }
        if must.number == 0 {
            let size = (must.answer[0] | must.answer[1]).count_ones();
            tally.add("vertices in the largest", size.into());
            tally.count(ties(&graph_of(&graph), k, size));
        }
        let left = interface::largest(rng, &graph, k, &answer);
        same(
            || format!("largest {} k {k:x}", hex_words(&graph)),
            left,
            &must,
        )
    })?;
    tally.each_refused(&[10, 11, 12, 101, 102])?;
    tally.each_counted(&KINDS)?;
    Ok(tally)
}

/// Whether several groups have the size of the largest.
fn ties(graph: &SignedGraph, k: u64, size: u32) -> &'static str {
    let equal = groups(graph, k)
        .iter()
        .filter(|(left, right)| (left | right).count_ones() == size)
        .count();
    if equal > 1 {
        "among equals"
    } else {
        "alone of its size"
    }
}

pub fn record_at(seed: u64, amount: u64) -> Result<Tally, String> {
    let tally = each_case("record_at", seed, amount, |rng, tally| {
        let length = buffer_length(rng);
        let listing: Vec<u8> = noise(rng, length);
        let records = listing.len() as u64 / 16;
        let i = match rng.below(5) {
            0 => rng.pick(&[1 << 28, 1 << 59, 1 << 60, (1 << 60) + 1, u64::MAX >> 4]),
            1 => u64::MAX - rng.below(3),
            2 => records.saturating_sub(1) + rng.below(3),
            3 => (1 << 60) * rng.below(16) + rng.below(records + 1),
            _ => rng.below(records + 2),
        };
        let answer = room(rng, 2);
        let must = expect::record_at(&listing, i, &answer);
        tally.count_number(must.number);
        if must.number == 0 {
            tally.count(["not there", "found"][must.answer[1] as usize / 16]);
        }
        let left = interface::record_at(rng, &listing, i, &answer);
        same(
            || format!("record_at {} record {i:x}", hex(&listing)),
            left,
            &must,
        )
    })?;
    tally.each_refused(&[102])?;
    Ok(tally)
}
