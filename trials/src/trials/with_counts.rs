//! Trials of count.

use super::arrays::{graph_array, graph_with_groups, same};
use super::expect::{self, words};
use super::kinds::{count_kinds, KINDS};
use super::many_groups::{compare_counts, listed};
use super::tally::{each_case, hex_words, Tally};
use crate::generate::{number_of_sets, sets_to_count, threshold_among, with_groups, Rng};
use crate::interface::{self, noise, Outcome, GRAPH_WORDS};
use crate::reference::{groups, meets, SignedGraph};

/// Calls that each graph of count gets.
const CALLS: u64 = 4;

/// Calls that have to come up: the number that they return, their sets, and how they are noted.
const NOTED: [(u64, usize, &str); 8] = [
    (0, 0, "accepted with no set"),
    (0, 1, "accepted with one set"),
    (0, 255, "accepted with 255 sets"),
    (0, 256, "accepted with 256 sets"),
    (13, 257, "refused 13 with 257 sets"),
    (13, 300, "refused 13 with 300 sets"),
    (14, 257, "refused 14 with 257 sets"),
    (14, 300, "refused 14 with 300 sets"),
];

/// Counts that have to come up.
const COUNTS: [&str; 3] = ["counts of 0", "counts of 1", "counts over 1"];

/// Sets with masked vertices that have to come up; they lie in no group.
const MASKED_SETS: [&str; 2] = [
    "masked vertices counted",
    "masked vertices counted, with vertices of a group",
];

/// Several calls on one graph, each with its own threshold, sets and places for the counts; and
/// what holds between count and other calls.
pub fn count(seed: u64, amount: u64) -> Result<Tally, String> {
    let mut tally = each_case("count", seed, amount / CALLS, |rng, tally| {
        let (graph, all) = graph_with_groups(rng);
        for _ in 0..CALLS {
            let number = number_of_sets(rng);
            let length = places(rng, number);
            one_call(rng, tally, (&graph, &all), number, length)?;
        }
        if graph.is_sound() {
            tally.count("graphs held to pages and reduction");
            let k = rng.pick(&[0, 0, 1, 2, 3]);
            count_kinds(tally, &graph, k);
            agree(rng, &graph, k, &all)
                .map_err(|fault| format!("{} k {k:x}: {fault}", hex_words(&words(&graph))))?;
        }
        Ok(())
    })?;
    tally.each_refused(&[10, 11, 13, 14, 101])?;
    tally.each_counted(&NOTED.map(|(_, _, note)| note))?;
    tally.each_counted(&COUNTS)?;
    tally.each_counted(&MASKED_SETS)?;
    tally.each_counted(&KINDS)?;
    tally.cases *= CALLS;
    Ok(tally)
}

/// A call on a graph, whose groups for threshold 0 are given, with so many sets and so many places
/// for the counts.
fn one_call(
    rng: &mut Rng,
    tally: &mut Tally,
    (graph, all): (&SignedGraph, &[(u64, u64)]),
    number: usize,
    length: usize,
) -> Result<(), String> {
    let k = threshold_among(rng, all);
    let due: Vec<(u64, u64)> = all.iter().copied().filter(|&g| meets(g, k)).collect();
    let array = graph_array(rng, graph);
    let sets = sets_to_count(rng, number, graph.n.min(64), all);
    let counts: Vec<u64> = noise(rng, length);
    let must = expect::count(&array, k, &due, &sets, &counts);
    note(tally, &must, number);
    if must.number == 0 {
        count_kinds(tally, graph, k);
        note_masked_sets(tally, graph, &due, &sets);
    }
    let left = interface::count(rng, &array, k, &sets, &counts);
    let call = || {
        let (graph, sets) = (hex_words(&array), hex_words(&sets));
        format!("count {graph} k {k:x} sets {sets} into {length:x}")
    };
    same(call, left, &must)
}

/// The length of the array for the counts: mostly the number of sets; one less, one more, none and
/// far more come up often.
fn places(rng: &mut Rng, sets: usize) -> usize {
    match rng.below(16) {
        0 | 1 => sets.saturating_sub(1),
        2 => sets + 1,
        3 => 0,
        4 => rng.length(0, sets),
        5 => sets + rng.length(2, 40),
        6 => 300,
        _ => sets,
    }
}

/// Notes what a call with so many sets must leave.
fn note(tally: &mut Tally, must: &Outcome, sets: usize) {
    tally.count_number(must.number);
    let noted = |call: &&(u64, usize, &str)| (call.0, call.1) == (must.number, sets);
    if let Some((_, _, name)) = NOTED.iter().find(noted) {
        tally.count(name);
    }
    if must.number == 0 {
        for &count in &must.counts[..sets] {
            tally.count(COUNTS[count.min(2) as usize]);
        }
    }
}

/// Notes sets with masked vertices, among them those whose other vertices lie in a group.
fn note_masked_sets(tally: &mut Tally, graph: &SignedGraph, due: &[(u64, u64)], sets: &[u64]) {
    for set in sets.iter().filter(|&set| set & graph.masked != 0) {
        let others = set & !graph.masked;
        let lie = due
            .iter()
            .any(|(left, right)| others & !(left | right) == 0);
        tally.count(MASKED_SETS[usize::from(others != 0 && lie)]);
    }
}

/// Numbers of sets around none and around the most.
const AROUND: [usize; 10] = [0, 1, 2, 3, 254, 255, 256, 257, 258, 300];

/// How many places more, or fewer, than sets there are at most.
const REACH: usize = 3;

/// On each graph all of these numbers of sets, each into every number of places around it.
pub fn count_lengths(seed: u64, amount: u64) -> Result<Tally, String> {
    let around = |sets: usize| sets.saturating_sub(REACH)..=sets + REACH;
    let mut tally = each_case("count_lengths", seed, amount, |rng, tally| {
        let (graph, all) = graph_with_groups(rng);
        for number in AROUND {
            for length in around(number) {
                one_call(rng, tally, (&graph, &all), number, length)?;
            }
        }
        Ok(())
    })?;
    tally.each_refused(&[13, 14])?;
    tally.each_counted(&NOTED.map(|(_, _, note)| note))?;
    tally.cases *= AROUND
        .map(|sets| around(sets).count() as u64)
        .iter()
        .sum::<u64>();
    Ok(tally)
}

/// The bytes of a page.
const PAGE: usize = 1024;

/// The most groups of a graph that are counted for.
const OWN: usize = 200;

/// Holds counts to other calls of the library: the empty set lies in as many groups as pages list,
/// each of these in one, and any set in as many in the graph reduced for k.
fn agree(rng: &mut Rng, graph: &SignedGraph, k: u64, all: &[(u64, u64)]) -> Result<(), String> {
    let array = words(graph);
    let listing = listed(rng, &array, k, PAGE)?;
    let mut own: Vec<u64> = listing.chunks(16).map(set_of).collect();
    let number = own.len() as u64;
    rng.shuffle(&mut own);
    own.truncate(OWN);
    let others = sets_to_count(rng, 50, graph.n, all);
    let sets = [vec![0], own.clone(), others].concat();
    let counts: Vec<u64> = noise(rng, sets.len());
    let found = interface::count(rng, &array, k, &sets, &counts)?;
    let known = [vec![number], vec![1; own.len()]].concat();
    if found.number != 0 || !found.counts.starts_with(&known) {
        let sets = hex_words(&sets);
        return Err(format!("{number} groups, and for {sets} {found:x?}"));
    }
    let reduced = interface::reduce(rng, &array, k, &[9; GRAPH_WORDS], &[9])?;
    let again = interface::count(rng, &reduced.graph, k, &sets, &counts)?;
    if again != found {
        return Err(format!("reduced {again:x?}, and not reduced {found:x?}"));
    }
    Ok(())
}

/// The set of a record.
pub fn set_of(record: &[u8]) -> u64 {
    record
        .chunks(8)
        .map(|side| u64::from_le_bytes(side.try_into().expect("a side has eight bytes")))
        .fold(0, |set, side| set | side)
}

/// Numbers of groups: around multiples of 1,024, and over 65,535.
const NUMBERS: [u64; 11] = [
    1_023, 1_024, 1_025, 2_047, 2_048, 2_049, 3_071, 3_072, 3_073, 65_536, 65_537,
];

/// Counts for the most sets in graphs whose number of groups is known.
pub fn count_many(seed: u64, amount: u64) -> Result<Tally, String> {
    each_case("count_many", seed, amount, |rng, tally| {
        for number in NUMBERS {
            let graph = with_groups(rng, number);
            let all = groups(&graph, 0);
            let graph = words(&graph);
            let fault = |fault| format!("{} with {number} groups: {fault}", hex_words(&graph));
            if all.len() as u64 != number {
                return Err(fault(format!("it has {}", all.len())));
            }
            compare_counts(rng, &graph, 0, &all).map_err(fault)?;
            tally.add("groups", number);
        }
        Ok(())
    })
}
