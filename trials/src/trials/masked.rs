//! The trial of masked vertices by what holds between calls of the library, without the reference: a graph answers like the
//! one that has no edge of a masked vertex and masks nothing, and like one without groups where all are masked.

use super::expect::words;
use super::kinds::{count_masked, MASKED};
use super::many_groups::listed;
use super::tally::{each_case, hex_words, Tally};
use super::with_counts::set_of;
use crate::generate::{graph, masking, rich_graph, set_to_classify, sets_to_count, threshold, Rng};
use crate::interface::{self, noise, Outcome, GRAPH_WORDS};
use crate::reference::SignedGraph;

/// The place of the masked set among the words of a graph.
const MASKED_SET: usize = GRAPH_WORDS - 1;

/// The bytes of a page, and how many sets are counted and classified.
const PAGE: usize = 1024;
const SETS: usize = 20;

pub fn run(seed: u64, amount: u64) -> Result<Tally, String> {
    let tally = each_case("masked", seed, amount, |rng, tally| {
        let graph = if rng.chance(40) {
            rich_graph(rng)
        } else {
            graph(rng)
        };
        let graph = masking(rng, graph);
        let k = threshold(rng).min(32);
        count_masked(tally, &graph);
        one_graph(rng, tally, &graph, k)
            .map_err(|fault| format!("{} k {k:x}: {fault}", hex_words(&words(&graph))))
    })?;
    tally.each_counted(&MASKED)?;
    tally.each_counted(&SAME)?;
    Ok(tally)
}

/// Graphs with masked vertices and a group, and sets without a masked vertex that got the same verdict; they have to come up.
const SAME: [&str; 2] = [
    "groups beside masked vertices",
    "verdicts beside masked vertices",
];

fn one_graph(rng: &mut Rng, tally: &mut Tally, graph: &SignedGraph, k: u64) -> Result<(), String> {
    let masked = words(graph);
    let bare = words(&graph.without_masked());
    let listing = listed(rng, &masked, k, PAGE)?;
    if listed(rng, &bare, k, PAGE)? != listing {
        return Err("without the edges of masked vertices it has other groups".to_string());
    }
    let groups: Vec<(u64, u64)> = listing
        .chunks(16)
        .map(|record| (set_of(record), 0))
        .collect();
    let sets = sets_to_count(rng, SETS, graph.n, &groups);
    let [one, other] = [&masked, &bare].map(|graph| answers(rng, graph, k, &sets));
    if one? != other? {
        return Err(format!("another largest or other counts for {sets:x?}"));
    }
    reductions(rng, &masked, &bare, k)?;
    if graph.masked != 0 {
        tally.add(SAME[0], listing.len() as u64 / 16);
        verdicts(rng, tally, graph, k)?;
    }
    all_masked(rng, masked, k, &sets)
}

/// The largest group and the counts for sets.
fn answers(
    rng: &mut Rng,
    graph: &[u64],
    k: u64,
    sets: &[u64],
) -> Result<(Outcome, Outcome), String> {
    let largest = interface::largest(rng, graph, k, &[7; 2])?;
    let counts = interface::count(rng, graph, k, sets, &[7; SETS])?;
    Ok((largest, counts))
}

/// Reducing keeps the masks, and leaves the edges and takes the looks of the graph without masked vertices.
fn reductions(rng: &mut Rng, masked: &[u64], bare: &[u64], k: u64) -> Result<(), String> {
    let room: Vec<u64> = noise(rng, GRAPH_WORDS);
    let reduced = interface::reduce(rng, masked, k, &room, &[7])?;
    let mut must = interface::reduce(rng, bare, k, &room, &[7])?;
    must.graph[MASKED_SET] = masked[MASKED_SET];
    if reduced == must {
        Ok(())
    } else {
        Err(format!("reduced to {reduced:x?}, not {must:x?}"))
    }
}

/// Sets without a masked vertex have the same verdict where masked vertices have no edge and are not masked.
fn verdicts(rng: &mut Rng, tally: &mut Tally, graph: &SignedGraph, k: u64) -> Result<(), String> {
    let bare = words(&graph.without_masked());
    for _ in 0..SETS {
        let set = set_to_classify(rng, graph) & !graph.masked;
        let found = interface::classify(rng, &words(graph), k, set, &[7; 4])?;
        let must = interface::classify(rng, &bare, k, set, &[7; 4])?;
        if found != must {
            return Err(format!("{set:x} is {found:x?}, not {must:x?}"));
        }
        tally.count(SAME[1]);
    }
    Ok(())
}

/// With all vertices masked there is no group, and reducing looks at each vertex once and leaves no edge.
fn all_masked(rng: &mut Rng, mut graph: Vec<u64>, k: u64, sets: &[u64]) -> Result<(), String> {
    let n = graph[0];
    graph[MASKED_SET] = (0..n).fold(0, |set, v| set | 1 << v);
    let (largest, counts) = answers(rng, &graph, k, sets)?;
    let none = largest.number == 12 && largest.answer == [0; 2] && counts.counts == [0; SETS];
    if !none || !listed(rng, &graph, k, PAGE)?.is_empty() {
        return Err("with all masked there is a group".to_string());
    }
    let reduced = interface::reduce(rng, &graph, k, &[9; GRAPH_WORDS], &[7])?;
    let mut left = vec![0; GRAPH_WORDS];
    (left[0], left[MASKED_SET]) = (n, graph[MASKED_SET]);
    if reduced.graph != left || reduced.answer != [n] {
        return Err(format!("with all masked it is reduced to {reduced:x?}"));
    }
    Ok(())
}
