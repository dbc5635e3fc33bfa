//! The trial of the reference itself: its methods against plainer ones.

use super::expect::words;
use super::kinds::{count_kinds, ISOLATED, MASKED};
use super::replay::{Replay, AMENDED};
use super::tally::{each_case, hex, hex_words, Tally};
use super::{amendments_by_hand, by_hand, masked_by_hand};
use crate::generate::{
    amendment_list, edge_list, falling, random_amendment_list, sets_to_count, small_graph,
    with_tail, Rng,
};
use crate::reference::*;

pub fn run(seed: u64, amount: u64) -> Result<Tally, String> {
    by_hand::check()?;
    masked_by_hand::check()?;
    amendments_by_hand::check()?;
    let tally = each_case("reference", seed, amount, |rng, tally| {
        let graph = small_graph(rng);
        one_graph(rng, tally, &graph).map_err(|fault| at(&graph, fault))?;
        let (graph, k) = falling(rng);
        rounds_everywhere(tally, &graph, k).map_err(|fault| at(&graph, fault))?;
        let (graph, k, falling) = with_tail(rng);
        one_a_round(&graph, k, falling).map_err(|fault| at(&graph, fault))?;
        amendments(rng, tally)
    })?;
    tally.each_counted(&[ISOLATED])?;
    tally.each_counted(&MASKED)?;
    tally.each_counted(&AMENDED)?;
    Ok(tally)
}

/// A fault with its graph.
fn at(graph: &SignedGraph, fault: String) -> String {
    format!("{fault}: {}", hex_words(&words(graph)))
}

fn one_graph(rng: &mut Rng, tally: &mut Tally, graph: &SignedGraph) -> Result<(), String> {
    let all = groups_by_subsets(graph);
    if all != groups_by_cover(graph) {
        return Err("subsets and cover give different groups".to_string());
    }
    if all != groups_of_unmasked(graph) {
        return Err("the unmasked vertices alone have other groups".to_string());
    }
    tally.add("groups", all.len() as u64);
    count_kinds(tally, graph, 0);
    let k = rng.pick(&[0, 0, 1, 2, 3, 4]);
    let due: Vec<(u64, u64)> = all.into_iter().filter(|&sides| meets(sides, k)).collect();
    let reduced = reduce(graph, k).expect("the graph is sound").graph;
    if groups(&reduced, k) != due {
        return Err(format!("reduced for {k} it has other groups"));
    }
    rounds_everywhere(tally, graph, k)?;
    let set = rng.next() & ((1 << graph.n) - 1);
    if split(graph, set) != split_by_trying(graph, set) {
        return Err(format!("{set:x} has another split"));
    }
    let sets = sets_to_count(rng, 20, graph.n, &due);
    if counts_of(&due, &sets) != counts_by_mask(&due, &sets) {
        return Err(format!("{sets:x?} have other counts for {k}"));
    }
    verdicts(graph, k, &due)?;
    if graph.n <= 6 && graph.edges().len() <= 10 {
        tally.count("reductions over all collections");
        if reduced != union_of_fitting(graph, k) {
            return Err(format!("reduced for {k} is not the largest that fits"));
        }
    }
    Ok(())
}

/// Holds each round to one that looks at all vertices and edges: it drops the same.
fn rounds_everywhere(tally: &mut Tally, graph: &SignedGraph, k: u64) -> Result<(), String> {
    let everywhere: Vec<u64> = (0..graph.n).collect();
    let mut start = graph.unmasked_edges();
    for narrow in rounds(graph, k) {
        let wide = round(graph.n, k, &start, &everywhere);
        if narrow.dropped != wide.dropped || narrow.looks > wide.looks {
            return Err(format!("rounds for {k} that look everywhere are others"));
        }
        tally.count("rounds");
        start = narrow.kept;
    }
    Ok(())
}

/// Holds a clique with a tail to what it is made for: so many rounds drop one edge each.
fn one_a_round(graph: &SignedGraph, k: u64, falling: usize) -> Result<(), String> {
    let rounds = rounds(graph, k);
    let dropped: Vec<usize> = rounds.iter().map(|round| round.dropped.len()).collect();
    if dropped != [vec![1; falling], vec![0]].concat() {
        return Err(format!("rounds for {k} drop {dropped:?}"));
    }
    Ok(())
}

/// Holds verdicts to the groups for k: these alone are groups, each single vertex is alone, and other sets with masked
/// vertices are masked, by the lowest of these.
fn verdicts(graph: &SignedGraph, k: u64, due: &[(u64, u64)]) -> Result<(), String> {
    for set in 0..1u64 << graph.n.min(8) {
        let verdict = classify(graph, k, set).expect("the graph is sound");
        if (verdict == Verdict::Alone) != (set.count_ones() == 1) {
            return Err(format!("{set:x} for {k} is {verdict:?}"));
        }
        let lowest = (0..graph.n).find(|v| set & graph.masked & (1 << v) != 0);
        let masked = lowest.filter(|_| set.count_ones() > 1).map(Verdict::Masked);
        if masked.is_some() && masked != Some(verdict.clone())
            || masked.is_none() && matches!(verdict, Verdict::Masked(_))
        {
            return Err(format!("{set:x} for {k} is {verdict:?}"));
        }
        let listed = due.iter().find(|(left, right)| left | right == set);
        if listed.map(|&(left, right)| Verdict::Group(left, right))
            != Some(verdict).filter(|verdict| matches!(verdict, Verdict::Group(..)))
        {
            return Err(format!("classify and listing differ on {set:x} for {k}"));
        }
    }
    Ok(())
}

/// Holds amendment lists to their commands carried out one by one, and lists that open with 10 to the same ones that open
/// with 11.
fn amendments(rng: &mut Rng, tally: &mut Tally) -> Result<(), String> {
    for list in [amendment_list(rng).1, random_amendment_list(rng)] {
        let replay = Replay::new(&list);
        replay.count(tally);
        if decode(&list) != Ok(replay.graph) {
            return Err(format!("{} gives another graph one by one", hex(&list)));
        }
    }
    let (graph, mut list) = edge_list(rng);
    list[0] = 0x11;
    if decode(&list) != Ok(graph) {
        return Err(format!("{} gives another graph than with 10", hex(&list)));
    }
    Ok(())
}

/// The groups for threshold 0 of the unmasked vertices, called 0, 1, 2 and so on in a graph without any others.
fn groups_of_unmasked(graph: &SignedGraph) -> Vec<(u64, u64)> {
    let names: Vec<u64> = (0..graph.n).filter(|&v| !graph.is_masked(v)).collect();
    let mut part = SignedGraph::new(names.len() as u64);
    for (v, &name) in names.iter().enumerate() {
        for (u, &other) in names[..v].iter().enumerate() {
            if graph.is_edge(name, other) {
                part.add(u as u64, v as u64, graph.is_positive(name, other));
            }
        }
    }
    let named = |set: u64| {
        vertices(set)
            .iter()
            .fold(0, |named, &v| named | 1 << names[v as usize])
    };
    groups_by_subsets(&part)
        .into_iter()
        .map(|(left, right)| (named(left), named(right)))
        .collect()
}

/// In how many groups each set lies, by one test for each set and group.
fn counts_by_mask(groups: &[(u64, u64)], sets: &[u64]) -> Vec<u64> {
    let mut counts = vec![0; sets.len()];
    for (left, right) in groups {
        for (count, set) in counts.iter_mut().zip(sets) {
            *count += u64::from(set & !(left | right) == 0);
        }
    }
    counts
}

/// The split of a set, found by trying every two sides.
fn split_by_trying(graph: &SignedGraph, set: u64) -> Option<(u64, u64)> {
    if set & graph.masked != 0 {
        return None;
    }
    let mut right = set;
    loop {
        right = right.wrapping_sub(1) & set;
        let left = set & !right;
        let joined = |u: u64, v: u64| match (left >> u & 1) == (left >> v & 1) {
            true => graph.is_positive(u, v),
            false => graph.is_negative(u, v),
        };
        let members: Vec<u64> = (0..64).filter(|v| set >> v & 1 == 1).collect();
        let fits = members
            .iter()
            .all(|&u| members.iter().all(|&v| u == v || joined(u, v)));
        let lowest = set & set.wrapping_neg();
        if fits && left & lowest == lowest {
            return Some((left, right));
        }
        if right == 0 {
            return None;
        }
    }
}

/// All edges that are in some collection that fits, every collection tried.
fn union_of_fitting(graph: &SignedGraph, k: u64) -> SignedGraph {
    let edges = graph.edges();
    let mut union = SignedGraph::new(graph.n);
    union.masked = graph.masked;
    for chosen in 0..1u64 << edges.len() {
        let mut part = graph.clone();
        for (i, &(u, v, _)) in edges.iter().enumerate() {
            if chosen >> i & 1 == 0 {
                part.remove(u, v);
            }
        }
        if fits(&part, k) {
            for i in 0..64 {
                union.positive[i] |= part.positive[i];
                union.negative[i] |= part.negative[i];
            }
        }
    }
    union
}
