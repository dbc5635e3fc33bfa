//! Trials of the calls that take a graph and give no records: new, check_sound, check_call, classify, reduce.

use super::arrays::{any_graph, graph_array, room, same};
use super::expect::{self, graph_of, words};
use super::kinds::{count_kinds, count_masked, KINDS, MASKED};
use super::tally::{each_case, hex_words, Tally};
use crate::generate::{
    self, falling, set_to_classify, threshold, threshold_near, unsound, MASKED_BEYOND,
    UNSOUND_KINDS,
};
use crate::interface::{self, Outcome, GRAPH_WORDS};
use crate::reference::{classify as classified, rounds, split, SignedGraph, Verdict};

pub fn new(seed: u64, amount: u64) -> Result<Tally, String> {
    let tally = each_case("new", seed, amount, |rng, tally| {
        let n = match rng.below(4) {
            0 => rng.next(),
            1 => rng.pick(&[0, 1, 63, 64, 65, 128, 256, 1 << 32, u64::MAX]),
            _ => rng.below(80),
        };
        let graph = room(rng, GRAPH_WORDS);
        let must = expect::new(n, &graph);
        tally.count_number(must.number);
        let left = interface::new(rng, n, &graph);
        same(|| format!("new n {n:x}"), left, &must)
    })?;
    tally.each_refused(&[101])?;
    Ok(tally)
}

pub fn check_sound(seed: u64, amount: u64) -> Result<Tally, String> {
    let tally = each_case("check_sound", seed, amount, |rng, tally| {
        let graph = if rng.chance(50) {
            generate::graph(rng)
        } else {
            let kind = rng.below(UNSOUND_KINDS);
            let graph = unsound(rng, kind);
            if graph.is_sound() {
                return Err(format!("made sound: {}", hex_words(&words(&graph))));
            }
            note_unsound(tally, kind, graph.n);
            graph
        };
        if graph.is_sound() {
            count_masked(tally, &graph);
        }
        let graph = graph_array(rng, &graph);
        let must = expect::check_sound(&graph);
        tally.count_number(must.number);
        let left = interface::check_sound(rng, &graph);
        same(|| format!("check_sound {}", hex_words(&graph)), left, &must)
    })?;
    tally.each_refused(&[10, 101])?;
    tally.each_counted(&MASKED)?;
    tally.each_counted(&MASKED_FROM_N)?;
    for kind in 0..UNSOUND_KINDS {
        tally.each_counted(&[&unsound_name(kind)])?;
    }
    Ok(tally)
}

/// Graphs with nothing wrong but a masked vertex from n up that have to come up: of no vertices and of 63.
const MASKED_FROM_N: [&str; 2] = ["masked from 0 up", "masked from 63 up"];

/// What an unsound graph is counted as.
fn unsound_name(kind: u64) -> String {
    format!("unsound of kind {kind}")
}

/// Notes an unsound graph of n vertices.
fn note_unsound(tally: &mut Tally, kind: u64, n: u64) {
    tally.count(&unsound_name(kind));
    match n {
        0 if kind == MASKED_BEYOND => tally.count(MASKED_FROM_N[0]),
        63 if kind == MASKED_BEYOND => tally.count(MASKED_FROM_N[1]),
        _ => {}
    }
}

pub fn check_call(seed: u64, amount: u64) -> Result<Tally, String> {
    let tally = each_case("check_call", seed, amount, |rng, tally| {
        let graph = any_graph(rng);
        let graph = graph_array(rng, &graph);
        let k = threshold(rng);
        let must = expect::check_call(&graph, k);
        tally.count_number(must.number);
        let left = interface::check_call(rng, &graph, k);
        same(
            || format!("check_call {} k {k:x}", hex_words(&graph)),
            left,
            &must,
        )
    })?;
    tally.each_refused(&[10, 11, 101])?;
    Ok(tally)
}

/// Verdicts that have to come up: of one vertex, of a set with a masked vertex by what it would be with nothing masked, and
/// others at which a masked vertex is passed over.
const ALONE: [&str; 2] = ["alone at 0", "alone over 0"];
const MASKED_ELSE: [&str; 5] = [
    "masked, else missing an edge",
    "masked, else unbalanced",
    "masked, else too small",
    "masked, else extensible",
    "masked, else groups",
];
const PASSED_OVER: [&str; 4] = [
    "out of range with a masked vertex",
    "alone and masked",
    "extensible, by a lower vertex but for masks",
    "groups, extensible but for masks",
];

pub fn classify(seed: u64, amount: u64) -> Result<Tally, String> {
    let tally = each_case("classify", seed, amount, |rng, tally| {
        let graph = any_graph(rng);
        let set = if graph.is_sound() {
            set_to_classify(rng, &graph)
        } else {
            rng.next()
        };
        let k = match split(&graph, set) {
            Some(sides) if rng.chance(20) => threshold_near(rng, sides),
            _ if rng.chance(40) => 0,
            _ => threshold(rng),
        };
        if let Ok(verdict) = classified(&graph, k, set) {
            tally.count(verdict_name(&verdict, k));
            count_kinds(tally, &graph, k);
            note_masked_set(tally, &graph, k, set, &verdict);
        }
        let graph = graph_array(rng, &graph);
        let answer = room(rng, 4);
        let must = expect::classify(&graph, k, set, &answer);
        tally.count_number(must.number);
        let left = interface::classify(rng, &graph, k, set, &answer);
        same(
            || format!("classify {} k {k:x} set {set:x}", hex_words(&graph)),
            left,
            &must,
        )
    })?;
    tally.each_refused(&[10, 11, 101, 102])?;
    tally.each_counted(&ALONE)?;
    tally.each_counted(&MASKED_ELSE)?;
    tally.each_counted(&PASSED_OVER)?;
    tally.each_counted(&KINDS)?;
    Ok(tally)
}

/// What a verdict for k is counted as.
fn verdict_name(verdict: &Verdict, k: u64) -> &'static str {
    match verdict {
        Verdict::Empty => "empty",
        Verdict::OutOfRange(_) => "out of range",
        Verdict::Alone => ALONE[usize::from(k > 0)],
        Verdict::MissingEdge(..) => "missing an edge",
        Verdict::Unbalanced(..) => "unbalanced",
        Verdict::TooSmall(..) => "too small",
        Verdict::Extensible(_) => "extensible",
        Verdict::Group(..) => "groups",
        Verdict::Masked(_) => "masked",
    }
}

/// Notes a verdict in which the masks of a graph matter, beside what it would be without them.
fn note_masked_set(tally: &mut Tally, graph: &SignedGraph, k: u64, set: u64, verdict: &Verdict) {
    let mut lifted = graph.clone();
    lifted.masked = 0;
    let other = classified(&lifted, k, set).expect("the graph is sound");
    let holds_masked = set & graph.masked != 0;
    match (verdict, &other) {
        (Verdict::Masked(_), _) => {
            tally.count(&format!("masked, else {}", verdict_name(&other, k)));
        }
        (Verdict::OutOfRange(_), _) if holds_masked => tally.count(PASSED_OVER[0]),
        (Verdict::Alone, _) if holds_masked => tally.count(PASSED_OVER[1]),
        (Verdict::Extensible(v), Verdict::Extensible(lower)) if lower < v => {
            tally.count(PASSED_OVER[2]);
        }
        (Verdict::Group(..), Verdict::Extensible(_)) => tally.count(PASSED_OVER[3]),
        _ => {}
    }
}

/// Both a graph and the answer have too few words: the graph is told of.
const BOTH_SHORT: &str = "with short graph and answer";

/// What reducing leaves, each of which has to come up.
const LEFT: [&str; 3] = ["left whole", "left with some edges", "left without edges"];

/// Numbers of rounds that have to come up, where edges are dropped; also of graphs with masked vertices.
const ROUNDS: [&str; 3] = ["of 2 rounds", "of 3 to 5 rounds", "of over 5 rounds"];
const MASKED_ROUNDS: [&str; 3] = [
    "of 2 rounds beside masked vertices",
    "of 3 to 5 rounds beside masked vertices",
    "of over 5 rounds beside masked vertices",
];

/// Reductions of graphs with masked vertices that have to come up.
const TAKEN_OUT: [&str; 4] = [
    "at 0 with masked edges taken out",
    "over 0 with masked edges taken out, and no other",
    "over 0 with masked edges taken out, and others",
    "with masked vertices, none with an edge",
];

pub fn reduce(seed: u64, amount: u64) -> Result<Tally, String> {
    let tally = each_case("reduce", seed, amount, |rng, tally| {
        let (graph, k) = if rng.chance(40) {
            falling(rng)
        } else {
            (any_graph(rng), threshold(rng))
        };
        let graph = graph_array(rng, &graph);
        let reduced = room(rng, GRAPH_WORDS);
        let answer = room(rng, 1);
        let must = expect::reduce(&graph, k, &reduced, &answer);
        note_reduced(tally, &graph, k, &must);
        let left = interface::reduce(rng, &graph, k, &reduced, &answer);
        same(
            || format!("reduce {} k {k:x}", hex_words(&graph)),
            left,
            &must,
        )
    })?;
    tally.each_refused(&[10, 11, 101, 102])?;
    tally.each_counted(&[BOTH_SHORT])?;
    tally.each_counted(&LEFT)?;
    tally.each_counted(&ROUNDS)?;
    tally.each_counted(&MASKED_ROUNDS)?;
    tally.each_counted(&TAKEN_OUT)?;
    tally.each_counted(&MASKED)?;
    Ok(tally)
}

/// Notes what reducing a graph for k must leave, and in how many rounds.
fn note_reduced(tally: &mut Tally, graph: &[u64], k: u64, must: &Outcome) {
    tally.count_number(must.number);
    if must.number == 101 && must.answer.is_empty() {
        tally.count(BOTH_SHORT);
    }
    if must.number != 0 {
        return;
    }
    let graph = graph_of(graph);
    let reduced = graph_of(&must.graph);
    tally.count(if reduced == graph {
        LEFT[0]
    } else if reduced.edges().is_empty() {
        LEFT[2]
    } else {
        LEFT[1]
    });
    let names = if graph.masked == 0 {
        ROUNDS
    } else {
        MASKED_ROUNDS
    };
    match rounds(&graph, k).len() {
        0 | 1 => {}
        2 => tally.count(names[0]),
        3..=5 => tally.count(names[1]),
        _ => tally.count(names[2]),
    }
    count_masked(tally, &graph);
    note_taken_out(tally, &graph, k, &reduced);
    tally.add("looks", must.answer[0]);
}

/// Notes what reducing a graph with masked vertices for k takes out.
fn note_taken_out(tally: &mut Tally, graph: &SignedGraph, k: u64, reduced: &SignedGraph) {
    let unmasked = graph.unmasked_edges();
    if graph.masked == 0 {
        return;
    }
    tally.count(if unmasked == graph.edges() {
        TAKEN_OUT[3]
    } else if k == 0 {
        TAKEN_OUT[0]
    } else if reduced.edges() == unmasked {
        TAKEN_OUT[1]
    } else {
        TAKEN_OUT[2]
    });
}
