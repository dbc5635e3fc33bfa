//! What each call of the interface must leave, worked out by the reference from the contents before the call.

use crate::interface::{Outcome, Place, GRAPH_WORDS};
use crate::reference::{self, Bookmark, Reduced, SignedGraph, Verdict};

const SHORT_GRAPH: u64 = 101;
const SHORT_ANSWER: u64 = 102;
const NO_BOOKMARK: u64 = 103;

/// A graph as the interface's words.
pub fn words(graph: &SignedGraph) -> Vec<u64> {
    let mut words = vec![graph.n];
    words.extend(graph.positive);
    words.extend(graph.negative);
    words.push(graph.masked);
    words
}

/// The graph of the interface's words, of which there are enough.
pub fn graph_of(words: &[u64]) -> SignedGraph {
    let mut graph = SignedGraph::new(0);
    graph.n = words[0];
    graph.positive.copy_from_slice(&words[1..65]);
    graph.negative.copy_from_slice(&words[65..129]);
    graph.masked = words[129];
    graph
}

/// The records of groups, joined.
pub fn records(groups: &[(u64, u64)]) -> Vec<u8> {
    groups
        .iter()
        .flat_map(|(left, right)| [left.to_le_bytes(), right.to_le_bytes()].concat())
        .collect()
}

/// An array with its beginning replaced.
fn with_start(array: &[u64], start: &[u64]) -> Vec<u64> {
    let mut array = array.to_vec();
    array[..start.len()].copy_from_slice(start);
    array
}

fn only(number: u64) -> Outcome {
    Outcome {
        number,
        ..Outcome::default()
    }
}

pub fn new(n: u64, graph: &[u64]) -> Outcome {
    if graph.len() < GRAPH_WORDS {
        return Outcome {
            graph: graph.to_vec(),
            ..only(SHORT_GRAPH)
        };
    }
    Outcome {
        graph: with_start(graph, &words(&SignedGraph::new(n))),
        ..only(0)
    }
}

pub fn check_sound(graph: &[u64]) -> Outcome {
    if graph.len() < GRAPH_WORDS {
        only(SHORT_GRAPH)
    } else if graph_of(graph).is_sound() {
        only(0)
    } else {
        only(10)
    }
}

pub fn check_call(graph: &[u64], k: u64) -> Outcome {
    if graph.len() < GRAPH_WORDS {
        return only(SHORT_GRAPH);
    }
    only(reference::check(&graph_of(graph), k).err().unwrap_or(0))
}

pub fn decode(bytes: &[u8], graph: &[u64], answer: &[u64]) -> Outcome {
    let mut outcome = Outcome {
        graph: graph.to_vec(),
        answer: answer.to_vec(),
        ..only(0)
    };
    if graph.len() < GRAPH_WORDS {
        outcome.number = SHORT_GRAPH;
    } else if answer.is_empty() {
        outcome.number = SHORT_ANSWER;
    } else {
        let (number, decoded, place) = match reference::decode(bytes) {
            Ok(decoded) => (0, decoded, 0),
            Err((refusal, place)) => (refusal, SignedGraph::new(0), place),
        };
        outcome.number = number;
        outcome.graph = with_start(graph, &words(&decoded));
        outcome.answer = with_start(answer, &[place as u64]);
    }
    outcome
}

pub fn encode(graph: &[u64], out: &[u8], answer: &[u64]) -> Outcome {
    let mut outcome = Outcome {
        out: out.to_vec(),
        answer: answer.to_vec(),
        ..only(0)
    };
    if graph.len() < GRAPH_WORDS {
        outcome.number = SHORT_GRAPH;
    } else if answer.is_empty() {
        outcome.number = SHORT_ANSWER;
    } else {
        let length = reference::encode(&graph_of(graph), &mut outcome.out);
        outcome.number = length.err().unwrap_or(0);
        outcome.answer[0] = length.unwrap_or(0) as u64;
    }
    outcome
}

/// A verdict as the interface's four words.
fn verdict_words(verdict: Verdict) -> [u64; 4] {
    match verdict {
        Verdict::Empty => [1, 0, 0, 0],
        Verdict::OutOfRange(v) => [2, v, 0, 0],
        Verdict::MissingEdge(a, b) => [3, a, b, 0],
        Verdict::Unbalanced(a, b, c) => [4, a, b, c],
        Verdict::TooSmall(left, right) => [5, left, right, 0],
        Verdict::Extensible(v) => [6, v, 0, 0],
        Verdict::Group(left, right) => [7, left, right, 0],
        Verdict::Alone => [8, 0, 0, 0],
        Verdict::Masked(v) => [9, v, 0, 0],
    }
}

pub fn classify(graph: &[u64], k: u64, set: u64, answer: &[u64]) -> Outcome {
    let mut outcome = Outcome {
        answer: answer.to_vec(),
        ..only(0)
    };
    if graph.len() < GRAPH_WORDS {
        outcome.number = SHORT_GRAPH;
    } else if answer.len() < 4 {
        outcome.number = SHORT_ANSWER;
    } else {
        let verdict = reference::classify(&graph_of(graph), k, set);
        outcome.number = verdict.as_ref().err().copied().unwrap_or(0);
        outcome.answer = with_start(answer, &verdict.map(verdict_words).unwrap_or([0; 4]));
    }
    outcome
}

pub fn reduce(graph: &[u64], k: u64, reduced: &[u64], answer: &[u64]) -> Outcome {
    let mut outcome = Outcome {
        graph: reduced.to_vec(),
        answer: answer.to_vec(),
        ..only(0)
    };
    if graph.len() < GRAPH_WORDS || reduced.len() < GRAPH_WORDS {
        outcome.number = SHORT_GRAPH;
    } else if answer.is_empty() {
        outcome.number = SHORT_ANSWER;
    } else {
        let found = reference::reduce(&graph_of(graph), k);
        outcome.number = found.as_ref().err().copied().unwrap_or(0);
        let found = found.unwrap_or(Reduced::nothing());
        outcome.graph = with_start(reduced, &words(&found.graph));
        outcome.answer = with_start(answer, &[found.looks]);
    }
    outcome
}

/// A page, given the graph's groups for k where the call is not refused.
pub fn list_page(
    graph: &[u64],
    k: u64,
    from: Place,
    groups: &[(u64, u64)],
    out: &[u8],
    answer: &[u64],
) -> Outcome {
    let mut outcome = Outcome {
        out: out.to_vec(),
        answer: answer.to_vec(),
        ..only(0)
    };
    if graph.len() < GRAPH_WORDS {
        outcome.number = SHORT_GRAPH;
    } else if answer.len() < 4 {
        outcome.number = SHORT_ANSWER;
    } else if from.0 > 1 {
        outcome.number = NO_BOOKMARK;
    } else {
        let from = bookmark(from);
        let page = match reference::check(&graph_of(graph), k) {
            Ok(()) => reference::page_of(groups, from, &mut outcome.out),
            Err(_) => reference::list_page(&graph_of(graph), k, from, &mut outcome.out),
        };
        let (kind, set) = place(page.next);
        outcome.number = page.number;
        let more = u64::from(!page.finished);
        outcome.answer = with_start(answer, &[page.count, more, kind, set]);
    }
    outcome
}

/// The bookmark of a kind (0 or 1) and a set.
pub fn bookmark(place: Place) -> Bookmark {
    match place {
        (0, _) => Bookmark::Start,
        (_, set) => Bookmark::After(set),
    }
}

/// A bookmark's kind and set; the set of the start is 0.
pub fn place(bookmark: Bookmark) -> Place {
    match bookmark {
        Bookmark::Start => (0, 0),
        Bookmark::After(set) => (1, set),
    }
}

pub fn largest(graph: &[u64], k: u64, answer: &[u64]) -> Outcome {
    let mut outcome = Outcome {
        answer: answer.to_vec(),
        ..only(0)
    };
    if graph.len() < GRAPH_WORDS {
        outcome.number = SHORT_GRAPH;
    } else if answer.len() < 2 {
        outcome.number = SHORT_ANSWER;
    } else {
        let found = reference::largest(&graph_of(graph), k);
        outcome.number = found.err().unwrap_or(0);
        let (left, right) = found.unwrap_or((0, 0));
        outcome.answer = with_start(answer, &[left, right]);
    }
    outcome
}

pub fn record_at(listing: &[u8], i: u64, answer: &[u64]) -> Outcome {
    let mut outcome = Outcome {
        answer: answer.to_vec(),
        ..only(0)
    };
    if answer.len() < 2 {
        outcome.number = SHORT_ANSWER;
        return outcome;
    }
    let part = reference::record_at(listing, i);
    let start = if part.is_empty() {
        0
    } else {
        part.as_ptr() as usize - listing.as_ptr() as usize
    };
    outcome.answer = with_start(answer, &[start as u64, part.len() as u64]);
    outcome
}

/// Counts, given the graph's groups for k where the call is not refused.
pub fn count(
    graph: &[u64],
    k: u64,
    groups: &[(u64, u64)],
    sets: &[u64],
    counts: &[u64],
) -> Outcome {
    let mut outcome = Outcome {
        counts: counts.to_vec(),
        ..only(0)
    };
    if graph.len() < GRAPH_WORDS {
        outcome.number = SHORT_GRAPH;
        return outcome;
    }
    match reference::check_count(&graph_of(graph), k, sets.len(), counts.len()) {
        Ok(()) => outcome.counts = with_start(counts, &reference::counts_of(groups, sets)),
        Err(number) => outcome.number = number,
    }
    outcome
}
