//! The trial of the stack that calls use: for each function at most what include/mastpickle.h says, and at least half of it.

use super::expect::{place, words};
use super::header;
use super::tally::{each_case, Tally};
use crate::generate::{
    amended, balanced_on, bookmark, buffer_length, dense_graph, graph, masking, moon_moser,
    number_of_sets, rich_graph, scrambled, set_to_classify, threshold, traps, with_density, Rng,
};
use crate::interface::{c, noise, OwnStack, GRAPH_WORDS};
use crate::reference::SignedGraph;
use std::collections::BTreeMap;

/// The most bytes that a call of each function used.
type Most = BTreeMap<&'static str, u64>;

/// A call: its function, by name and by place, and its arguments.
type Call = (&'static str, *const (), [u64; 9]);

pub fn run(seed: u64, amount: u64) -> Result<Tally, String> {
    let mut stack = OwnStack::painted();
    let mut most = Most::new();
    let mut tally = each_case("stack", seed, amount, |rng, tally| {
        let (graph, k) = case(rng);
        let mut arrays = Arrays::new(rng, &graph);
        let mut calls = arrays.calls(rng, &graph, k).to_vec();
        calls.push(arrays.count_call(k));
        for (name, function, arguments) in calls {
            let used = unsafe { stack.call(function, &arguments) };
            tally.count_number(used.number);
            let bytes = most.entry(name).or_default();
            *bytes = used.bytes.max(*bytes);
        }
        Ok(())
    })?;
    hold(&header::text()?, &most)?;
    for (name, bytes) in most {
        tally.add(&format!("bytes for {name}"), bytes);
    }
    Ok(tally)
}

/// A graph of any family and a threshold. A search goes deepest where every vertex has an edge and few have more.
fn case(rng: &mut Rng) -> (SignedGraph, u64) {
    let k = threshold(rng);
    let graph = match rng.below(10) {
        0 => matching(rng),
        1 => balanced_on(64, u64::MAX, rng.next()),
        2 => moon_moser(rng.between(1, 21)),
        3 => dense_graph(rng),
        4 | 5 => rich_graph(rng),
        6 => {
            let (density, negative) = (rng.below(101), rng.below(101));
            with_density(rng, 64, density, negative)
        }
        7 if rng.chance(5) => {
            let mut traps = traps(rng);
            let trap = traps.swap_remove(rng.length(0, traps.len() - 1));
            return (trap.graph, trap.k);
        }
        _ => graph(rng),
    };
    (masking(rng, graph), k)
}

/// A perfect matching of 64 vertices.
fn matching(rng: &mut Rng) -> SignedGraph {
    let mut graph = SignedGraph::new(64);
    (0..32).for_each(|v| graph.add(v, 63 - v, rng.chance(50)));
    graph
}

/// A graph whose groups are few enough to go through them all.
fn countable(rng: &mut Rng) -> SignedGraph {
    let graph = match rng.below(4) {
        0 => matching(rng),
        1 => balanced_on(64, u64::MAX, rng.next()),
        2 => rich_graph(rng),
        _ => graph(rng),
    };
    masking(rng, graph)
}

/// The arrays of a case; `counted` is the graph in whose groups `sets` are counted.
struct Arrays {
    list: Vec<u8>,
    graph: Vec<u64>,
    written: Vec<u64>,
    out: Vec<u8>,
    answer: Vec<u64>,
    counted: Vec<u64>,
    sets: Vec<u64>,
    counts: Vec<u64>,
}

impl Arrays {
    fn new(rng: &mut Rng, graph: &SignedGraph) -> Arrays {
        let length = buffer_length(rng);
        let sets = number_of_sets(rng);
        Arrays {
            list: if rng.chance(50) {
                amended(rng, graph)
            } else {
                scrambled(rng, graph)
            },
            graph: words(graph),
            written: noise(rng, GRAPH_WORDS),
            out: noise(rng, length),
            answer: noise(rng, 4),
            counted: words(&countable(rng)),
            sets: noise(rng, sets),
            counts: noise(rng, sets),
        }
    }

    /// A call of count.
    fn count_call(&mut self, k: u64) -> Call {
        let counted = lent(&mut self.counted);
        let (sets, counts) = (lent(&mut self.sets), lent(&mut self.counts));
        call(
            "count",
            c::mastpickle_count as _,
            &[&counted, &[k], &sets, &counts],
        )
    }

    /// A call of each other function.
    fn calls(&mut self, rng: &mut Rng, graph: &SignedGraph, k: u64) -> [Call; 10] {
        let set = set_to_classify(rng, graph);
        let (kind, after) = place(bookmark(rng, graph, &[]));
        let list = lent(&mut self.list);
        let g = lent(&mut self.graph);
        let written = lent(&mut self.written);
        let out = lent(&mut self.out);
        let answer = lent(&mut self.answer);
        [
            call("new", c::mastpickle_new as _, &[&[graph.n], &written]),
            call("check_sound", c::mastpickle_check_sound as _, &[&g]),
            call("check_call", c::mastpickle_check_call as _, &[&g, &[k]]),
            call(
                "decode",
                c::mastpickle_decode as _,
                &[&list, &written, &answer],
            ),
            call("encode", c::mastpickle_encode as _, &[&g, &out, &answer]),
            call(
                "classify",
                c::mastpickle_classify as _,
                &[&g, &[k, set], &answer],
            ),
            call(
                "reduce",
                c::mastpickle_reduce as _,
                &[&g, &[k], &written, &answer],
            ),
            call(
                "list_page",
                c::mastpickle_list_page as _,
                &[&g, &[k, kind, after], &out, &answer],
            ),
            call("largest", c::mastpickle_largest as _, &[&g, &[k], &answer]),
            call(
                "record_at",
                c::mastpickle_record_at as _,
                &[&out, &[k], &answer],
            ),
        ]
    }
}

/// An array as two arguments: where it begins, and its length.
fn lent<T>(array: &mut [T]) -> [u64; 2] {
    [array.as_mut_ptr() as u64, array.len() as u64]
}

/// A call with its arguments, and zeros behind them.
fn call(name: &'static str, function: *const (), arguments: &[&[u64]]) -> Call {
    let mut all = [0; 9];
    for (place, &argument) in all.iter_mut().zip(arguments.iter().copied().flatten()) {
        *place = argument;
    }
    (name, function, all)
}

/// A figure is at most so many times what is measured. What the frames of the machine code add up to, with 65 levels of a
/// search, is at most 3 % more than that: complete graphs reach these levels.
const TIMES: u64 = 2;

/// The figure of calls that take next to nothing.
const LEAST: u64 = 256;

/// Holds what the header says to the most that was used.
fn hold(header: &str, most: &Most) -> Result<(), String> {
    let figures = figures(header)?;
    let functions = header::FUNCTIONS.map(|(name, _)| name);
    if !figures.iter().map(|(name, _)| *name).eq(functions) {
        return Err(format!("the header has the figures {figures:?}"));
    }
    for &(name, figure) in &figures {
        let used = most.get(name).copied().unwrap_or(0);
        if used == 0 || used > figure || figure > LEAST.max(TIMES * used) {
            return Err(format!("{name} used {used} bytes, the header has {figure}"));
        }
    }
    let largest = figures.iter().map(|&(_, figure)| figure).max();
    let numbers = header::numbers(header)?;
    let number = numbers.iter().find(|(name, _)| name == "STACK_BYTES");
    if number.map(|&(_, number)| number) != largest {
        return Err(format!("the largest figure is {largest:?}, not {number:?}"));
    }
    Ok(())
}

/// The functions with their bytes of stack, as the header's opening comment has them.
fn figures(header: &str) -> Result<Vec<(&str, u64)>, String> {
    header
        .lines()
        .filter_map(|line| line.strip_prefix(" *     mastpickle_"))
        .map(|row| {
            let (name, figure) = row.split_once(' ').unwrap_or((row, ""));
            let figure = figure.trim().replace(',', "").parse();
            let figure = figure.map_err(|_| format!("{row} has no figure"))?;
            Ok((name, figure))
        })
        .collect()
}
