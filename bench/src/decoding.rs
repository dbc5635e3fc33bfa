//! Measuring the decoding of lists, and comparing the graphs: the same commands in edge lists and in amendment lists, and an
//! amendment list beside as many commands in edge lists.

mod lists;

use crate::library::{decode, Graph, Words};
use crate::measure::{Bench, Purpose};
use lists::{Commands, Family, Kind, Opening, ALL_EDGES, FAMILIES, KINDS};
use mastpickle_trials::interface::GRAPH_WORDS;

/// How many lists are decoded one after the other; an amendment list has as many commands as all of them together. These are too
/// many for a processor to learn.
const MANY: u64 = 100;
const MOST: u64 = 10 * MANY;

/// How often all lists are measured in turn.
const TIMES: usize = 4;

/// The seconds of a command in edge lists and in amendment lists.
pub struct Case {
    pub name: String,
    /// How many commands the lists have together, under either opening.
    pub commands: usize,
    pub edge_lists: f64,
    pub amendment_lists: f64,
}

impl Case {
    /// How many times as long as in edge lists a command takes in amendment lists.
    pub fn ratio(&self) -> f64 {
        self.amendment_lists / self.edge_lists
    }
}

/// How many times as long a command takes where there are ten times as many, in an amendment list of a kind and in edge lists.
pub struct Growth {
    pub kind: &'static str,
    pub amendment_lists: f64,
    pub edge_lists: f64,
}

/// Two cases of each family and of each kind, and how a command of each kind grows.
pub struct Decodings {
    pub cases: Vec<Case>,
    pub growths: Vec<Growth>,
}

const CASES: usize = 2 * (FAMILIES.len() + KINDS.len());

pub fn measure(bench: &mut Bench) -> Decodings {
    let mut pairs = Vec::new();
    for family in &FAMILIES {
        pairs.extend([1, MANY].map(|lists| Pair::same(bench, family, lists)));
    }
    for kind in &KINDS {
        pairs.extend([MANY, MOST].map(|lists| Pair::amended(bench, kind, lists)));
    }
    let cases = time(bench.purpose, pairs);
    let of_kinds = cases[2 * FAMILIES.len()..].chunks_exact(2);
    let growths = KINDS.iter().zip(of_kinds).map(|(kind, cases)| Growth {
        kind: kind.name,
        amendment_lists: cases[1].amendment_lists / cases[0].amendment_lists,
        edge_lists: cases[1].edge_lists / cases[0].edge_lists,
    });
    Decodings {
        growths: growths.collect(),
        cases,
    }
}

/// Edge lists, and amendment lists with as many commands.
struct Pair {
    name: String,
    edge_lists: Lists,
    amendment_lists: Lists,
}

impl Pair {
    /// So many lists of a family under both openings.
    fn same(bench: &mut Bench, family: &Family, lists: u64) -> Pair {
        let all = family.lists(lists);
        let name = match lists {
            1 => format!("{}, one list", family.name),
            _ => format!("{}, {lists} lists", family.name),
        };
        Pair {
            edge_lists: Lists::new(bench, &name, &all, Opening::EdgeList),
            amendment_lists: Lists::new(bench, &name, &all, Opening::AmendmentList),
            name,
        }
    }

    /// An amendment list of a kind with as many commands as so many edge lists of all edges.
    fn amended(bench: &mut Bench, kind: &Kind, lists: u64) -> Pair {
        let all = ALL_EDGES.lists(lists);
        let edge_lists = Lists::new(bench, ALL_EDGES.name, &all, Opening::EdgeList);
        let commands = kind.commands(edge_lists.commands);
        Pair {
            name: kind.name.to_string(),
            edge_lists,
            amendment_lists: Lists::new(bench, kind.name, &[commands], Opening::AmendmentList),
        }
    }
}

/// Lists that are decoded one after the other, and how many commands they have.
struct Lists {
    lists: Vec<Vec<u8>>,
    commands: usize,
}

impl Lists {
    /// The lists of commands under an opening; each is to give the graph that its commands leave.
    fn new(bench: &mut Bench, name: &str, all: &[Commands], opening: Opening) -> Lists {
        let lists: Vec<Vec<u8>> = all.iter().map(|commands| commands.list(opening)).collect();
        let mut given = lists.iter().zip(all).enumerate();
        let compared = given.try_for_each(|(i, (list, commands))| {
            let mut graph = [u64::MAX; GRAPH_WORDS];
            match decode(list, &mut graph) {
                0 if graph == Graph::new(&commands.graph()).words => Ok(()),
                0 => Err(format!("list {i} has another graph")),
                refused => Err(format!("list {i} is refused with {refused}")),
            }
        });
        let name = format!("decoding {}, {name}", opening.name());
        bench.verdict.take(&name, &compared);
        Lists {
            lists,
            commands: all.iter().map(Commands::count).sum(),
        }
    }

    fn decode(&self, graph: &mut Words) {
        for list in &self.lists {
            decode(list, graph);
        }
    }
}

/// Decodes all lists in turn.
fn time(purpose: Purpose, pairs: Vec<Pair>) -> Vec<Case> {
    let lists: [&Lists; 2 * CASES] = std::array::from_fn(|i| match i % 2 {
        0 => &pairs[i / 2].edge_lists,
        _ => &pairs[i / 2].amendment_lists,
    });
    let times = match purpose {
        Purpose::Timing => TIMES,
        Purpose::Comparing => 1,
    };
    let mut least = [f64::INFINITY; 2 * CASES];
    for _ in 0..times {
        let mut calls = lists.map(|lists| {
            let mut graph = [0; GRAPH_WORDS];
            move || lists.decode(&mut graph)
        });
        let seconds = purpose.time_in_turn(calls.each_mut().map(|call| call as _));
        for (least, seconds) in least.iter_mut().zip(seconds) {
            *least = least.min(seconds);
        }
    }
    let timed = pairs.into_iter().zip(least.chunks_exact(2));
    let case = |(pair, seconds): (Pair, &[f64])| Case {
        name: pair.name,
        commands: pair.edge_lists.commands,
        edge_lists: seconds[0] / pair.edge_lists.commands as f64,
        amendment_lists: seconds[1] / pair.amendment_lists.commands as f64,
    };
    timed.map(case).collect()
}
