//! Measuring the reduction beside a plain fixpoint, and comparing the reduced graphs and the looks.

mod graphs;
mod looks;
mod worst;

use crate::families::Family;
use crate::library::Graph;
use crate::measure::{Bench, Purpose};
use crate::peers::fixpoint;
pub use graphs::Kind;
use looks::Looks;
use mastpickle_trials::interface::GRAPH_WORDS;
use mastpickle_trials::reference::SignedGraph;
use std::ops::Range;

/// How many changes the search for a slow graph tries at each threshold, and how many where nothing is timed.
const STEPS: u64 = 3000;
const CHECKED_STEPS: u64 = 10;

/// How often the worst case of a family is measured again.
const AGAIN: usize = 8;

/// The seconds of one reduction by the library and by the fixpoint, which checks its graph or takes it as sound.
pub struct Case {
    pub k: u64,
    pub looks: Looks,
    pub library: f64,
    pub fixpoint: f64,
    pub unchecked: f64,
}

impl Case {
    /// How many times as long as the fixpoint the library takes.
    pub fn ratio(&self) -> f64 {
        self.library / self.fixpoint
    }

    /// Takes the times of the same case measured again where they are less.
    fn improve(&mut self, again: &Case) {
        self.library = self.library.min(again.library);
        self.fixpoint = self.fixpoint.min(again.fixpoint);
        self.unchecked = self.unchecked.min(again.unchecked);
    }
}

/// What is reduced.
struct Input {
    name: String,
    graph: Graph,
    k: u64,
}

/// The cases of one family.
pub struct Measured {
    pub name: &'static str,
    pub kind: Kind,
    pub cases: Vec<Case>,
}

impl Measured {
    /// The case in which the library takes longest beside the fixpoint.
    pub fn worst(&self) -> &Case {
        &self.cases[self.worst_index()]
    }

    fn worst_index(&self) -> usize {
        let ratio = |&i: &usize| self.cases[i].ratio();
        (0..self.cases.len())
            .max_by(|a, b| ratio(a).total_cmp(&ratio(b)))
            .expect("a family has cases")
    }

    /// The lowest ratio of all cases.
    pub fn lowest(&self) -> f64 {
        let ratios = self.cases.iter().map(Case::ratio);
        ratios.fold(f64::INFINITY, f64::min)
    }
}

/// The cases of all families, and the slowest that was found.
pub struct Reductions {
    pub families: Vec<Measured>,
    pub slowest: Case,
}

pub fn measure(bench: &mut Bench) -> Reductions {
    Reductions {
        families: families(bench),
        slowest: slowest(bench),
    }
}

/// Measures the graphs of each family at each threshold. The worst case is measured again, several times, since what
/// else the machine does can make one.
fn families(bench: &mut Bench) -> Vec<Measured> {
    let mut families = Vec::new();
    for (kind, family) in graphs::families() {
        let inputs = inputs(family.name, bench.purpose.graphs(), kind, |i| {
            family.graph(i)
        });
        let mut measured = Measured {
            name: family.name,
            kind,
            cases: inputs.iter().map(|input| case(bench, input)).collect(),
        };
        if bench.purpose == Purpose::Timing {
            for _ in 0..AGAIN {
                let i = measured.worst_index();
                let again = case(bench, &inputs[i]);
                measured.cases[i].improve(&again);
            }
        } else {
            compare_masked(bench, kind, family);
        }
        families.push(measured);
    }
    families
}

/// Compares the graphs of a family with a quarter of their vertices masked.
fn compare_masked(bench: &mut Bench, kind: Kind, family: &Family) {
    let name = format!("{}, a quarter masked", family.name);
    let inputs = inputs(&name, bench.purpose.graphs(), kind, |i| family.masked(i));
    for input in &inputs {
        case(bench, input);
    }
}

/// The graphs of a family at each threshold of its kind.
fn inputs(
    name: &str,
    graphs: Range<u64>,
    kind: Kind,
    graph: impl Fn(u64) -> SignedGraph,
) -> Vec<Input> {
    let at = |(i, &k): (u64, &u64)| Input {
        name: format!("{name} ({}), k = {k}, reduction", i + 1),
        graph: Graph::new(&graph(i)),
        k,
    };
    graphs
        .flat_map(|i| kind.thresholds().iter().map(move |k| (i, k)))
        .map(at)
        .collect()
}

/// Measures for each threshold the graph that a search finds; gives the slowest.
fn slowest(bench: &mut Bench) -> Case {
    let steps = match bench.purpose {
        Purpose::Timing => STEPS,
        Purpose::Comparing => CHECKED_STEPS,
    };
    let cases = (0..=32).map(|k| {
        let input = Input {
            name: format!("slow graph, k = {k}, reduction"),
            graph: Graph::new(&worst::search(k, steps)),
            k,
        };
        case(bench, &input)
    });
    cases
        .max_by(|a, b| a.library.total_cmp(&b.library))
        .expect("there are thresholds")
}

/// Reduces by the library and by the fixpoint, in turn.
fn case(bench: &mut Bench, input: &Input) -> Case {
    let (name, graph, k) = (&input.name, &input.graph, input.k);
    let looks = looks::count(&graph.words, k);
    let mut told = 0;
    let [mut reduced, mut expected, mut unchecked] = [[u64::MAX; GRAPH_WORDS]; 3];
    let [library, fixpoint, alone] = bench.purpose.time_in_turn([
        &mut || told = graph.reduce(k, &mut reduced),
        &mut || fixpoint::reduce(&graph.words, k, &mut expected).expect("the graph is sound"),
        &mut || fixpoint::reduce_sound(&graph.words, k, &mut unchecked),
    ]);
    let verdict = &mut bench.verdict;
    verdict.compare(
        &format!("{name}, the same edges"),
        reduced == expected,
        true,
    );
    verdict.compare(&format!("{name}, unchecked"), unchecked == expected, true);
    verdict.compare(&format!("{name}, looks"), told, looks.looks);
    Case {
        k,
        looks,
        library,
        fixpoint,
        unchecked: alone,
    }
}
