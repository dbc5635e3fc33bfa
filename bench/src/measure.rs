//! Measuring the library and its peers on one graph, and comparing what they find.

use crate::clock;
use crate::counting::{self, Counting};
use crate::families::GRAPHS;
use crate::library::{self, Graph, RECORD, START};
use crate::pages::{self, Pages};
use crate::peers::cliquer::Cliquer;
use crate::peers::igraph::Igraph;
use crate::peers::{mbcenum, mbcsear};
use crate::verdict::Verdict;
use mastpickle_trials::reference::{left_first, SignedGraph};
use std::cmp::Reverse;
use std::ops::Range;

/// The most records of a whole listing.
const MOST_RECORDS: usize = 4_000_000;

/// The thresholds that every graph is measured for.
pub const THRESHOLDS: [u64; 5] = [0, 1, 2, 4, 8];

/// The records of a page.
pub const PAGE_RECORDS: usize = 64;

/// What a run is for.
#[derive(Clone, Copy, PartialEq, Eq)]
pub enum Purpose {
    /// Times, each the best of several calls.
    Timing,
    /// Comparisons alone, for which each call is made once.
    Comparing,
}

impl Purpose {
    /// The numbers of the graphs of each family; one graph where nothing is timed.
    pub fn graphs(self) -> Range<u64> {
        match self {
            Purpose::Timing => 0..GRAPHS,
            Purpose::Comparing => 1..2,
        }
    }

    /// The seconds of a call.
    pub fn time(self, call: impl FnMut()) -> f64 {
        match self {
            Purpose::Timing => clock::best(call),
            Purpose::Comparing => clock::once(call),
        }
    }

    /// The seconds of each of several calls.
    pub fn time_in_turn<const N: usize>(self, calls: [&mut dyn FnMut(); N]) -> [f64; N] {
        match self {
            Purpose::Timing => clock::best_in_turn(calls),
            Purpose::Comparing => calls.map(clock::once),
        }
    }
}

/// The seconds of each call on one graph at one threshold; of a peer, none where it is not installed or not asked.
pub struct Case {
    pub k: u64,
    pub groups: usize,
    pub list: f64,
    pub mbcenum: f64,
    pub igraph: Option<IgraphTimes>,
    pub size: u32,
    pub largest: f64,
    pub mbcsear: f64,
    pub cliquer: Option<f64>,
    pub pages: Option<Pages>,
    pub counting: Option<Counting>,
}

/// The seconds of igraph's two ways: counting alone, and handing each clique over.
#[derive(Clone, Copy)]
pub struct IgraphTimes {
    pub count: f64,
    pub callback: f64,
}

impl IgraphTimes {
    /// The faster way.
    pub fn best(&self) -> f64 {
        self.count.min(self.callback)
    }
}

/// What igraph found: its groups, counted by the size of the smaller side.
struct Found {
    by_smaller_side: [u64; 65],
    times: IgraphTimes,
}

/// Buffers that are made once, and what was compared.
pub struct Bench {
    pub purpose: Purpose,
    pub verdict: Verdict,
    out: Vec<u8>,
    found: Vec<(u64, u64)>,
}

impl Bench {
    pub fn new(purpose: Purpose) -> Bench {
        Bench {
            purpose,
            verdict: Verdict::default(),
            out: vec![0; MOST_RECORDS * RECORD],
            found: Vec::with_capacity(MOST_RECORDS),
        }
    }

    /// Measures one graph at each of the thresholds. The peers get it without the edges of masked vertices.
    pub fn graph(&mut self, name: &str, graph: &SignedGraph, thresholds: &[u64]) -> Vec<Case> {
        let bare = graph.without_masked();
        let igraph = self.igraph(name, &bare);
        let mut cases = Vec::new();
        for &k in thresholds {
            let name = format!("{name}, k = {k}");
            let mut case = self.case(&name, graph, &bare, k);
            if let Some(igraph) = &igraph {
                let count: u64 = igraph.by_smaller_side[k as usize..].iter().sum();
                self.verdict
                    .compare(&format!("{name}, igraph"), count, case.groups as u64);
            }
            if k == 0 {
                self.largest_by_cliquer(&name, &bare, &mut case);
                case.igraph = igraph.as_ref().map(|igraph| igraph.times);
            }
            cases.push(case);
        }
        cases
    }

    /// What igraph finds and how long it takes, where it is installed.
    fn igraph(&mut self, name: &str, graph: &SignedGraph) -> Option<Found> {
        let igraph = Igraph::new(graph)?;
        let mut by_smaller_side = [0; 65];
        let callback = self
            .purpose
            .time(|| by_smaller_side = igraph.by_smaller_side());
        let mut count = by_smaller_side.iter().sum();
        let counting = match self.purpose {
            Purpose::Timing => clock::best(|| count = igraph.count()),
            Purpose::Comparing => callback,
        };
        let handed_over = by_smaller_side.iter().sum();
        self.verdict
            .compare(&format!("{name}, igraph's count"), count, handed_over);
        Some(Found {
            by_smaller_side,
            times: IgraphTimes {
                count: counting,
                callback,
            },
        })
    }

    fn largest_by_cliquer(&mut self, name: &str, graph: &SignedGraph, case: &mut Case) {
        if let Some(cliquer) = Cliquer::new(graph) {
            let mut size = 0;
            case.cliquer = Some(self.purpose.time(|| size = cliquer.largest()));
            self.verdict
                .compare(&format!("{name}, cliquer"), size, case.size);
        }
    }

    /// The seconds of the listing in one call, and its groups, whose records are then in `out`.
    pub fn list(&mut self, name: &str, graph: &Graph, k: u64) -> (f64, usize) {
        let out = &mut self.out;
        let mut groups = 0;
        let seconds = self.purpose.time(|| {
            let answer = graph.list_page(k, START, out);
            assert!(answer.next.is_none(), "{name}: over {MOST_RECORDS} groups");
            groups = answer.records;
        });
        (seconds, groups)
    }

    /// The library's listing and largest group, and those of the searches in Rust on the bare graph.
    fn case(&mut self, name: &str, graph: &SignedGraph, bare: &SignedGraph, k: u64) -> Case {
        let given = Graph::new(graph);
        let (list, groups) = self.list(name, &given, k);
        let found = &mut self.found;
        let mbcenum = self.purpose.time(|| mbcenum::groups(bare, k, found));
        let mut sides = (0, 0);
        let largest = self.purpose.time(|| sides = given.largest(k));
        let mut peer = (0, 0);
        let mbcsear = self.purpose.time(|| peer = mbcsear::largest(bare, k));
        let size = |sides: (u64, u64)| (sides.0 | sides.1).count_ones();
        let listed = library::groups(&self.out[..groups * RECORD]);
        self.compare_groups(name, &listed);
        let most = listed.iter().map(|&sides| size(sides)).max().unwrap_or(0);
        let first = listed.iter().copied().find(|&sides| size(sides) == most);
        self.verdict
            .compare(&format!("{name}, largest"), sides, first.unwrap_or((0, 0)));
        self.verdict
            .compare(&format!("{name}, MBCSear-SSP*"), size(peer), most);
        let pages = (k == 0).then(|| pages::measure(self, name, graph, &listed));
        let counting = (k == 0).then(|| counting::measure(self, name, graph, &listed));
        Case {
            k,
            groups,
            list,
            mbcenum,
            igraph: None,
            size: most,
            largest,
            mbcsear,
            cliquer: None,
            pages,
            counting,
        }
    }

    /// Holds what MBCEnum* found last to the library's listing.
    fn compare_groups(&mut self, name: &str, listed: &[(u64, u64)]) {
        let found = &mut self.found;
        in_listing_order(found);
        let name = format!("{name}, MBCEnum*");
        self.verdict.compare(&name, found.len(), listed.len());
        let same = found.as_slice() == listed;
        self.verdict
            .compare(&format!("{name}, the same groups"), same, true);
    }
}

/// Puts groups into listing order, the side of the lowest vertex first.
pub fn in_listing_order(groups: &mut [(u64, u64)]) {
    for sides in groups.iter_mut() {
        *sides = left_first(sides.0, sides.1);
    }
    // Of two sets, the one that holds the lowest vertex on which they differ has the higher number with its bits reversed.
    groups.sort_unstable_by_key(|sides| Reverse((sides.0 | sides.1).reverse_bits()));
}
