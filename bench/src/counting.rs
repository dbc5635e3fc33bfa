//! Measuring counts: in how many groups sets lie, for one set and for the most sets of a call.

use crate::library::Graph;
use crate::measure::{Bench, Purpose};
use mastpickle_trials::generate::Rng;
use mastpickle_trials::reference::SignedGraph;

/// The most sets of a call.
pub const MOST_SETS: usize = 256;

/// The seconds of listing in one call, of counting one set, and of counting the most sets.
pub struct Counting {
    pub list: f64,
    pub one: f64,
    pub most: f64,
}

/// How often the three are measured in turn, so that what else the machine does falls on all.
const TURNS: usize = 4;

pub fn measure(
    bench: &mut Bench,
    name: &str,
    graph: &SignedGraph,
    groups: &[(u64, u64)],
) -> Counting {
    let given = Graph::new(graph);
    let sets = sets(groups);
    let (mut one, mut most) = ([u64::MAX], [u64::MAX; MOST_SETS]);
    let turns = match bench.purpose {
        Purpose::Timing => TURNS,
        Purpose::Comparing => 1,
    };
    let mut least = Counting {
        list: f64::INFINITY,
        one: f64::INFINITY,
        most: f64::INFINITY,
    };
    for _ in 0..turns {
        let (list, _) = bench.list(name, &given, 0);
        least.list = list.min(least.list);
        let seconds = bench.purpose.time(|| given.count(0, &sets[..1], &mut one));
        least.one = seconds.min(least.one);
        let seconds = bench.purpose.time(|| given.count(0, &sets, &mut most));
        least.most = seconds.min(least.most);
    }
    let expected = sets.map(|set| count(groups, set));
    let verdict = &mut bench.verdict;
    verdict.compare(&format!("{name}, counting 1"), &one[..], &expected[..1]);
    verdict.compare(&format!("{name}, counting {MOST_SETS}"), most, expected);
    least
}

/// The sets that are counted: subsets of groups, and every fourth a random set.
fn sets(groups: &[(u64, u64)]) -> [u64; MOST_SETS] {
    let mut rng = Rng::new(1);
    std::array::from_fn(|i| match i % 4 {
        1 => rng.next() & rng.next() & rng.next(),
        _ => subset(&mut rng, groups),
    })
}

/// A subset of a group, of one vertex or more.
fn subset(rng: &mut Rng, groups: &[(u64, u64)]) -> u64 {
    let (left, right) = rng.pick(groups);
    let mut set = left | right;
    let size = rng.between(1, set.count_ones().into());
    while u64::from(set.count_ones()) > size {
        set &= !(1 << rng.below(64));
    }
    set
}

/// In how many groups a set lies.
fn count(groups: &[(u64, u64)], set: u64) -> u64 {
    let holding = groups
        .iter()
        .filter(|(left, right)| set & !(left | right) == 0);
    holding.count() as u64
}
