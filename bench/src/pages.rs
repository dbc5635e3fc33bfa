//! Measuring pages: the whole listing by pages, and single pages at many bookmarks.

use crate::clock;
use crate::library::{after, Graph, Place, RECORD, START};
use crate::measure::{Bench, Purpose, PAGE_RECORDS};
use mastpickle_trials::generate::Rng;
use mastpickle_trials::reference::SignedGraph;

/// The seconds of the listing by pages, and of the slowest page.
pub struct Pages {
    pub all: f64,
    pub slowest: f64,
}

/// Bookmarks of each kind besides those along the listing.
const BOOKMARKS: usize = 100;

/// How many of the slowest pages are measured again.
const AGAIN: usize = 10;

pub fn measure(bench: &mut Bench, name: &str, graph: &SignedGraph, groups: &[(u64, u64)]) -> Pages {
    let given = Graph::new(graph);
    let mut records = 0;
    let all = bench.purpose.time(|| records = walk(&given, &mut |_| ()));
    bench
        .verdict
        .compare(&format!("{name}, by pages"), records, groups.len());
    let slowest = match bench.purpose {
        Purpose::Timing => slowest(&given, groups),
        Purpose::Comparing => all,
    };
    Pages { all, slowest }
}

/// Goes through the listing by pages; gives the number of records.
fn walk(graph: &Graph, visit: &mut dyn FnMut(Place)) -> usize {
    let mut page = [0; PAGE_RECORDS * RECORD];
    let (mut records, mut due) = (0, Some(START));
    while let Some(place) = due {
        visit(place);
        let answer = graph.list_page(0, place, &mut page);
        records += answer.records;
        due = answer.next;
    }
    records
}

/// The places after random sets, after beginnings of groups, and after each single vertex.
fn bookmarks(groups: &[(u64, u64)]) -> Vec<Place> {
    let mut rng = Rng::new(1);
    let mut sets: Vec<u64> = (0..64).map(|v| 1 << v).collect();
    for _ in 0..BOOKMARKS {
        sets.extend([rng.next(), rng.next() & rng.next()]);
        if !groups.is_empty() {
            let (left, right) = rng.pick(groups);
            sets.push((left | right) & ((1 << rng.below(64)) - 1));
        }
    }
    sets.into_iter().map(after).collect()
}

/// The seconds of the slowest page along the listing and at other bookmarks: all are measured once, and those that took
/// longest again, for the best of several.
fn slowest(graph: &Graph, groups: &[(u64, u64)]) -> f64 {
    let mut places = bookmarks(groups);
    walk(graph, &mut |place| places.push(place));
    let mut page = [0; PAGE_RECORDS * RECORD];
    let mut call = |place: Place| {
        graph.list_page(0, place, &mut page);
    };
    let mut times: Vec<(f64, Place)> = places
        .iter()
        .map(|&place| (clock::once(|| call(place)), place))
        .collect();
    times.sort_by(|a, b| b.0.total_cmp(&a.0));
    let again = times.iter().take(AGAIN);
    again
        .map(|&(_, place)| clock::best(|| call(place)))
        .fold(0.0, f64::max)
}
