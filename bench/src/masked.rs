//! Measuring a page of a graph whose vertices are all masked beside a page of one that has no edge.

use crate::library::{Graph, RECORD, START};
use crate::measure::{Bench, Purpose, PAGE_RECORDS, THRESHOLDS};
use mastpickle_trials::generate::{with_density, Rng};
use mastpickle_trials::reference::SignedGraph;

/// The seconds of a page of 64 vertices: with all edges and all masked, and with no edge and none masked.
pub struct Page {
    pub k: u64,
    pub all_masked: f64,
    pub no_edge: f64,
}

impl Page {
    pub fn ratio(&self) -> f64 {
        self.all_masked / self.no_edge
    }
}

/// How often the two are measured.
const TIMES: usize = 4;

/// Measures pages of both graphs at each threshold.
pub fn measure(bench: &mut Bench) -> Vec<Page> {
    let mut dense = with_density(&mut Rng::new(1), 64, 100, 50);
    dense.masked = u64::MAX;
    let graphs = [dense, SignedGraph::new(64)].map(|graph| Graph::new(&graph));
    THRESHOLDS.map(|k| page(bench, &graphs, k)).into()
}

/// Measures a page of both graphs, in turn; each is to have no record and to be finished.
fn page(bench: &mut Bench, [all_masked, no_edge]: &[Graph; 2], k: u64) -> Page {
    let times = match bench.purpose {
        Purpose::Timing => TIMES,
        Purpose::Comparing => 1,
    };
    let mut least = [f64::INFINITY; 2];
    let [mut one, mut other] = [(usize::MAX, false); 2];
    let [mut out, mut out_too] = [[0; PAGE_RECORDS * RECORD]; 2];
    for _ in 0..times {
        let seconds = bench
            .purpose
            .time_in_turn([&mut || one = listed(all_masked, k, &mut out), &mut || {
                other = listed(no_edge, k, &mut out_too)
            }]);
        least = [0, 1].map(|i| seconds[i].min(least[i]));
    }
    let verdict = &mut bench.verdict;
    verdict.compare(&format!("a page, all masked, k = {k}"), one, (0, true));
    verdict.compare(&format!("a page, no edge, k = {k}"), other, (0, true));
    Page {
        k,
        all_masked: least[0],
        no_edge: least[1],
    }
}

/// The records of a page from the start, and whether it is finished.
fn listed(graph: &Graph, k: u64, out: &mut [u8]) -> (usize, bool) {
    let answer = graph.list_page(k, START, out);
    (answer.records, answer.next.is_none())
}
