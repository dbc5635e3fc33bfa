//! What a whole run measured, and its means.

use crate::counting::MOST_SETS;
use crate::decoding::Decodings;
use crate::masked::Page;
use crate::measure::Case;
use crate::reduction::Reductions;
use crate::table::mean;
use crate::traps::Timed;

/// The cases of one family: for each graph one at each threshold, the first for threshold 0.
pub struct Measured {
    pub name: &'static str,
    pub graphs: Vec<Vec<Case>>,
}

pub struct Results {
    pub families: Vec<Measured>,
    pub masked: Vec<Page>,
    pub reductions: Reductions,
    pub decodings: Decodings,
    pub traps: Vec<Timed>,
}

impl Measured {
    /// The cases for a threshold.
    pub fn at(&self, k: u64) -> impl Iterator<Item = &Case> {
        self.graphs.iter().flatten().filter(move |case| case.k == k)
    }

    /// The geometric mean of a number over the graphs for threshold 0; none where a graph does not have it.
    pub fn mean(&self, of: fn(&Case) -> Option<f64>) -> Option<f64> {
        self.mean_at(0, of)
    }

    pub fn mean_at(&self, k: u64, of: fn(&Case) -> Option<f64>) -> Option<f64> {
        mean(self.at(k).map(of).collect::<Option<Vec<f64>>>()?)
    }
}

impl Results {
    /// The mean of each family; none where one does not have it.
    pub fn means(&self, of: fn(&Case) -> Option<f64>) -> Option<Vec<f64>> {
        self.families.iter().map(|family| family.mean(of)).collect()
    }

    /// The family with the highest mean, and the mean; none where a family does not have it.
    pub fn highest(&self, of: fn(&Case) -> Option<f64>) -> Option<(&'static str, f64)> {
        let names = self.families.iter().map(|family| family.name);
        let means = names.zip(self.means(of)?);
        means.max_by(|a, b| a.1.total_cmp(&b.1))
    }

    /// The cases of all graphs for threshold 0.
    pub fn cases(&self) -> impl Iterator<Item = &Case> {
        self.families.iter().flat_map(|family| family.at(0))
    }
}

/// How many times as fast as igraph the listing is.
pub fn over_igraph(case: &Case) -> Option<f64> {
    Some(case.igraph?.best() / case.list)
}

/// How many times as long as MBCEnum* the listing takes.
pub fn of_mbcenum(case: &Case) -> Option<f64> {
    Some(case.list / case.mbcenum)
}

/// How many times as long as cliquer the largest call takes.
pub fn of_cliquer(case: &Case) -> Option<f64> {
    Some(case.largest / case.cliquer?)
}

/// How many times as long as MBCSear-SSP* the largest call takes.
pub fn of_mbcsear(case: &Case) -> Option<f64> {
    Some(case.largest / case.mbcsear)
}

/// How many times as long as one call the listing by pages takes.
pub fn by_pages(case: &Case) -> Option<f64> {
    Some(case.pages.as_ref()?.all / case.list)
}

pub fn slowest_page(case: &Case) -> Option<f64> {
    Some(case.pages.as_ref()?.slowest)
}

/// How many times as long as the listing counting one set takes.
pub fn counting_one(case: &Case) -> Option<f64> {
    let counting = case.counting.as_ref()?;
    Some(counting.one / counting.list)
}

/// How many times as long as the listing counting the most sets takes.
pub fn counting_most(case: &Case) -> Option<f64> {
    let counting = case.counting.as_ref()?;
    Some(counting.most / counting.list)
}

/// The nanoseconds that each further set takes for each group.
pub fn nanoseconds_a_test(case: &Case) -> Option<f64> {
    let counting = case.counting.as_ref()?;
    let tests = (MOST_SETS - 1) * case.groups;
    Some((counting.most - counting.one) * 1e9 / tests as f64)
}
