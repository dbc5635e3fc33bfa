//! The bars that the library is held to.

use crate::decoding::Decodings;
use crate::masked::Page;
use crate::measure::Case;
use crate::reduction::{Kind, Reductions};
use crate::results::{
    by_pages, counting_most, counting_one, of_cliquer, of_mbcenum, over_igraph, slowest_page,
    Results,
};
use crate::table::{mean, milliseconds, ratio, Table};
use crate::traps::Call;

/// Whether a number has to be at least the bar, at most or below.
enum Side {
    AtLeast,
    AtMost,
    Below,
}
use Side::{AtLeast, AtMost, Below};

/// A bar: what it is about, its number, and what was measured, none where a peer is missing.
struct Bar {
    what: String,
    side: Side,
    number: f64,
    found: Option<f64>,
    text: fn(f64) -> String,
}

impl Bar {
    fn verdict(&self) -> &'static str {
        match (self.found, &self.side) {
            (None, _) => "not measured",
            (Some(found), AtLeast) if found >= self.number => "pass",
            (Some(found), AtMost) if found <= self.number => "pass",
            (Some(found), Below) if found < self.number => "pass",
            _ => "miss",
        }
    }
}

fn milliseconds_unit(seconds: f64) -> String {
    if seconds.is_infinite() {
        "no time".to_string()
    } else {
        format!("{} ms", milliseconds(seconds))
    }
}

/// The bars as a table.
pub fn table(results: &Results) -> Table {
    let bars = listing(results)
        .into_iter()
        .chain(largest_and_pages(results))
        .chain(counting(results))
        .chain(masked(&results.masked))
        .chain(reduction(&results.reductions))
        .chain(decoding(&results.decodings));
    table_of(bars)
}

/// The bars of the reduction as a table.
pub fn reduction_table(reductions: &Reductions) -> Table {
    table_of(reduction(reductions))
}

/// The bar of masked vertices as a table.
pub fn masked_table(pages: &[Page]) -> Table {
    table_of(masked(pages))
}

/// The bar of decoding as a table.
pub fn decoding_table(decodings: &Decodings) -> Table {
    table_of(decoding(decodings))
}

fn table_of(bars: impl IntoIterator<Item = Bar>) -> Table {
    let mut table = Table::new(&["Bar", "Asked", "Measured", "Verdict"]);
    for bar in bars {
        let sign = match bar.side {
            AtLeast => "≥",
            AtMost => "≤",
            Below => "<",
        };
        table.row([
            bar.what.clone(),
            format!("{sign} {}", (bar.text)(bar.number)),
            bar.found.map_or("not installed".to_string(), bar.text),
            bar.verdict().to_string(),
        ]);
    }
    table
}

/// The bars of the listing.
fn listing(results: &Results) -> Vec<Bar> {
    let igraph = results.means(over_igraph).map(least);
    let lowest = all(results, over_igraph).map(least);
    let mbcenum = results.means(of_mbcenum);
    let mean = mbcenum.clone().and_then(mean);
    let highest = mbcenum.map(most);
    let slowest = trap(results, Call::List);
    vec![
        at_least("igraph / listing, the lowest family mean", 8.0, igraph),
        at_least("igraph / listing, the lowest graph", 1.0, lowest),
        at_most("listing / MBCEnum*, mean over families", 1.5, mean),
        at_most("listing / MBCEnum*, the highest family mean", 4.0, highest),
        within("listing a trap, the slowest", 0.05, slowest),
    ]
}

/// The bars of the largest call and of pages.
fn largest_and_pages(results: &Results) -> Vec<Bar> {
    let cliquer = results.means(of_cliquer).and_then(mean);
    let slowest = trap(results, Call::Largest);
    let page = all(results, slowest_page).map(most);
    let by_pages = results.means(by_pages).map(most);
    vec![
        at_most("largest / cliquer, mean over families", 1.0, cliquer),
        within("largest of a trap, the slowest", 2.0, slowest),
        within("a page of 64 records, the slowest", 0.01, page),
        at_most(
            "by pages / one call, the highest family mean",
            1.5,
            by_pages,
        ),
    ]
}

/// The bars of counting.
fn counting(results: &Results) -> Vec<Bar> {
    let one = results.means(counting_one).and_then(mean);
    let most = results.means(counting_most).and_then(mean);
    vec![
        at_most("counting 1 set / listing, mean over families", 1.2, one),
        at_most("counting 256 sets / listing, mean over families", 4.0, most),
    ]
}

/// The bar of masked vertices.
fn masked(pages: &[Page]) -> Vec<Bar> {
    let highest = most(pages.iter().map(Page::ratio));
    vec![at_most(
        "a page, all masked / no edge, the highest k",
        1.1,
        Some(highest),
    )]
}

/// The bars of the reduction.
fn reduction(reductions: &Reductions) -> Vec<Bar> {
    let highest = |kinds: &[Kind]| {
        let families = reductions.families.iter();
        let families = families.filter(|family| kinds.contains(&family.kind));
        Some(most(families.map(|family| family.worst().ratio())))
    };
    let sparse = highest(&[Kind::Sparse]);
    let tails = highest(&[Kind::Tail]);
    let all = highest(&[Kind::Sparse, Kind::Tail, Kind::Other]);
    let slowest = Some(reductions.slowest.library);
    vec![
        below(
            "reduction / fixpoint, the highest sparse graph",
            1.0,
            sparse,
        ),
        below("reduction / fixpoint, the highest tail", 1.0, tails),
        at_most("reduction / fixpoint, the highest graph", 1.1, all),
        within("reduction, the slowest found", 0.001, slowest),
    ]
}

/// The bar of decoding.
fn decoding(decodings: &Decodings) -> Vec<Bar> {
    let highest = most(decodings.cases.iter().map(|case| case.ratio()));
    vec![at_most(
        "amendment list / edge list, a command, the highest",
        1.3,
        Some(highest),
    )]
}

/// A bar for a ratio that is not to be lower.
fn at_least(what: &str, number: f64, found: Option<f64>) -> Bar {
    Bar {
        side: AtLeast,
        ..at_most(what, number, found)
    }
}

/// A bar for a ratio that has to be lower.
fn below(what: &str, number: f64, found: Option<f64>) -> Bar {
    Bar {
        side: Below,
        ..at_most(what, number, found)
    }
}

/// A bar for a ratio that is not to be higher.
fn at_most(what: &str, number: f64, found: Option<f64>) -> Bar {
    Bar {
        what: what.to_string(),
        side: AtMost,
        number,
        found,
        text: ratio,
    }
}

/// A bar for a time.
fn within(what: &str, seconds: f64, found: Option<f64>) -> Bar {
    Bar {
        text: milliseconds_unit,
        ..at_most(what, seconds, found)
    }
}

/// A number of every graph for threshold 0; none where one does not have it.
fn all(results: &Results, of: fn(&Case) -> Option<f64>) -> Option<Vec<f64>> {
    results.cases().map(of).collect()
}

/// The seconds of the slowest trap; without end where one has no time.
fn trap(results: &Results, call: Call) -> Option<f64> {
    let traps = results.traps.iter().filter(|trap| trap.call == call);
    Some(most(traps.map(|trap| {
        *trap.seconds.as_ref().unwrap_or(&f64::INFINITY)
    })))
}

fn most(values: impl IntoIterator<Item = f64>) -> f64 {
    values.into_iter().fold(0.0, f64::max)
}

fn least(values: impl IntoIterator<Item = f64>) -> f64 {
    values.into_iter().fold(f64::INFINITY, f64::min)
}
