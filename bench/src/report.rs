//! The report of a run, in Markdown.

use crate::bars;
use crate::decoding::{Decodings, Growth};
use crate::masked::Page;
use crate::measure::{Case, THRESHOLDS};
use crate::reduction::Reductions;
use crate::results::{
    by_pages, counting_most, counting_one, nanoseconds_a_test, of_cliquer, of_mbcenum, of_mbcsear,
    over_igraph, slowest_page, Results,
};
use crate::table::{microseconds, milliseconds, nanoseconds, or_missing, ratio, Table};
use std::process::Command;

/// The whole report.
pub fn text(results: &Results) -> String {
    let counting_words = counting_words(results);
    let decoding_words = decoding_words(&results.decodings);
    let sections = [
        ("Bars", BARS, bars::table(results)),
        ("Listing, k = 0", LISTING, listing(results)),
        ("Largest, k = 0", LARGEST, largest(results)),
        ("Pages of 64 records, k = 0", PAGES, pages(results)),
        ("Counting, k = 0", &counting_words, counting(results)),
        ("Other thresholds", OTHERS, thresholds(results)),
        ("Masked vertices", MASKED, masked(&results.masked)),
        ("Reduction", REDUCTION, reduction(&results.reductions)),
        ("Decoding", &decoding_words, decoding(&results.decodings)),
        ("Traps", TRAPS, traps(results)),
    ];
    let mut text = format!("# Benchmark\n\n{INTRODUCTION}\n\n{}\n", machine());
    for (title, words, table) in sections {
        text += &section(title, words, &table);
    }
    text
}

/// The report of the reduction alone.
pub fn reduction_alone(reductions: &Reductions) -> String {
    let bars = section("Bars", "", &bars::reduction_table(reductions));
    bars + &section("Reduction", REDUCTION, &reduction(reductions))
}

/// The report of masked vertices alone.
pub fn masked_alone(pages: &[Page]) -> String {
    let bars = section("Bars", "", &bars::masked_table(pages));
    bars + &section("Masked vertices", MASKED, &masked(pages))
}

/// The report of decoding alone.
pub fn decoding_alone(decodings: &Decodings) -> String {
    let bars = section("Bars", "", &bars::decoding_table(decodings));
    let words = decoding_words(decodings);
    bars + &section("Decoding", &words, &decoding(decodings))
}

fn section(title: &str, words: &str, table: &Table) -> String {
    format!("\n## {title}\n\n{words}\n\n{}", table.text())
}

const INTRODUCTION: &str = "\
`make bench` writes this file. Times are CPU time of the thread, the best of several batches of calls of 2 milliseconds or
more; graphs of the peers are built beforehand. What the library and the peers find was compared in the same run.

Graphs have 64 vertices, three of each family. Uniform: edges of a density, signs at random. Two sides: hidden sides of 32,
edges of a density, one in twenty of them with the wrong sign. Positive: edges of a density. Moon-Moser: twelve triples with
no edge inside and all positive edges between them, and 28 vertices with no edge.";

const BARS: &str = "Means are geometric, over the graphs of a family and over families, for k = 0.";

const LISTING: &str = "\
Milliseconds. The library lists in order, in one call; MBCEnum* and igraph in no order. igraph works on the signed double
cover and only counts maximal cliques or hands each over; the ratio is to the faster way.";

const LARGEST: &str = "\
Milliseconds. cliquer works on the signed double cover.";

const PAGES: &str = "\
The whole listing by pages as a ratio to one call, and the slowest page in milliseconds, after any bookmark along the
listing, after random sets, beginnings of groups and single vertices.";

const COUNTING: &str = "\
Milliseconds; the listing is in one call, and was measured in turn with the counts. The sets are
subsets of the graph's groups, from one vertex to the whole group, and every fourth is a random set;
the 1 set is a subset of a group. A test is whether one set lies in one group: its time is what the
255 other sets add, divided by 255 and by the groups. Counts were compared with the listing.";

const OTHERS: &str = "\
Geometric means over the graphs of a family, in milliseconds; groups are those of the first graph.";

const MASKED: &str = "\
Microseconds. A page of a graph of 64 vertices with all edges, signs at random and every vertex masked, beside one of 64
vertices with no edge and nothing masked, in turn; neither has a group.";

const REDUCTION: &str = "\
Microseconds. The fixpoint looks at all vertices and edges in every round; like the call it first checks that the graph is
sound, and was measured without this too. It counts no looks. Of each family the graph and k with the highest ratio, and the
lowest ratio; k is 0, 1, 2, 3, 5, 8, 12 and 16, for a falling graph 2. Sparse: edges of a density, signs at random or
balanced by random sides. Path: through all vertices, or from a group through all others; its edges fall at once. Band, tube:
for k = 2 each edge needs two vertices beside it and has no more, so it falls round by round, from its ends or from the end
away from the group. Planted: a group with one sign in twenty wrong, over edges of 20 %. Slowest found: for each k up to 32 a
search changed a graph's edges at random, thousands of times, for more looks and rounds; this is the slowest of these graphs.";

const DECODING: &str = "\
Nanoseconds a command, all lists measured in turn. Graphs have 64 vertices, or 8 where it says so; signs and the order of the
commands are random. A processor can learn one list that is decoded over and over, and then foresee its commands; so 100
different ones were measured too. First the same commands in edge lists and in amendment lists. Then one amendment list, each
of its commands about two vertices chosen at random, which get an edge of a random sign or lose theirs; beside it as many
commands in edge lists of all edges. The graphs were compared with what the last command about each two vertices says.";

const TRAPS: &str = "\
Each call runs in a process of its own, which is ended at the limit.";

/// Where and when the run was.
fn machine() -> String {
    let processors = std::fs::read_to_string("/proc/cpuinfo").unwrap_or_default();
    let model = processors
        .lines()
        .find(|line| line.starts_with("model name"))
        .and_then(|line| line.split(':').nth(1))
        .map_or("unknown processor", str::trim);
    let cores = std::thread::available_parallelism().map_or(0, |cores| cores.get());
    let set = if cfg!(target_feature = "popcnt") {
        "with the instructions of this processor"
    } else {
        "for every x86-64 processor, as the library is"
    };
    let compiler = env!("COMPILER");
    let igraph = match env!("IGRAPH") {
        "" => "of an unknown version, or none",
        version => version,
    };
    [
        format!("- {}", today()),
        format!("- {model}, {cores} cores"),
        format!("- {compiler}; the peers in Rust are built {set}"),
        format!("- igraph {igraph}"),
    ]
    .join("\n")
}

fn today() -> String {
    let told = Command::new("date").args(["-u", "+%Y-%m-%d"]).output();
    let told = told.map(|told| told.stdout).unwrap_or_default();
    String::from_utf8_lossy(&told).trim().to_string()
}

/// A row for each graph for threshold 0, and one for the mean of each family.
fn by_graph<const N: usize>(
    results: &Results,
    table: &mut Table,
    row: impl Fn(&Case) -> [String; N],
    means: [Option<fn(&Case) -> Option<f64>>; N],
) {
    for family in &results.families {
        for (i, case) in family.at(0).enumerate() {
            table.row_of(&format!("{} ({})", family.name, i + 1), row(case));
        }
        let cells = means.map(|of| match of {
            Some(of) => or_missing(family.mean(of), ratio),
            None => String::new(),
        });
        table.row_of(&format!("{}, mean", family.name), cells);
    }
}

fn listing(results: &Results) -> Table {
    let mut table = Table::new(&[
        "Graph",
        "Groups",
        "Library",
        "MBCEnum*",
        "igraph, counting",
        "igraph, handing over",
        "library / MBCEnum*",
        "igraph / library",
    ]);
    let row = |case: &Case| {
        [
            case.groups.to_string(),
            milliseconds(case.list),
            milliseconds(case.mbcenum),
            or_missing(case.igraph.map(|igraph| igraph.count), milliseconds),
            or_missing(case.igraph.map(|igraph| igraph.callback), milliseconds),
            ratio(case.list / case.mbcenum),
            or_missing(over_igraph(case), ratio),
        ]
    };
    let means = [
        None,
        None,
        None,
        None,
        None,
        Some(of_mbcenum as _),
        Some(over_igraph as _),
    ];
    by_graph(results, &mut table, row, means);
    table
}

fn largest(results: &Results) -> Table {
    let mut table = Table::new(&[
        "Graph",
        "Vertices",
        "Library",
        "MBCSear-SSP*",
        "cliquer",
        "library / MBCSear-SSP*",
        "library / cliquer",
    ]);
    let row = |case: &Case| {
        [
            case.size.to_string(),
            milliseconds(case.largest),
            milliseconds(case.mbcsear),
            or_missing(case.cliquer, milliseconds),
            ratio(case.largest / case.mbcsear),
            or_missing(of_cliquer(case), ratio),
        ]
    };
    let means = [
        None,
        None,
        None,
        None,
        Some(of_mbcsear as _),
        Some(of_cliquer as _),
    ];
    by_graph(results, &mut table, row, means);
    table
}

fn pages(results: &Results) -> Table {
    let mut table = Table::new(&["Family", "by pages / one call", "Slowest page"]);
    for family in &results.families {
        let slowest = family.at(0).filter_map(slowest_page).fold(0.0, f64::max);
        table.row([
            family.name.to_string(),
            or_missing(family.mean(by_pages), ratio),
            milliseconds(slowest),
        ]);
    }
    table
}

/// The words about counting, with the families that take longest beside the listing.
fn counting_words(results: &Results) -> String {
    let highest = |of| match results.highest(of) {
        Some((family, mean)) => format!("{} ({family})", ratio(mean)),
        None => "not measured".to_string(),
    };
    let (one, most) = (highest(counting_one), highest(counting_most));
    format!("{COUNTING}\nThe highest family mean is {one} for 1 set,\nand {most} for 256 sets.")
}

fn counting(results: &Results) -> Table {
    let mut table = Table::new(&[
        "Graph",
        "Groups",
        "Listing",
        "1 set",
        "256 sets",
        "1 set / listing",
        "256 sets / listing",
        "nanoseconds / test",
    ]);
    let row = |case: &Case| {
        let counting = case.counting.as_ref();
        [
            case.groups.to_string(),
            or_missing(counting.map(|counting| counting.list), milliseconds),
            or_missing(counting.map(|counting| counting.one), milliseconds),
            or_missing(counting.map(|counting| counting.most), milliseconds),
            or_missing(counting_one(case), ratio),
            or_missing(counting_most(case), ratio),
            or_missing(nanoseconds_a_test(case), ratio),
        ]
    };
    let means = [
        None,
        None,
        None,
        None,
        Some(counting_one as _),
        Some(counting_most as _),
        Some(nanoseconds_a_test as _),
    ];
    by_graph(results, &mut table, row, means);
    table
}

fn thresholds(results: &Results) -> Table {
    let mut table = Table::new(&[
        "Family",
        "k",
        "Groups",
        "Listing",
        "MBCEnum*",
        "library / MBCEnum*",
        "Largest",
        "MBCSear-SSP*",
        "library / MBCSear-SSP*",
    ]);
    for family in &results.families {
        for &k in THRESHOLDS.iter().filter(|&&k| k > 0) {
            let mean = |of| family.mean_at(k, of);
            table.row([
                family.name.to_string(),
                k.to_string(),
                family
                    .at(k)
                    .next()
                    .map_or(0, |case| case.groups)
                    .to_string(),
                or_missing(mean(|case| Some(case.list)), milliseconds),
                or_missing(mean(|case| Some(case.mbcenum)), milliseconds),
                or_missing(mean(of_mbcenum), ratio),
                or_missing(mean(|case| Some(case.largest)), milliseconds),
                or_missing(mean(|case| Some(case.mbcsear)), milliseconds),
                or_missing(mean(of_mbcsear), ratio),
            ]);
        }
    }
    table
}

fn masked(pages: &[Page]) -> Table {
    let mut table = Table::new(&["k", "All masked", "No edge", "all masked / no edge"]);
    for page in pages {
        table.row([
            page.k.to_string(),
            microseconds(page.all_masked),
            microseconds(page.no_edge),
            ratio(page.ratio()),
        ]);
    }
    table
}

fn reduction(reductions: &Reductions) -> Table {
    let mut table = Table::new(&[
        "Family",
        "k",
        "Rounds",
        "Looks",
        "Library",
        "Fixpoint",
        "Fixpoint, no check",
        "library / fixpoint",
        "the lowest",
    ]);
    let families = reductions.families.iter();
    let worst = families.map(|family| (family.name, family.worst(), family.lowest()));
    let slowest = &reductions.slowest;
    for (name, case, lowest) in worst.chain([("slowest found", slowest, slowest.ratio())]) {
        table.row([
            name.to_string(),
            case.k.to_string(),
            case.looks.rounds.to_string(),
            case.looks.looks.to_string(),
            microseconds(case.library),
            microseconds(case.fixpoint),
            microseconds(case.unchecked),
            ratio(case.ratio()),
            ratio(lowest),
        ]);
    }
    table
}

/// The words about decoding, with what ten times the commands do to the time of one.
fn decoding_words(decodings: &Decodings) -> String {
    let line = |growth: &Growth| {
        let (kind, times) = (growth.kind, ratio(growth.amendment_lists));
        let edge_lists = ratio(growth.edge_lists);
        format!("{kind} {times}, edge lists beside them {edge_lists}")
    };
    let lines: Vec<String> = decodings.growths.iter().map(line).collect();
    let lines = lines.join(";\n");
    format!("{DECODING}\nA command where there are ten times as many, as a ratio to one where there are not:\n{lines}.")
}

fn decoding(decodings: &Decodings) -> Table {
    let mut table = Table::new(&[
        "Lists",
        "Commands",
        "Edge lists",
        "Amendment lists",
        "amendment / edge",
    ]);
    for case in &decodings.cases {
        table.row([
            case.name.clone(),
            case.commands.to_string(),
            nanoseconds(case.edge_lists),
            nanoseconds(case.amendment_lists),
            ratio(case.ratio()),
        ]);
    }
    table
}

fn traps(results: &Results) -> Table {
    let mut table = Table::new(&["Trap", "Call", "Milliseconds"]);
    for trap in &results.traps {
        let time = match &trap.seconds {
            Ok(seconds) => milliseconds(*seconds),
            Err(fault) => fault.clone(),
        };
        table.row([trap.name.clone(), trap.call.name().to_string(), time]);
    }
    table
}
