//! Times the library and its peers on the same graphs, and compares what they find.

mod bars;
mod clock;
mod counting;
mod decoding;
mod families;
mod library;
mod masked;
mod measure;
mod options;
mod pages;
mod peers;
mod reduction;
mod report;
mod results;
mod small;
mod table;
mod traps;
mod verdict;

use families::FAMILIES;
use measure::{Bench, Purpose, THRESHOLDS};
use options::Part;
use results::{Measured, Results};
use std::path::Path;
use std::process::ExitCode;
use verdict::Verdict;

/// The thresholds that are compared where nothing is timed.
const CHECKED_THRESHOLDS: [u64; 2] = [0, 2];

fn main() -> ExitCode {
    let options = match options::read(std::env::args().skip(1)) {
        Ok(options) => options,
        Err(message) => {
            eprintln!("{message}");
            return ExitCode::from(2);
        }
    };
    if let Some((i, call)) = options.trap {
        traps::print_one(i, call);
        return ExitCode::SUCCESS;
    }
    let purpose = if options.check {
        Purpose::Comparing
    } else {
        Purpose::Timing
    };
    let mut bench = Bench::new(purpose);
    match options.only {
        Some(Part::Reduction) => {
            let reductions = reduction::measure(&mut bench);
            if purpose == Purpose::Timing {
                print!("{}", report::reduction_alone(&reductions));
            }
        }
        Some(Part::Masked) => {
            let pages = masked::measure(&mut bench);
            if purpose == Purpose::Timing {
                print!("{}", report::masked_alone(&pages));
            }
        }
        Some(Part::Decoding) => {
            let decodings = decoding::measure(&mut bench);
            if purpose == Purpose::Timing {
                print!("{}", report::decoding_alone(&decodings));
            }
        }
        None => {
            let results = run(&mut bench, options.trap_limit);
            if purpose == Purpose::Timing {
                write(&report::text(&results));
            }
        }
    }
    let Verdict { passed, failed } = bench.verdict;
    println!("{passed} passed, {failed} failed");
    if failed > 0 {
        ExitCode::FAILURE
    } else {
        ExitCode::SUCCESS
    }
}

/// Measures all families, masked vertices, reductions, the decoding of lists and traps; where nothing is timed, families with
/// masked vertices too.
fn run(bench: &mut Bench, trap_limit: f64) -> Results {
    let thresholds = match bench.purpose {
        Purpose::Timing => &THRESHOLDS[..],
        Purpose::Comparing => &CHECKED_THRESHOLDS[..],
    };
    small::compare(&mut bench.verdict);
    let mut measured = Vec::new();
    for family in &FAMILIES {
        let mut cases = Vec::new();
        for i in bench.purpose.graphs() {
            let name = format!("{} ({})", family.name, i + 1);
            cases.push(bench.graph(&name, &family.graph(i), thresholds));
            if bench.purpose == Purpose::Comparing {
                let name = format!("{name}, a quarter masked");
                bench.graph(&name, &family.masked(i), thresholds);
            }
        }
        measured.push(Measured {
            name: family.name,
            graphs: cases,
        });
    }
    Results {
        families: measured,
        masked: masked::measure(bench),
        reductions: reduction::measure(bench),
        decodings: decoding::measure(bench),
        traps: traps::measure(trap_limit, &mut bench.verdict),
    }
}

/// Prints the report and puts it beside the package's sources.
fn write(report: &str) {
    print!("{report}");
    let file = Path::new(env!("CARGO_MANIFEST_DIR")).join("RESULTS.md");
    std::fs::write(&file, report).expect("the report can be written");
}
