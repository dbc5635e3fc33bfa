//! The trial of the library's symbols: it defines the functions of the header, needs two from a linker, and can hold no state.

use super::header;
use super::tally::Tally;
use std::path::Path;
use std::process::Command;

/// What the library takes from others.
const SUPPLIED: [&str; 2] = ["memcpy", "memset"];

pub fn run(_seed: u64, _amount: u64) -> Result<Tally, String> {
    let file = Path::new(env!("CARGO_MANIFEST_DIR")).join("../target/staticlib/libmastpickle.a");
    let output = Command::new("nm").arg(file).output();
    let output = output.map_err(|fault| format!("nm: {fault}"))?;
    let symbols = String::from_utf8_lossy(&output.stdout).into_owned();
    // A line ends in the kind and the name; others name a part of the archive.
    let symbols = symbols.lines().filter_map(|line| line.rsplit_once(' '));
    let (mut defined, mut supplied) = (Vec::new(), Vec::new());
    let mut tally = Tally::default();
    for (front, name) in symbols {
        match front.split_whitespace().last().unwrap_or("") {
            "T" => defined.push(name),
            "U" => supplied.push(name),
            // Code and constants of the library's own.
            "t" | "r" => {}
            kind => return Err(format!("{name} is of kind {kind}")),
        }
        tally.cases += 1;
    }
    defined.sort();
    supplied.sort();
    let mut functions = header::FUNCTIONS.map(|(name, _)| format!("mastpickle_{name}"));
    functions.sort();
    if defined != functions {
        return Err(format!("the library defines {defined:?}"));
    }
    if supplied != SUPPLIED {
        return Err(format!("a linker has to supply {supplied:?}"));
    }
    Ok(tally)
}
