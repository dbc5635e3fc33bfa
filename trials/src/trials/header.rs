//! The trial of include/mastpickle.h: its numbers are those that the other trials count on, it declares every function, and it
//! has a version.

use super::tally::Tally;
use std::path::Path;

const NUMBERS: [(&str, u64); 37] = [
    ("GRAPH_WORDS", 130),
    ("RECORD_BYTES", 16),
    ("LONGEST_EDGE_LIST", 6179),
    ("MOST_SETS", 256),
    ("STACK_BYTES", 61_440),
    ("NO_OPENING", 1),
    ("TOO_MANY_VERTICES", 2),
    ("UNKNOWN_COMMAND", 3),
    ("TRUNCATED", 4),
    ("OUT_OF_RANGE", 5),
    ("LOOP", 6),
    ("REPEATED", 7),
    ("UNCLOSED", 8),
    ("TRAILING_BYTES", 9),
    ("MASKED_TWICE", 15),
    ("UNSOUND", 10),
    ("THRESHOLD_TOO_LARGE", 11),
    ("NO_GROUP", 12),
    ("BUFFER_TOO_SHORT", 13),
    ("TOO_MANY_SETS", 14),
    ("SHORT_GRAPH", 101),
    ("SHORT_ANSWER", 102),
    ("NO_BOOKMARK", 103),
    ("START", 0),
    ("AFTER", 1),
    ("FINISHED", 0),
    ("MORE", 1),
    ("NO_VERDICT", 0),
    ("EMPTY", 1),
    ("VERTEX_OUT_OF_RANGE", 2),
    ("MISSING_EDGE", 3),
    ("UNBALANCED", 4),
    ("TOO_SMALL", 5),
    ("EXTENSIBLE", 6),
    ("GROUP", 7),
    ("ALONE", 8),
    ("MASKED", 9),
];

/// The one definition that is no number.
const VERSION: &str = "VERSION";

/// The most columns that a line of the header has.
const COLUMNS: usize = 100;

/// The functions, each with how many arguments it takes.
pub const FUNCTIONS: [(&str, usize); 11] = [
    ("new", 3),
    ("check_sound", 2),
    ("check_call", 3),
    ("decode", 6),
    ("encode", 6),
    ("classify", 6),
    ("reduce", 7),
    ("list_page", 9),
    ("largest", 5),
    ("record_at", 5),
    ("count", 7),
];

/// The header.
pub fn text() -> Result<String, String> {
    let file = Path::new(env!("CARGO_MANIFEST_DIR")).join("../include/mastpickle.h");
    std::fs::read_to_string(file).map_err(|fault| format!("the header: {fault}"))
}

pub fn run(_seed: u64, _amount: u64) -> Result<Tally, String> {
    let header = text()?;
    let numbers = numbers(&header)?;
    let functions = functions(&header);
    if numbers != NUMBERS.map(|(name, number)| (name.to_string(), number)) {
        return Err(format!("the header has the numbers {numbers:?}"));
    }
    if functions != FUNCTIONS.map(|(name, arguments)| (name.to_string(), arguments)) {
        return Err(format!("the header has the functions {functions:?}"));
    }
    version(&header)?;
    if let Some(line) = header.lines().find(|line| line.chars().count() > COLUMNS) {
        return Err(format!("over {COLUMNS} columns: {line}"));
    }
    let mut tally = Tally::default();
    tally.cases += (numbers.len() + functions.len()) as u64 + 2;
    Ok(tally)
}

/// What the header defines, in its order: a name and the word behind it.
fn definitions(header: &str) -> impl Iterator<Item = (&str, &str)> {
    header
        .lines()
        .filter_map(|line| line.strip_prefix("#define MASTPICKLE_"))
        .filter_map(|rest| rest.split_once(' '))
        .map(|(name, rest)| (name, rest.split_whitespace().next().unwrap_or("")))
}

/// The names and numbers that the header defines, in its order.
pub fn numbers(header: &str) -> Result<Vec<(String, u64)>, String> {
    definitions(header)
        .filter(|&(name, _)| name != VERSION)
        .map(|(name, word)| {
            let number = word.parse();
            let number = number.map_err(|_| format!("{name} {word} is no number"))?;
            Ok((name.to_string(), number))
        })
        .collect()
}

/// The version that the header defines.
pub fn version(header: &str) -> Result<&str, String> {
    definitions(header)
        .find(|&(name, _)| name == VERSION)
        .and_then(|(_, word)| word.strip_prefix('"')?.strip_suffix('"'))
        .filter(|version| version.split('.').flat_map(str::parse::<u32>).count() == 3)
        .ok_or_else(|| format!("the header has no {VERSION} of three numbers"))
}

/// The functions that the header declares, in its order.
fn functions(header: &str) -> Vec<(String, usize)> {
    header
        .split("uint64_t mastpickle_")
        .skip(1)
        .filter_map(|rest| {
            let (name, rest) = rest.split_once('(')?;
            let (arguments, _) = rest.split_once(");")?;
            Some((name.to_string(), arguments.split(',').count()))
        })
        .collect()
}
