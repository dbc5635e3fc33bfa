//! The trials: each compares one part of the library with the reference over many generated cases.

mod amendments;
mod amendments_by_hand;
mod arrays;
mod by_hand;
mod child;
mod cut_inputs;
mod expect;
mod guards;
mod header;
mod kinds;
mod list_notes;
mod long_amendments;
mod many_groups;
mod masked;
mod masked_by_hand;
mod page_lists;
mod program;
mod reference;
mod replay;
mod stack;
mod streams;
mod symbols;
mod tally;
mod traps;
mod usage;
mod with_counts;
mod with_graphs;
mod with_lists;
mod with_pages;
mod worked;

pub use expect::words;
pub use tally::{panicked, Tally};

/// A trial: its name, how many cases it has by default, and what runs it from a seed.
pub struct Trial {
    pub name: &'static str,
    pub amount: u64,
    pub run: fn(u64, u64) -> Result<Tally, String>,
}

const fn trial(
    name: &'static str,
    amount: u64,
    run: fn(u64, u64) -> Result<Tally, String>,
) -> Trial {
    Trial { name, amount, run }
}

/// All trials; the longest come first, so that two threads share the work evenly.
pub const TRIALS: [Trial; 29] = [
    trial("program", 6_000, program::run),
    trial("reduce", 150_000, with_graphs::reduce),
    trial("page_lists", 30_000, page_lists::run),
    trial("many_groups", 60, many_groups::run),
    trial("traps", 5, traps::run),
    trial("list_page", 100_000, with_pages::list_page),
    trial("largest", 40_000, with_pages::largest),
    trial("reference", 3_000, reference::run),
    trial("classify", 150_000, with_graphs::classify),
    trial("masked", 10_000, masked::run),
    trial("streams", 1, streams::run),
    trial("count", 40_000, with_counts::count),
    trial("decode", 150_000, with_lists::decode),
    trial("amendments", 6_000, amendments::run),
    trial("long_amendments", 5, long_amendments::run),
    trial("stack", 3_000, stack::run),
    trial("encode", 60_000, with_lists::encode),
    trial("count_many", 5, with_counts::count_many),
    trial("count_lengths", 60, with_counts::count_lengths),
    trial("round_trip", 60_000, with_lists::round_trip),
    trial("new", 40_000, with_graphs::new),
    trial("check_sound", 100_000, with_graphs::check_sound),
    trial("check_call", 100_000, with_graphs::check_call),
    trial("record_at", 100_000, with_pages::record_at),
    trial("worked", 1, worked::run),
    trial("usage", 1, usage::run),
    trial("header", 1, header::run),
    trial("symbols", 1, symbols::run),
    trial("guards", 10_000, guards::run),
];
