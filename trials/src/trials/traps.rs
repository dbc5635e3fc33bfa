//! The trial of the traps: graphs on which a search without the right prunes does not end, with answers that are known.

use super::expect::words;
use super::many_groups::compare;
use super::tally::{each_case, Tally};
use crate::generate::{small_traps, traps, Rng, Trap};
use crate::interface;
use crate::reference::{self, groups};

/// The bytes of a page, three records.
const PAGE: usize = 48;

pub fn run(seed: u64, amount: u64) -> Result<Tally, String> {
    each_case("traps", seed, amount, |rng, tally| {
        for trap in with_others(rng, small_traps) {
            known(&trap).map_err(|fault| format!("{}: {fault}", trap.name))?;
            tally.count("small");
        }
        for trap in with_others(rng, traps) {
            for trap in [trap.all_masked(), trap] {
                one_trap(rng, &trap).map_err(|fault| format!("{}: {fault}", trap.name))?;
                tally.count("traps");
            }
        }
        Ok(())
    })
}

/// Traps, and traps of the same kinds among isolated and among masked vertices.
fn with_others(rng: &mut Rng, made: fn(&mut Rng) -> Vec<Trap>) -> Vec<Trap> {
    let mut all = made(rng);
    let others = made(rng);
    all.extend(others.into_iter().map(|trap| trap.among_isolated(rng)));
    let others = made(rng);
    all.extend(others.into_iter().map(|trap| trap.among_masked(rng)));
    all
}

/// Holds what is known of a small trap to the reference.
fn known(trap: &Trap) -> Result<(), String> {
    let all = groups(&trap.graph, trap.k);
    if trap.groups.as_ref().is_some_and(|known| *known != all) {
        return Err("it has other groups".to_string());
    }
    let largest = reference::largest(&trap.graph, trap.k).unwrap_or((0, 0));
    if largest != trap.largest {
        return Err(format!("the largest is {largest:x?}"));
    }
    // A trap without groups is one for its threshold alone.
    if all.is_empty() && groups(&trap.graph, trap.k - 1).is_empty() {
        return Err("there is no group for a lower threshold".to_string());
    }
    Ok(())
}

fn one_trap(rng: &mut Rng, trap: &Trap) -> Result<(), String> {
    let graph = words(&trap.graph);
    if let Some(groups) = &trap.groups {
        return compare(rng, &graph, trap.k, groups, PAGE);
    }
    let largest = interface::largest(rng, &graph, trap.k, &[7, 7])?;
    if largest.number != 0 || largest.answer != [trap.largest.0, trap.largest.1] {
        return Err(format!("the largest is {largest:x?}"));
    }
    Ok(())
}
