//! The trial of long amendment lists, up to hundreds of thousands of commands, against the reference: whole, and with each
//! fault that can stand near the end of a list.

use super::arrays::same;
use super::expect;
use super::replay::Replay;
use super::tally::{each_case, hex, Tally};
use crate::generate::{damaged_behind, random_amendments, Rng};
use crate::interface::{self, noise, GRAPH_WORDS};
use crate::reference::decode;

/// The faults that can stand there.
const REFUSALS: [u64; 6] = [3, 4, 5, 6, 8, 9];

pub fn run(seed: u64, amount: u64) -> Result<Tally, String> {
    let tally = each_case("long_amendments", seed, amount, |rng, tally| {
        let n = rng.pick(&[2, 3, 9, 36, 63, 64, 64, 64]);
        let number = rng.length(100_000, 400_000);
        let list = random_amendments(rng, n, number);
        tally.add("commands", number as u64);
        let whole = [&list[..], &[0xff]].concat();
        if decode(&whole) != Ok(Replay::new(&whole).graph) {
            return Err("the commands give another graph one by one".to_string());
        }
        compare(rng, tally, &whole)?;
        for refusal in REFUSALS {
            let damage = damaged_behind(rng, refusal, list.clone());
            let refused = decode(&damage.bytes).err();
            if refused != Some((refusal, damage.place)) {
                return Err(format!(
                    "made for {refusal}, the reference says {refused:?}"
                ));
            }
            compare(rng, tally, &damage.bytes)?;
        }
        Ok(())
    })?;
    tally.each_refused(&REFUSALS)?;
    Ok(tally)
}

/// The bytes of a list that a message shows.
const SHOWN: usize = 40;

/// Holds the library to the reference on a list.
fn compare(rng: &mut Rng, tally: &mut Tally, list: &[u8]) -> Result<(), String> {
    let graph: Vec<u64> = noise(rng, GRAPH_WORDS);
    let must = expect::decode(list, &graph, &[7]);
    tally.count_number(must.number);
    let left = interface::decode(rng, list, &graph, &[7]);
    let call = || {
        let end = hex(&list[list.len() - SHOWN..]);
        format!("decode {} bytes that end in {end}", list.len())
    };
    same(call, left, &must)
}
