//! Trials of edge lists: decode, encode and both in turn.

use super::arrays::{any_graph, graph_array, room, same};
use super::expect::{self, graph_of, words};
use super::kinds::{count_masked, MASKED};
use super::list_notes::{each_noted, note_decoded};
use super::tally::{each_case, hex, hex_words, Tally};
use crate::generate::{
    amendment_list, damaged, damaged_amendments, edge_list, longest, mutated,
    random_amendment_list, random_bytes, scrambled, Damage, Rng, AMENDMENT_REFUSALS, REFUSALS,
};
use crate::interface::{self, noise, GRAPH_WORDS};
use crate::reference::{self, SignedGraph};

/// How amendment lists are made; each has to come up.
const MADE: [&str; 6] = [
    "amendment lists made for a graph",
    "amendment lists damaged on purpose",
    "amendment lists mutated",
    "amendment lists at random",
    "random bytes behind the opening 11",
    "lists with the other opening",
];

/// A list of any kind. One that was made for a graph or for a refusal must be what it was made for, by the reference.
fn any_list(rng: &mut Rng, tally: &mut Tally) -> Result<Vec<u8>, String> {
    match rng.below(16) {
        0 | 1 => made_for(edge_list(rng)),
        2 | 3 => {
            let aim = rng.pick(&REFUSALS);
            tally.count("damaged on purpose");
            made_to_fail(damaged(rng, aim))
        }
        4 => {
            let bytes = edge_list(rng).1;
            Ok(mutated(rng, bytes))
        }
        5..=7 => {
            let bytes = random_bytes(rng);
            tally.add(MADE[4], u64::from(bytes.first() == Some(&0x11)));
            Ok(bytes)
        }
        8 => {
            let mut bytes = any_list(rng, tally)?;
            tally.count(MADE[5]);
            other_opening(&mut bytes);
            Ok(bytes)
        }
        _ => any_amendment_list(rng, tally),
    }
}

/// An amendment list of any kind.
fn any_amendment_list(rng: &mut Rng, tally: &mut Tally) -> Result<Vec<u8>, String> {
    match rng.below(7) {
        0 | 1 => {
            tally.count(MADE[0]);
            made_for(amendment_list(rng))
        }
        2..=4 => {
            let aim = rng.pick(&AMENDMENT_REFUSALS);
            tally.count(MADE[1]);
            made_to_fail(damaged_amendments(rng, aim))
        }
        5 => {
            let bytes = amendment_list(rng).1;
            tally.count(MADE[2]);
            Ok(mutated(rng, bytes))
        }
        _ => {
            tally.count(MADE[3]);
            Ok(random_amendment_list(rng))
        }
    }
}

/// The list of a graph, which the reference decodes to it.
fn made_for((graph, list): (SignedGraph, Vec<u8>)) -> Result<Vec<u8>, String> {
    if reference::decode(&list) == Ok(graph) {
        Ok(list)
    } else {
        Err(format!(
            "the reference decodes {} to another graph",
            hex(&list)
        ))
    }
}

/// The damaged list, which the reference refuses as it was meant to be.
fn made_to_fail(damage: Damage) -> Result<Vec<u8>, String> {
    let refused = reference::decode(&damage.bytes).err();
    if refused != Some((damage.refusal, damage.place)) {
        return Err(format!(
            "{} was made for {} at {}, and the reference says {refused:?}",
            hex(&damage.bytes),
            damage.refusal,
            damage.place
        ));
    }
    Ok(damage.bytes)
}

/// Changes the opening of a list, where it has one, to the other one.
fn other_opening(list: &mut [u8]) {
    if let Some(opening @ (0x10 | 0x11)) = list.first_mut() {
        *opening ^= 1;
    }
}

pub fn decode(seed: u64, amount: u64) -> Result<Tally, String> {
    let tally = each_case("decode", seed, amount, |rng, tally| {
        let bytes = any_list(rng, tally)?;
        let graph = room(rng, GRAPH_WORDS);
        let answer = room(rng, 1);
        let must = expect::decode(&bytes, &graph, &answer);
        note_decoded(tally, &bytes, &must);
        let left = interface::decode(rng, &bytes, &graph, &answer);
        same(|| format!("decode {}", hex(&bytes)), left, &must)
    })?;
    each_noted(&tally)?;
    tally.each_counted(&MADE)?;
    Ok(tally)
}

/// The longest canonical form.
pub const LONGEST: usize = 6179;

/// Calls on a graph with the longest form that have to come up: the bytes of room, and how they are noted.
const ROOMS: [(usize, &str); 3] = [
    (LONGEST - 1, "one byte short of the longest form"),
    (LONGEST, "just right for the longest form"),
    (LONGEST + 1, "over the longest form"),
];

/// Notes the room that a form of so many bytes has, where it is the longest.
fn note_room(tally: &mut Tally, form: usize, length: usize) {
    for (room, note) in ROOMS {
        if form == LONGEST && length == room {
            tally.count(note);
        }
    }
}

/// A buffer's length around that of a canonical form, or any.
fn length_for_form(rng: &mut Rng, form: usize) -> usize {
    match rng.below(6) {
        0 => form,
        1 => form - 1,
        2 => form + rng.length(1, 40),
        3 => rng.length(0, form),
        4 => rng.pick(&[0, 1, 2, 3]),
        _ => rng.pick(&[LONGEST, LONGEST + 1]),
    }
}

pub fn encode(seed: u64, amount: u64) -> Result<Tally, String> {
    let tally = each_case("encode", seed, amount, |rng, tally| {
        let graph = if rng.chance(4) {
            longest(rng)
        } else {
            any_graph(rng)
        };
        let form = reference::encode(&graph, &mut [0; LONGEST]).unwrap_or(100);
        let length = length_for_form(rng, form);
        let array = graph_array(rng, &graph);
        let out: Vec<u8> = noise(rng, length);
        let answer = room(rng, 1);
        let must = expect::encode(&array, &out, &answer);
        tally.count_number(must.number);
        if matches!(must.number, 0 | 13) {
            count_masked(tally, &graph);
            note_room(tally, form, length);
        }
        let left = interface::encode(rng, &array, &out, &answer);
        same(
            || format!("encode {} into {length:x}", hex_words(&array)),
            left,
            &must,
        )
    })?;
    tally.each_refused(&[10, 13, 101, 102])?;
    tally.each_counted(&MASKED)?;
    tally.each_counted(&ROOMS.map(|(_, note)| note))?;
    Ok(tally)
}

/// A graph encoded reads back as itself, and an accepted list read and written becomes the canonical form of its graph.
pub fn round_trip(seed: u64, amount: u64) -> Result<Tally, String> {
    let tally = each_case("round_trip", seed, amount, |rng, tally| {
        let (graph, list) = edge_list(rng);
        count_masked(tally, &graph);
        let read = interface::decode(rng, &list, &[0; GRAPH_WORDS], &[7])?;
        if read.number != 0 || graph_of(&read.graph) != graph {
            return Err(format!("decode {} gives another graph", hex(&list)));
        }
        let form = interface::encode(rng, &read.graph, &[0xaa; LONGEST + 9], &[7])?;
        let length = form.answer[0] as usize;
        let canonical = form.out[..length].to_vec();
        let again = interface::decode(rng, &canonical, &[1; GRAPH_WORDS], &[7])?;
        if form.number != 0 || again.number != 0 || again.graph != words(&graph) {
            return Err(format!("encode {} does not read back", hex(&list)));
        }
        // Another order of the same commands has the same canonical form.
        let other = scrambled(rng, &graph);
        let other = interface::decode(rng, &other, &[0; GRAPH_WORDS], &[7])?;
        let other = interface::encode(rng, &other.graph, &[0xaa; LONGEST + 9], &[7])?;
        if other != form {
            return Err(format!("{} has two canonical forms", hex(&list)));
        }
        tally.add("canonical bytes", length as u64);
        Ok(())
    })?;
    tally.each_counted(&MASKED)?;
    Ok(tally)
}
