//! The trial of whole lists of page calls, as the third demand has them.

use super::expect::{self, graph_of, records, words};
use super::kinds::{count_kinds, KINDS};
use super::tally::{each_case, hex, Tally};
use crate::generate::{
    amended, buffer_length, graph, over_most, rich_graph, scrambled, unsound, Rng, UNSOUND_KINDS,
};
use crate::interface::{self, noise, Place, GRAPH_WORDS};
use crate::reference::{comes_before, groups};

/// A list of calls as far as it has gone.
struct Listing {
    k: u64,
    /// The graph S and S reduced for k, both made through the interface.
    graphs: [Vec<u64>; 2],
    groups: Vec<(u64, u64)>,
    /// The bookmark that the last call returned.
    at: Place,
    /// Record places of all pages not refused.
    places: u64,
    joined: Vec<u8>,
}

/// Lists of calls that begin with an amendment list.
const AMENDED: &str = "amendment lists";

pub fn run(seed: u64, amount: u64) -> Result<Tally, String> {
    let tally = each_case("page_lists", seed, amount, |rng, tally| {
        let graph = if rng.chance(50) {
            rich_graph(rng)
        } else {
            graph(rng)
        };
        let list = if rng.chance(30) {
            tally.count(AMENDED);
            amended(rng, &graph)
        } else {
            scrambled(rng, &graph)
        };
        let any = rng.below(33);
        let k = rng.pick(&[0, 0, 0, 0, 0, 0, 1, 1, 1, 1, 2, 2, 3, 4, 32, any]);
        one_list(rng, tally, &list, k)
            .map_err(|fault| format!("list {} k {k:x}: {fault}", hex(&list)))
    })?;
    tally.each_refused(&[10, 11, 101, 102, 103])?;
    tally.each_counted(&KINDS)?;
    tally.each_counted(&[AMENDED])?;
    Ok(tally)
}

fn one_list(rng: &mut Rng, tally: &mut Tally, list: &[u8], k: u64) -> Result<(), String> {
    let mut listing = begin(rng, list, k)?;
    count_kinds(tally, &graph_of(&listing.graphs[0]), k);
    let short_pages = rng.chance(50);
    for _ in 0..rng.below(16) {
        let length = if short_pages {
            rng.length(0, 70)
        } else {
            buffer_length(rng)
        };
        match rng.below(8) {
            0 => refused_call(rng, tally, &mut listing, length)?,
            1 => mistaken_call(rng, tally, &mut listing, length)?,
            _ => page_call(rng, tally, &mut listing, length)?,
        }
    }
    let total = (listing.groups.len() as u64).min(listing.places) as usize;
    if listing.joined != records(&listing.groups[..total]) {
        return Err(format!("joined records are {}", hex(&listing.joined)));
    }
    tally.add("records", total as u64);
    largest_call(rng, tally, &listing)
}

/// Reads the list and reduces its graph through the interface.
fn begin(rng: &mut Rng, list: &[u8], k: u64) -> Result<Listing, String> {
    let empty: Vec<u64> = noise(rng, GRAPH_WORDS);
    let read = interface::decode(rng, list, &empty, &[9])?;
    let reduced = interface::reduce(rng, &read.graph, k, &empty, &[9])?;
    let graph = crate::reference::decode(list).map_err(|refusal| format!("{refusal:?}"))?;
    if read.number != 0 || read.graph != words(&graph) {
        return Err("the list is read as another graph".to_string());
    }
    if reduced != expect::reduce(&read.graph, k, &empty, &[9]) {
        return Err("the graph is reduced to another, or with other looks".to_string());
    }
    Ok(Listing {
        k,
        groups: groups(&graph, k),
        graphs: [read.graph, reduced.graph],
        at: (0, 0),
        places: 0,
        joined: Vec::new(),
    })
}

/// A call that is not refused: with S or S reduced.
fn page_call(
    rng: &mut Rng,
    tally: &mut Tally,
    listing: &mut Listing,
    length: usize,
) -> Result<(), String> {
    let graph = rng.below(2) as usize;
    let out: Vec<u8> = noise(rng, length);
    let answer: Vec<u64> = noise(rng, 4);
    let graph = &listing.graphs[graph];
    let page = interface::list_page(rng, graph, listing.k, listing.at, &out, &answer)?;
    let written = page.answer[0].saturating_mul(16) as usize;
    let all = listing.groups.len() as u64;
    listing.places += length as u64 / 16;
    if page.number != 0 || written > length || page.out[written..] != out[written..] {
        return Err(format!("page {page:x?} into {length:x} bytes"));
    }
    listing.joined.extend(&page.out[..written]);
    let finished = listing.places >= all;
    let due = records(&listing.groups[..listing.places.min(all) as usize]);
    if listing.joined != due || page.answer[1] != u64::from(!finished) {
        return Err(format!("page {page:x?} of {all:x} groups"));
    }
    if written > 0 {
        let (left, right) = listing.groups[due.len() / 16 - 1];
        listing.at = (1, left | right);
    }
    if (page.answer[2], page.answer[3]) != listing.at {
        return Err(format!("page {page:x?} has another bookmark"));
    }
    tally.count("pages");
    tally.add("pages finished", finished.into());
    Ok(())
}

/// A call refused for its graph, its threshold or both: it says more and gives its bookmark back.
fn refused_call(
    rng: &mut Rng,
    tally: &mut Tally,
    listing: &mut Listing,
    length: usize,
) -> Result<(), String> {
    let kind = rng.below(UNSOUND_KINDS);
    let broken = words(&unsound(rng, kind));
    let (graph, k, number) = match rng.below(4) {
        0 | 1 => (&listing.graphs[rng.below(2) as usize], over_most(rng), 11),
        2 => (&broken, rng.below(33), 10),
        _ => (&broken, over_most(rng), 10),
    };
    let out: Vec<u8> = noise(rng, length);
    let answer: Vec<u64> = noise(rng, 4);
    let page = interface::list_page(rng, graph, k, listing.at, &out, &answer)?;
    let given_back = [0, 1, listing.at.0, listing.at.1];
    if page.number != number || page.out != out || page.answer != given_back {
        return Err(format!("refused {number} is {page:x?}"));
    }
    tally.count_number(number);
    Ok(())
}

/// A call that the interface itself refuses: nothing changes, the answer neither.
fn mistaken_call(
    rng: &mut Rng,
    tally: &mut Tally,
    listing: &mut Listing,
    length: usize,
) -> Result<(), String> {
    let number = rng.between(101, 103);
    let graph_words = if number == 101 {
        rng.length(0, GRAPH_WORDS - 1)
    } else {
        GRAPH_WORDS
    };
    // A fault with a higher number may come along: the lowest is returned.
    let answer_words = if number == 102 || (number == 101 && rng.chance(50)) {
        rng.length(0, 3)
    } else {
        4
    };
    let kind = if number == 103 || rng.chance(30) {
        rng.pick(&[2, 3, 1 << 32, u64::MAX])
    } else {
        listing.at.0
    };
    let out: Vec<u8> = noise(rng, length);
    let answer: Vec<u64> = noise(rng, answer_words);
    let graph = &listing.graphs[0][..graph_words];
    let k = rng.pick(&[listing.k, 33, u64::MAX]);
    let page = interface::list_page(rng, graph, k, (kind, listing.at.1), &out, &answer)?;
    if page.number != number || page.out != out || page.answer != answer {
        return Err(format!("refused {number} is {page:x?}"));
    }
    tally.count_number(number);
    Ok(())
}

/// The largest group from S or S reduced: one of the list, and every other is smaller or as large and later.
fn largest_call(rng: &mut Rng, tally: &mut Tally, listing: &Listing) -> Result<(), String> {
    let graph = &listing.graphs[rng.below(2) as usize];
    let found = interface::largest(rng, graph, listing.k, &[7, 7])?;
    if listing.groups.is_empty() {
        if found.number != 12 || found.answer != [0, 0] {
            return Err(format!("no group, and the largest is {found:x?}"));
        }
        tally.count("without a group");
        return Ok(());
    }
    let largest = (found.answer[0], found.answer[1]);
    let set = largest.0 | largest.1;
    let behind = |&(left, right): &(u64, u64)| {
        let other = left | right;
        other == set
            || other.count_ones() < set.count_ones()
            || (other.count_ones() == set.count_ones() && comes_before(set, other))
    };
    let first = listing.groups.contains(&largest) && listing.groups.iter().all(behind);
    if found.number != 0 || !first {
        return Err(format!("the largest is {found:x?}"));
    }
    tally.count("with a largest group");
    Ok(())
}
