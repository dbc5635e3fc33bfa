//! The trial of amendment lists by what holds between calls of the library, without the reference: the same commands behind
//! both openings, changes that have no effect, and canonical forms.

use super::amendments_by_hand::{self, Decoded};
use super::expect::{graph_of, words};
use super::kinds::{count_masked, MASKED};
use super::replay::{commands_of, named_by, Replay, AMENDED};
use super::tally::{each_case, hex, Tally};
use super::with_lists::LONGEST;
use crate::generate::{
    amended, amendment_list, closed, damaged, damaged_amendments, edge_list, graph, mutated,
    random_amendment_list, random_bytes, scrambled, Rng, AMENDMENT_REFUSALS, EDGE_COMMANDS,
    OPENINGS, REFUSALS,
};
use crate::interface::{self, noise, Outcome, GRAPH_WORDS};
use crate::reference::SignedGraph;
use std::collections::BTreeSet;

pub fn run(seed: u64, amount: u64) -> Result<Tally, String> {
    let mut rng = Rng::new(seed);
    amendments_by_hand::lists(|list| by_library(&mut rng, list))?;
    let tally = each_case("amendments", seed, amount, |rng, tally| {
        let list = any_list(rng);
        both_openings(rng, tally, &list).map_err(|fault| at(&list, fault))?;
        operands_alike(rng, tally, &list).map_err(|fault| at(&list, fault))?;
        let list = accepted(rng);
        Replay::new(&list).count(tally);
        without_effect(rng, tally, &list).map_err(|fault| at(&list, fault))?;
        one_form(rng, tally)
    })?;
    tally.each_counted(&AMENDED)?;
    tally.each_counted(&MASKED)?;
    tally.each_counted(&BOTH)?;
    tally.each_counted(&[IN_OPERANDS])?;
    Ok(tally)
}

/// A fault with its list.
fn at(list: &[u8], fault: String) -> String {
    format!("{}: {fault}", hex(list))
}

/// Decodes a list through the interface into an array with other contents.
fn decoded(rng: &mut Rng, list: &[u8]) -> Result<Outcome, String> {
    let graph: Vec<u64> = noise(rng, GRAPH_WORDS);
    interface::decode(rng, list, &graph, &[7])
}

/// What the library decodes a list to; a refused list leaves the graph of no vertices.
fn by_library(rng: &mut Rng, list: &[u8]) -> Result<Decoded, String> {
    let left = decoded(rng, list)?;
    match left.number {
        0 => Ok(Ok(graph_of(&left.graph))),
        _ if left.graph != [0; GRAPH_WORDS] => Err(at(list, "left a graph".to_string())),
        number => Ok(Err((number, left.answer[0] as usize))),
    }
}

/// A list of any kind, of a byte at least.
fn any_list(rng: &mut Rng) -> Vec<u8> {
    let list = match rng.below(10) {
        0 => edge_list(rng).1,
        1 | 2 => {
            let any = rng.pick(&REFUSALS);
            let aim = rng.pick(&[7, 15, any]);
            damaged(rng, aim).bytes
        }
        3 => {
            let aim = rng.pick(&AMENDMENT_REFUSALS);
            damaged_amendments(rng, aim).bytes
        }
        4..=6 => accepted(rng),
        7 | 8 => {
            let list = any_list(rng);
            mutated(rng, list)
        }
        _ => random_bytes(rng),
    };
    if list.is_empty() {
        vec![0x10]
    } else {
        list
    }
}

/// An amendment list that is accepted.
fn accepted(rng: &mut Rng) -> Vec<u8> {
    if rng.chance(40) {
        amendment_list(rng).1
    } else {
        random_amendment_list(rng)
    }
}

/// What the same commands are under both openings; each has to come up.
const BOTH: [&str; 5] = [
    "accepted under both openings",
    "refused alike under both openings",
    "refused with 7 under 10 alone",
    "refused with 15 under 10 alone",
    "with 24 under 11 alone",
];

/// The same bytes behind both openings. What 10 accepts, 11 accepts as the same graph. What 10 refuses, 11 refuses alike,
/// but that it goes on behind a command that gives or masks again, and does not stop at 24 for being unknown.
fn both_openings(rng: &mut Rng, tally: &mut Tally, list: &[u8]) -> Result<(), String> {
    let [once, amending] = OPENINGS.map(|opening| [&[opening], &list[1..]].concat());
    let (once, amending) = (decoded(rng, &once)?, decoded(rng, &amending)?);
    let place = once.answer[0] as usize;
    let goes_on =
        |length: usize| amending.number == 0 || amending.answer[0] as usize >= place + length;
    let (right, kind) = match (once.number, list.get(place)) {
        (0, _) => (amending == once, 0),
        (7, _) => (goes_on(3), 2),
        (15, _) => (goes_on(2), 3),
        (3, Some(0x24)) if [4, 5, 6].contains(&amending.number) => (goes_on(0), 4),
        (3, Some(0x24)) => (goes_on(3), 4),
        _ => (amending == once, 1),
    };
    if !right || [7, 15].contains(&amending.number) {
        return Err(format!("{once:x?} with 10, {amending:x?} with 11"));
    }
    tally.count(BOTH[kind]);
    Ok(())
}

/// Faults in the operands of commands that name a pair.
const IN_OPERANDS: &str = "faults in the operands of a pair";

/// Behind the opening 11, a fault in the operands of a command that names a pair is the same for all three of these commands.
fn operands_alike(rng: &mut Rng, tally: &mut Tally, list: &[u8]) -> Result<(), String> {
    let mut list = [&[0x11], &list[1..]].concat();
    let must = decoded(rng, &list)?;
    let place = must.answer[0] as usize;
    let names_pair = list.get(place).is_some_and(|it| EDGE_COMMANDS.contains(it));
    if !names_pair || ![4, 5, 6].contains(&must.number) {
        return Ok(());
    }
    for command in EDGE_COMMANDS {
        list[place] = command;
        let left = decoded(rng, &list)?;
        if left != must {
            return Err(format!("{left:x?} with {command:x}, not {must:x?}"));
        }
    }
    tally.count(IN_OPERANDS);
    Ok(())
}

/// Changes of an accepted amendment list that leave its graph as it is.
fn without_effect(rng: &mut Rng, tally: &mut Tally, list: &[u8]) -> Result<(), String> {
    let must = decoded(rng, list)?;
    if must.number != 0 {
        return Err(format!("refused: {must:x?}"));
    }
    count_masked(tally, &graph_of(&must.graph));
    let n = list[1].into();
    let commands = commands_of(list);
    let last = last_commands(&commands);
    let kept = last.iter().copied().filter(|command| command[0] != 0x24);
    let others = [
        closed(0x11, n, &one_again(rng, &commands)),
        closed(0x11, n, &all_again(rng, &commands)),
        closed(0x11, n, &last),
        closed(0x10, n, &kept.collect::<Vec<&[u8]>>()),
    ];
    for other in others {
        let left = decoded(rng, &other)?;
        if left != must {
            return Err(format!("{} gives {left:x?}", hex(&other)));
        }
    }
    all_erased(rng, list, must)
}

/// The commands, one of them twice in a row.
fn one_again<'a>(rng: &mut Rng, commands: &[&'a [u8]]) -> Vec<&'a [u8]> {
    let mut commands = commands.to_vec();
    if !commands.is_empty() {
        let i = rng.length(0, commands.len() - 1);
        commands.insert(i, commands[i]);
    }
    commands
}

/// The commands, each twice in a row, the second time with its operands in any order.
fn all_again(rng: &mut Rng, commands: &[&[u8]]) -> Vec<Vec<u8>> {
    let mut again = Vec::new();
    for &command in commands {
        let mut second = command.to_vec();
        if rng.chance(50) {
            second[1..].reverse();
        }
        again.extend([command.to_vec(), second]);
    }
    again
}

/// The last command on each pair and the last mask of each vertex.
fn last_commands<'a>(commands: &[&'a [u8]]) -> Vec<&'a [u8]> {
    let mut named = BTreeSet::new();
    let mut last: Vec<&[u8]> = commands
        .iter()
        .copied()
        .rev()
        .filter(|&command| named.insert(named_by(command)))
        .collect();
    last.reverse();
    last
}

/// With all pairs erased behind it, a list comes to a graph without an edge and with the same masked vertices.
fn all_erased(rng: &mut Rng, list: &[u8], before: Outcome) -> Result<(), String> {
    let n = list[1];
    let pairs = (0..n).flat_map(|a| (0..n).map(move |b| (a, b)));
    let erasures = pairs.filter(|(a, b)| a != b);
    let erasures: Vec<[u8; 3]> = erasures.map(|(a, b)| [0x24, a, b]).collect();
    let erased = [&list[..list.len() - 1], &erasures.concat(), &[0xff]].concat();
    let left = decoded(rng, &erased)?;
    let mut must = before;
    must.graph[1..GRAPH_WORDS - 1].fill(0);
    if left == must {
        Ok(())
    } else {
        Err(format!("with all pairs erased it gives {left:x?}"))
    }
}

/// All lists of one graph have one canonical form: those that open with 10 and with 11, and the form itself behind either
/// opening. It opens with 10.
fn one_form(rng: &mut Rng, tally: &mut Tally) -> Result<(), String> {
    let graph = graph(rng);
    let list = scrambled(rng, &graph);
    let one = form(rng, &list, &graph)?;
    let others = [
        amended(rng, &graph),
        amended(rng, &graph),
        [&[0x10], &one[1..]].concat(),
        [&[0x11], &one[1..]].concat(),
    ];
    for other in &others {
        if form(rng, other, &graph)? != one || one[0] != 0x10 {
            let [one, other] = [&one, other].map(|list| hex(list));
            return Err(format!("the canonical form of {other} is not {one}"));
        }
    }
    tally.add("canonical bytes", one.len() as u64);
    Ok(())
}

/// The canonical form of what a list gives, which is this graph.
fn form(rng: &mut Rng, list: &[u8], graph: &SignedGraph) -> Result<Vec<u8>, String> {
    let read = decoded(rng, list)?;
    if read.number != 0 || read.graph != words(graph) {
        return Err(at(list, format!("gives another graph: {read:x?}")));
    }
    let form = interface::encode(rng, &read.graph, &[0xaa; LONGEST], &[7])?;
    if form.number != 0 {
        return Err(at(list, format!("its graph is not encoded: {form:x?}")));
    }
    Ok(form.out[..form.answer[0] as usize].to_vec())
}
