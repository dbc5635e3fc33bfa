//! Notes on lists that are decoded: what the accepted ones do, and what the others are refused for.

use super::expect::graph_of;
use super::kinds::{count_masked, MASKED};
use super::replay::{commands_of, Replay, AMENDED};
use super::tally::Tally;
use crate::generate::REFUSALS;
use crate::interface::Outcome;

/// Where accepted lists mask vertices, and what they mask; each has to come up.
const MASKS: [&str; 4] = [
    "masking before edges",
    "masking between edges",
    "masking behind edges",
    "masking vertex 0x23",
];

/// Faults of lists that have to come up.
const FAULTS: [&str; 16] = [
    "ending inside 23",
    "masking 0xff",
    "masking out of range",
    "masking twice",
    "ending inside 24",
    "erasing 0xff",
    "erasing a loop out of range",
    "erasing out of range",
    "erasing a loop",
    "24 behind the opening 10",
    "24 behind the opening 10, without its operands",
    "10 behind the opening 10",
    "11 behind the opening 10",
    "10 behind the opening 11",
    "11 behind the opening 11",
    "11 alone",
];

/// The fault of a list with this opening that is refused with a number, by its bytes from the fault's place on.
fn fault(opening: u8, refusal: u64, bytes: &[u8]) -> Option<&'static str> {
    let fault = match (opening, refusal, bytes) {
        (_, 4, [0x23]) => 0,
        (_, 5, [0x23, 0xff, ..]) => 1,
        (_, 5, [0x23, ..]) => 2,
        (_, 15, [0x23, ..]) => 3,
        (0x11, 4, [0x24, ..]) => 4,
        (0x11, 5, [0x24, _, 0xff, ..]) => 5,
        (0x11, 5, [0x24, a, b, ..]) if a == b => 6,
        (0x11, 5, [0x24, ..]) => 7,
        (0x11, 6, [0x24, ..]) => 8,
        (0x10, 3, [0x24, _, _, ..]) => 9,
        (0x10, 3, [0x24, ..]) => 10,
        (0x10, 3, [0x10, ..]) => 11,
        (0x10, 3, [0x11, ..]) => 12,
        (0x11, 3, [0x10, ..]) => 13,
        (0x11, 3, [0x11, ..]) => 14,
        (0x11, 4, [0x11]) => 15,
        _ => return None,
    };
    Some(FAULTS[fault])
}

/// Refusals of lists that open with 11, and how they are noted; each has to come up.
const REFUSED_AMENDMENTS: [(u64, &str); 7] = [
    (2, "amendment lists refused with 2"),
    (3, "amendment lists refused with 3"),
    (4, "amendment lists refused with 4"),
    (5, "amendment lists refused with 5"),
    (6, "amendment lists refused with 6"),
    (8, "amendment lists refused with 8"),
    (9, "amendment lists refused with 9"),
];

/// How accepted lists that open with 11 are noted.
const ACCEPTED_AMENDMENTS: &str = "amendment lists accepted";

/// Notes what decoding a list must leave.
pub fn note_decoded(tally: &mut Tally, bytes: &[u8], must: &Outcome) {
    tally.count_number(must.number);
    let opening = bytes.first().copied().unwrap_or(0);
    match must.number {
        0 => note_accepted(tally, opening, bytes, must),
        1..=15 => note_refused(tally, opening, bytes, must),
        _ => {}
    }
}

fn note_accepted(tally: &mut Tally, opening: u8, bytes: &[u8], must: &Outcome) {
    let graph = graph_of(&must.graph);
    count_masked(tally, &graph);
    if graph.is_masked(0x23) {
        tally.count(MASKS[3]);
    }
    note_masks(tally, &kinds_of_commands(bytes));
    if opening == 0x11 {
        tally.count(ACCEPTED_AMENDMENTS);
        Replay::new(bytes).count(tally);
    }
}

fn note_refused(tally: &mut Tally, opening: u8, bytes: &[u8], must: &Outcome) {
    for (refusal, note) in REFUSED_AMENDMENTS {
        if opening == 0x11 && must.number == refusal {
            tally.count(note);
        }
    }
    let bytes = bytes.get(must.answer[0] as usize..).unwrap_or(&[]);
    if let Some(fault) = fault(opening, must.number, bytes) {
        tally.count(fault);
    }
}

/// The command bytes of an accepted list, without opening and close.
fn kinds_of_commands(list: &[u8]) -> Vec<u8> {
    let commands = commands_of(list).into_iter();
    commands.map(|command| command[0]).collect()
}

/// Notes where commands that mask stand among those that give edges.
fn note_masks(tally: &mut Tally, kinds: &[u8]) {
    let edge = |kind: &u8| *kind != 0x23;
    let (first, last) = (kinds.iter().position(edge), kinds.iter().rposition(edge));
    if let (Some(first), Some(last)) = (first, last) {
        let masks = [&kinds[..first], &kinds[first..last], &kinds[last..]];
        for (masks, note) in masks.iter().zip(MASKS) {
            if masks.contains(&0x23) {
                tally.count(note);
            }
        }
    }
}

/// Fails where something that has to come up did not.
pub fn each_noted(tally: &Tally) -> Result<(), String> {
    tally.each_refused(&REFUSALS)?;
    tally.each_refused(&[101, 102])?;
    tally.each_counted(&MASKED)?;
    tally.each_counted(&MASKS)?;
    tally.each_counted(&AMENDED)?;
    tally.each_counted(&[ACCEPTED_AMENDMENTS])?;
    tally.each_counted(&REFUSED_AMENDMENTS.map(|(_, note)| note))?;
    tally.each_counted(&FAULTS)
}
