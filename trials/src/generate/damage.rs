//! Edge lists and amendment lists with a fault: made for one refusal at a known place.

use super::amendments::{amendments, random_amendments, EDGE_COMMANDS};
use super::edge_lists::{commands, OPENINGS};
use super::graphs::graph;
use super::random::Rng;
use crate::reference::SignedGraph;

/// The refusals that lists which open with 10 are made for.
pub const REFUSALS: [u64; 10] = [1, 2, 3, 4, 5, 6, 7, 8, 9, 15];

/// The refusals that amendment lists are made for; 1 takes their opening away.
pub const AMENDMENT_REFUSALS: [u64; 8] = [1, 2, 3, 4, 5, 6, 8, 9];

/// A damaged list with the refusal and the place that it was made for.
pub struct Damage {
    pub bytes: Vec<u8>,
    pub refusal: u64,
    pub place: usize,
}

/// A list that opens with 10, made for a refusal.
pub fn damaged(rng: &mut Rng, refusal: u64) -> Damage {
    let graph = graph_to_damage(rng, refusal);
    let given = commands(rng, &graph);
    let behind = commands(rng, &graph);
    // Whole commands that stay in front of the fault; where one is given again, with that one.
    let least = first_given(refusal, &given);
    front(rng, 0x10, graph.n, &given, least, behind).damaged(rng, refusal)
}

/// An amendment list, made for a refusal.
pub fn damaged_amendments(rng: &mut Rng, refusal: u64) -> Damage {
    let graph = graph_to_damage(rng, refusal);
    let given = amendments(rng, &graph);
    let behind = amendments(rng, &graph);
    front(rng, 0x11, graph.n, &given, 0, behind).damaged(rng, refusal)
}

/// An amendment list of a vertex or more that is not closed, and behind it a fault: 3 to 9, but for 7.
pub fn damaged_behind(rng: &mut Rng, refusal: u64, bytes: Vec<u8>) -> Damage {
    let tail = random_amendments(rng, bytes[1].into(), 9);
    let tail = [&tail[2..], &[0xff]].concat();
    let given = Vec::new();
    Front { bytes, given, tail }.with_fault(rng, refusal)
}

/// A graph whose list can be given a fault: for 6 it has a vertex, for 7 an edge, for 15 a masked vertex.
fn graph_to_damage(rng: &mut Rng, refusal: u64) -> SignedGraph {
    loop {
        let graph = graph(rng);
        let fits = match refusal {
            6 => graph.n > 0,
            7 => !graph.edges().is_empty(),
            15 => graph.masked != 0,
            _ => true,
        };
        if fits {
            return graph;
        }
    }
}

/// Where a command that gives an edge (7) or masks a vertex (15) for the first time ends; for other refusals the beginning.
fn first_given(refusal: u64, commands: &[Vec<u8>]) -> usize {
    let masks = match refusal {
        7 => false,
        15 => true,
        _ => return 0,
    };
    let first = commands
        .iter()
        .position(|command| is_mask(command) == masks);
    first.expect("the graph has what is given again") + 1
}

/// Whether a command masks a vertex.
fn is_mask(command: &[u8]) -> bool {
    command[0] == 0x23
}

/// What stands in front of a fault: an opening and whole commands.
struct Front {
    bytes: Vec<u8>,
    /// Its commands, where the fault may be that one is given again.
    given: Vec<Vec<u8>>,
    /// Commands and a close that may stand behind the fault.
    tail: Vec<u8>,
}

/// An opening and any number of commands from `least` up.
fn front(
    rng: &mut Rng,
    opening: u8,
    n: u64,
    commands: &[Vec<u8>],
    least: usize,
    behind: Vec<Vec<u8>>,
) -> Front {
    let given = commands[..rng.length(least, commands.len())].to_vec();
    let bytes = [vec![opening, n as u8], given.concat()].concat();
    let tail = [behind.concat(), vec![0xff]].concat();
    Front { bytes, given, tail }
}

impl Front {
    /// The list with a fault in its opening or behind its commands.
    fn damaged(self, rng: &mut Rng, refusal: u64) -> Damage {
        match refusal {
            1 | 2 => self.damaged_opening(rng, refusal),
            4 if rng.chance(10) => Damage {
                bytes: vec![self.bytes[0]],
                refusal,
                place: 0,
            },
            _ => self.with_fault(rng, refusal),
        }
    }

    /// The list with a fault behind its commands.
    fn with_fault(self, rng: &mut Rng, refusal: u64) -> Damage {
        let due = self.bytes.len();
        let fault = match refusal {
            3 => self.unknown_command(rng),
            4 => self.part_of_command(rng),
            8 => Vec::new(),
            9 => {
                let behind =
                    (0..rng.length(1, 9)).map(|_| rng.pick(&[0x00, 0x10, 0x11, 0x21, 0x23, 0xff]));
                [vec![0xff], behind.collect()].concat()
            }
            _ => [self.bad_operands(rng, refusal), self.tail].concat(),
        };
        Damage {
            bytes: [self.bytes, fault].concat(),
            refusal,
            place: if refusal == 9 { due + 1 } else { due },
        }
    }

    /// Too many vertices (2), or no opening (1).
    fn damaged_opening(self, rng: &mut Rng, refusal: u64) -> Damage {
        let mut bytes = self.bytes;
        if refusal == 2 {
            bytes[1] = rng.between(65, 255) as u8;
            bytes.truncate(rng.length(2, bytes.len()));
        } else if rng.chance(20) {
            bytes.clear();
        } else {
            bytes[0] = loop {
                let any = rng.byte();
                let byte = rng.pick(&[0x00, 0x12, 0x21, 0x22, 0x23, 0x24, 0xff, any]);
                if !OPENINGS.contains(&byte) {
                    break byte;
                }
            };
            bytes.truncate(rng.length(1, bytes.len()));
        }
        Damage {
            bytes,
            refusal,
            place: 0,
        }
    }

    /// The commands that name a pair.
    fn edge_commands(&self) -> &'static [u8] {
        match self.bytes[0] {
            0x11 => &EDGE_COMMANDS,
            _ => &[0x21, 0x22],
        }
    }

    /// A byte that is no command behind this opening, and then operands and the tail, a part of them, or nothing.
    fn unknown_command(&self, rng: &mut Rng) -> Vec<u8> {
        let byte = loop {
            let any = rng.byte();
            let byte = rng.pick(&[0x10, 0x11, 0x24, 0x24, 0x12, 0x20, 0x25, 0x31, 0xfe, any]);
            if !self.edge_commands().contains(&byte) && ![0x23, 0xff].contains(&byte) {
                break byte;
            }
        };
        let n = self.bytes[1];
        let operands = match byte {
            0x24 => vec![0, n.saturating_sub(1)],
            0x10 | 0x11 => vec![n],
            _ => Vec::new(),
        };
        let behind = [operands, self.tail.clone()].concat();
        let length = match rng.below(4) {
            0 => rng.length(0, 1),
            1 => rng.length(0, behind.len()),
            _ => behind.len(),
        };
        [&[byte], &behind[..length]].concat()
    }

    /// A command that the list ends in.
    fn part_of_command(&self, rng: &mut Rng) -> Vec<u8> {
        if rng.chance(25) {
            return vec![0x23];
        }
        let any = rng.byte();
        let operand = rng.pick(&[0x00, 0x23, 0xff, any]);
        let mut part = vec![rng.pick(self.edge_commands()), operand];
        part.truncate(rng.length(1, 2));
        part
    }

    /// A command with an operand from n up (5), with equal operands (6), with an edge that an earlier one gave (7), or with
    /// a vertex that an earlier one masked (15).
    fn bad_operands(&self, rng: &mut Rng, refusal: u64) -> Vec<u8> {
        let n = u64::from(self.bytes[1]);
        let command = rng.pick(self.edge_commands());
        let inside = rng.below(n.max(1)) as u8;
        match refusal {
            5 => {
                let any = rng.between(n, 255) as u8;
                let outside = rng.pick(&[n as u8, 64, 255, any]);
                match rng.below(6) {
                    0 => vec![command, outside, outside],
                    1 => vec![command, outside, inside],
                    2 | 3 => vec![0x23, outside],
                    _ => vec![command, inside, outside],
                }
            }
            6 => vec![command, inside, inside],
            _ => self.given_again(rng, command, refusal == 15),
        }
    }

    /// A command that masks again, or one that gives an edge again either way round.
    fn given_again(&self, rng: &mut Rng, command: u8, masks: bool) -> Vec<u8> {
        let alike = |earlier: &&Vec<u8>| is_mask(earlier) == masks;
        let alike: Vec<&Vec<u8>> = self.given.iter().filter(alike).collect();
        match rng.pick(&alike)[1..] {
            [a, b] if rng.chance(50) => vec![command, b, a],
            [a, b] => vec![command, a, b],
            ref masked => [&[0x23], masked].concat(),
        }
    }
}
