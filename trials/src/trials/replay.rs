//! Accepted lists taken apart, and amendment lists carried out command by command: another method than the reference's.

use super::tally::Tally;
use crate::reference::SignedGraph;
use std::collections::BTreeMap;

/// The commands of an accepted list, each with its operands.
pub fn commands_of(list: &[u8]) -> Vec<&[u8]> {
    let mut commands = Vec::new();
    let mut rest = &list[2..];
    while rest[0] != 0xff {
        let (command, behind) = rest.split_at(if rest[0] == 0x23 { 2 } else { 3 });
        commands.push(command);
        rest = behind;
    }
    commands
}

/// What a command names: a pair, the lower vertex first, or twice the vertex that it masks.
pub fn named_by(command: &[u8]) -> (u8, u8) {
    let (a, b) = (command[1], command[command.len() - 1]);
    (a.min(b), a.max(b))
}

/// What commands of amendment lists do, as it is noted; each has to come up.
pub const AMENDED: [&str; 9] = [
    "edges given again",
    "signs changed",
    "edges given behind their erasure",
    "edges erased",
    "pairs erased twice",
    "pairs erased that were not named before",
    "pairs named the other way round",
    "erasures at a masked vertex",
    "vertices masked again",
];

/// An accepted amendment list carried out: its graph, and how often its commands did each of these things.
pub struct Replay {
    pub graph: SignedGraph,
    done: [u64; 9],
}

impl Replay {
    pub fn new(list: &[u8]) -> Replay {
        let mut replay = Replay {
            graph: SignedGraph::new(list[1].into()),
            done: [0; 9],
        };
        let mut earlier = BTreeMap::new();
        for command in commands_of(list) {
            let before = earlier.insert(named_by(command), command);
            replay.note(before, command);
            replay.carry_out(command);
        }
        replay
    }

    /// Counts what the commands did.
    pub fn count(&self, tally: &mut Tally) {
        for (what, &number) in AMENDED.iter().zip(&self.done) {
            tally.add(what, number);
        }
    }

    fn carry_out(&mut self, command: &[u8]) {
        let [u, v] = [command[1], command[command.len() - 1]].map(u64::from);
        match command[0] {
            0x23 => self.graph.mask(v),
            0x24 => self.graph.remove(u, v),
            kind => {
                self.graph.remove(u, v);
                self.graph.add(u, v, kind == 0x21);
            }
        }
    }

    /// Notes what a command does, by the command before it that names the same.
    fn note(&mut self, before: Option<&[u8]>, command: &[u8]) {
        let done = match (before.map(|before| before[0]), command[0]) {
            (None, 0x24) => Some(5),
            (None, _) => None,
            (Some(0x23), _) => Some(8),
            (Some(0x24), 0x24) => Some(4),
            (Some(0x24), _) => Some(2),
            (Some(_), 0x24) => Some(3),
            (Some(earlier), now) if earlier == now => Some(0),
            (Some(_), _) => Some(1),
        };
        if let Some(done) = done {
            self.done[done] += 1;
        }
        let turned = before.is_some_and(|before| before[1] != command[1]);
        let masked = |&v: &u8| self.graph.is_masked(v.into());
        let at_masked = command[0] == 0x24 && command[1..].iter().any(masked);
        self.done[6] += u64::from(turned);
        self.done[7] += u64::from(at_masked);
    }
}
