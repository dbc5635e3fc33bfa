//! Amendment lists (correction books): every command is looked at first, and then each pair of vertices is as the last command
//! that names it says.

use super::edge_list::{CLOSE, ERASE, MASK, NEGATIVE, POSITIVE};
use super::graph::SignedGraph;
use std::collections::HashSet;

/// Decodes an amendment list whose opening is whole, for n vertices.
pub fn decode(n: u64, list: &[u8]) -> Result<SignedGraph, (u64, usize)> {
    Ok(graph_of(n, &commands(n, list)?))
}

/// The commands between opening and close, each with its operands, or the first fault.
fn commands(n: u64, list: &[u8]) -> Result<Vec<&[u8]>, (u64, usize)> {
    let mut commands = Vec::new();
    let mut place = 2;
    loop {
        match &list[place..] {
            [] => return Err((8, place)),
            [CLOSE] => return Ok(commands),
            [CLOSE, ..] => return Err((9, place + 1)),
            rest => {
                let command = first_command(n, rest).map_err(|refusal| (refusal, place))?;
                place += command.len();
                commands.push(command);
            }
        }
    }
}

/// The command that comes first in `rest`, with its operands.
fn first_command(n: u64, rest: &[u8]) -> Result<&[u8], u64> {
    let length = match rest[0] {
        POSITIVE | NEGATIVE | ERASE => 3,
        MASK => 2,
        _ => return Err(3),
    };
    let command = rest.get(..length).ok_or(4u64)?;
    match &command[1..] {
        operands if operands.iter().any(|&v| u64::from(v) >= n) => Err(5),
        [a, b] if a == b => Err(6),
        _ => Ok(command),
    }
}

/// The graph of n vertices after these commands, which are looked at from the last to the first.
fn graph_of(n: u64, commands: &[&[u8]]) -> SignedGraph {
    let mut graph = SignedGraph::new(n);
    let mut settled = HashSet::new();
    for &command in commands.iter().rev() {
        match *command {
            [MASK, v] => graph.mask(v.into()),
            [kind, a, b] if settled.insert((a.min(b), a.max(b))) && kind != ERASE => {
                graph.add(a.into(), b.into(), kind == POSITIVE);
            }
            _ => {}
        }
    }
    graph
}
