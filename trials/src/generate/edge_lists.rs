//! Edge lists and amendment lists: valid ones that open with 10; mutated ones of both kinds, and plain noise.

use super::graphs::graph;
use super::random::Rng;
use crate::reference::{vertices, SignedGraph};

/// The openings: of a list that gives edges and masks once, and of an amendment list.
pub const OPENINGS: [u8; 2] = [0x10, 0x11];

/// A graph and a valid edge list of it, commands in random order and edges either way round.
pub fn edge_list(rng: &mut Rng) -> (SignedGraph, Vec<u8>) {
    let graph = graph(rng);
    let bytes = scrambled(rng, &graph);
    (graph, bytes)
}

/// A valid edge list of a graph, commands in random order and edges either way round.
pub fn scrambled(rng: &mut Rng, graph: &SignedGraph) -> Vec<u8> {
    closed(0x10, graph.n, &commands(rng, graph))
}

/// A list of these commands for n vertices, closed.
pub fn closed<T: AsRef<[u8]>>(opening: u8, n: u64, commands: &[T]) -> Vec<u8> {
    let mut bytes = vec![opening, n as u8];
    for command in commands {
        bytes.extend(command.as_ref());
    }
    bytes.push(0xff);
    bytes
}

/// The commands of a graph: its edges, and before, behind or between them its masked vertices.
pub fn commands(rng: &mut Rng, graph: &SignedGraph) -> Vec<Vec<u8>> {
    let edges = graph.edges().into_iter();
    let mut edges: Vec<Vec<u8>> = edges
        .map(|(u, v, positive)| naming(rng, if positive { 0x21 } else { 0x22 }, u, v))
        .collect();
    let masks = vertices(graph.masked).into_iter();
    let mut masks: Vec<Vec<u8>> = masks.map(|v| vec![0x23, v as u8]).collect();
    rng.shuffle(&mut edges);
    rng.shuffle(&mut masks);
    match rng.below(4) {
        0 => [masks, edges].concat(),
        1 => [edges, masks].concat(),
        _ => {
            let mut commands = [edges, masks].concat();
            rng.shuffle(&mut commands);
            commands
        }
    }
}

/// A command that names a pair of vertices, either way round.
pub fn naming(rng: &mut Rng, command: u8, u: u64, v: u64) -> Vec<u8> {
    let (a, b) = if rng.chance(50) { (v, u) } else { (u, v) };
    vec![command, a as u8, b as u8]
}

/// A list with one to three changes of bytes.
pub fn mutated(rng: &mut Rng, mut bytes: Vec<u8>) -> Vec<u8> {
    for _ in 0..rng.between(1, 3) {
        let length = bytes.len();
        let at = rng.length(0, length);
        let telling = [0x00, 0x01, 0x10, 0x11, 0x21, 0x22, 0x23, 0x24, 0x40, 0xff];
        match rng.below(6) {
            0 | 1 if at < length => bytes[at] ^= 1 << rng.below(8),
            2 if at < length => bytes[at] = rng.pick(&telling),
            3 => bytes.insert(at, rng.pick(&telling)),
            4 if at < length => {
                bytes.remove(at);
            }
            5 if rng.chance(50) => bytes.truncate(at),
            _ => bytes.push(rng.byte()),
        }
    }
    bytes
}

/// Bytes at random, most with an opening and with many command bytes.
pub fn random_bytes(rng: &mut Rng) -> Vec<u8> {
    let length = rng.length(0, 40);
    let like_a_list = rng.chance(70);
    let mut bytes: Vec<u8> = (0..length)
        .map(|_| match rng.below(3) {
            _ if !like_a_list => rng.byte(),
            0 => rng.pick(&[0x21, 0x22, 0x23, 0x24, 0xff]),
            1 => rng.below(6) as u8,
            _ => rng.byte() & 0x43,
        })
        .collect();
    if like_a_list {
        let opening = [rng.pick(&OPENINGS), rng.below(66) as u8];
        bytes.splice(0..0, opening);
    }
    bytes
}
