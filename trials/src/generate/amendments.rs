//! Amendment lists: an edge or a mask may come again, the last command on a pair stands, and 24 takes its edge away.

use super::edge_lists::{closed, naming};
use super::graphs::graph;
use super::random::Rng;
use crate::reference::{vertices, SignedGraph};

/// A graph and an amendment list that comes to it.
pub fn amendment_list(rng: &mut Rng) -> (SignedGraph, Vec<u8>) {
    let graph = graph(rng);
    let bytes = amended(rng, &graph);
    (graph, bytes)
}

/// An amendment list that comes to a graph.
pub fn amended(rng: &mut Rng, graph: &SignedGraph) -> Vec<u8> {
    closed(0x11, graph.n, &amendments(rng, graph))
}

/// Commands that come to a graph, those on one pair or vertex mixed with those on others; half of the time the last on each
/// stand behind all others.
pub fn amendments(rng: &mut Rng, graph: &SignedGraph) -> Vec<Vec<u8>> {
    let histories = histories(rng, graph);
    let mut last: Vec<usize> = (0..histories.len()).collect();
    let mut turns: Vec<usize> = last
        .iter()
        .flat_map(|&i| vec![i; histories[i].len() - 1])
        .collect();
    if rng.chance(50) {
        rng.shuffle(&mut turns);
        rng.shuffle(&mut last);
        turns.extend(last);
    } else {
        turns.extend(last);
        rng.shuffle(&mut turns);
    }
    let mut histories: Vec<_> = histories.into_iter().map(Vec::into_iter).collect();
    let next = |i: usize| histories[i].next();
    turns.into_iter().filter_map(next).collect()
}

/// For each edge, each masked vertex and some pairs without an edge the commands on it, one or more, of which the last is as
/// the graph has it.
fn histories(rng: &mut Rng, graph: &SignedGraph) -> Vec<Vec<Vec<u8>>> {
    let mut histories = Vec::new();
    // The pairs with more than one command, in percent; fewer in large graphs.
    let changed = rng.pick(&[0, 3, 10, 40, 100]) * 16 / graph.n.max(16);
    for v in 0..graph.n {
        for u in 0..v {
            let mut kinds = Vec::new();
            if rng.chance(changed) {
                kinds.extend((0..rng.length(1, 4)).map(|_| rng.pick(&EDGE_COMMANDS)));
            }
            let last = command_for(graph, u, v);
            if !kinds.is_empty() || last != 0x24 {
                kinds.push(last);
                let history = kinds.into_iter().map(|kind| naming(rng, kind, u, v));
                histories.push(history.collect());
            }
        }
    }
    for v in vertices(graph.masked) {
        histories.push(vec![vec![0x23, v as u8]; rng.pick(&[1, 1, 1, 2, 4])]);
    }
    histories
}

/// The commands that name a pair.
pub const EDGE_COMMANDS: [u8; 3] = [0x21, 0x22, 0x24];

/// The command after which a pair is as a graph has it.
fn command_for(graph: &SignedGraph, u: u64, v: u64) -> u8 {
    match (graph.is_positive(u, v), graph.is_negative(u, v)) {
        (true, _) => 0x21,
        (_, true) => 0x22,
        _ => 0x24,
    }
}

/// An amendment list of commands at random.
pub fn random_amendment_list(rng: &mut Rng) -> Vec<u8> {
    let (n, number) = (rng.below(65), rng.length(0, 60));
    let mut bytes = random_amendments(rng, n, number);
    bytes.push(0xff);
    bytes
}

/// An amendment list of n vertices with so many commands at random, on few pairs or on many, and without its close. For
/// one vertex all of them mask it, and for none there is no command.
pub fn random_amendments(rng: &mut Rng, n: u64, number: usize) -> Vec<u8> {
    let mut bytes = vec![0x11, n as u8];
    let mut named: Vec<u8> = (0..n as u8).collect();
    rng.shuffle(&mut named);
    if rng.chance(50) {
        named.truncate(rng.length(2, 6));
    }
    let masks = match named.len() {
        0 => return bytes,
        1 => 100,
        _ => rng.pick(&[0, 1, 10, 50]),
    };
    let all = &EDGE_COMMANDS[..];
    let kinds = rng.pick(&[all, all, all, &[0x21, 0x22], &[0x22, 0x24]]);
    for _ in 0..number {
        let i = rng.length(0, named.len() - 1);
        if rng.chance(masks) {
            bytes.extend([0x23, named[i]]);
        } else {
            let other = (i + rng.length(1, named.len() - 1)) % named.len();
            bytes.extend([rng.pick(kinds), named[i], named[other]]);
        }
    }
    bytes
}

/// An amendment list of so many bytes that comes to a graph, without its close. The graph has two vertices or more and a
/// masked one; there is room for a command on each pair and each vertex and for two more masks.
pub fn amended_to_length(rng: &mut Rng, graph: &SignedGraph, length: usize) -> Vec<u8> {
    let mut last = Vec::new();
    for v in 0..graph.n {
        for u in 0..v {
            last.push(naming(rng, command_for(graph, u, v), u, v));
        }
    }
    let masked = vertices(graph.masked);
    last.extend(masked.iter().map(|&v| vec![0x23, v as u8]));
    rng.shuffle(&mut last);
    let last = last.concat();
    let mut bytes = vec![0x11, graph.n as u8];
    fill(rng, &mut bytes, &masked, length - last.len());
    bytes.extend(last);
    bytes
}

/// Adds commands at random up to so many bytes in all; those that mask take a vertex of `masked`. The bytes have an opening
/// for two vertices or more, and are not just one short.
pub fn fill(rng: &mut Rng, bytes: &mut Vec<u8>, masked: &[u64], length: usize) {
    let n = u64::from(bytes[1]);
    let missing = length - bytes.len();
    let masks = 2 * missing % 3;
    let mut commands: Vec<Vec<u8>> = (0..masks)
        .map(|_| vec![0x23, rng.pick(masked) as u8])
        .collect();
    for _ in 0..(missing - 2 * masks) / 3 {
        let u = rng.below(n);
        let v = (u + rng.between(1, n - 1)) % n;
        commands.push(vec![rng.pick(&EDGE_COMMANDS), u as u8, v as u8]);
    }
    rng.shuffle(&mut commands);
    bytes.extend(commands.concat());
}
