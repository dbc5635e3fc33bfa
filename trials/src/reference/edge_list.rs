//! Edge lists (pair books): decoding (reading) and encoding (writing).

use super::amendment_list;
use super::graph::{vertices, SignedGraph, MOST_VERTICES};

const OPEN: u8 = 0x10;
const OPEN_AMENDMENTS: u8 = 0x11;
pub(super) const POSITIVE: u8 = 0x21;
pub(super) const NEGATIVE: u8 = 0x22;
pub(super) const MASK: u8 = 0x23;
pub(super) const ERASE: u8 = 0x24;
pub(super) const CLOSE: u8 = 0xff;

/// Decodes an edge list or an amendment list, or gives the number of the refusal and its place.
pub fn decode(bytes: &[u8]) -> Result<SignedGraph, (u64, usize)> {
    let decode_commands = match bytes.first() {
        Some(&OPEN) => decode_once_given,
        Some(&OPEN_AMENDMENTS) => amendment_list::decode,
        _ => return Err((1, 0)),
    };
    let Some(&n) = bytes.get(1) else {
        return Err((4, 0));
    };
    if u64::from(n) > MOST_VERTICES {
        return Err((2, 0));
    }
    decode_commands(n.into(), bytes)
}

/// Decodes a list whose opening is whole, for n vertices, in which edges and masks are given once.
fn decode_once_given(n: u64, bytes: &[u8]) -> Result<SignedGraph, (u64, usize)> {
    let mut graph = SignedGraph::new(n);
    let mut place = 2;
    loop {
        match bytes.get(place) {
            None => return Err((8, bytes.len())),
            Some(&CLOSE) if place + 1 < bytes.len() => return Err((9, place + 1)),
            Some(&CLOSE) => return Ok(graph),
            Some(&command) => {
                let operands = carry_out(&mut graph, command, &bytes[place + 1..])
                    .map_err(|refusal| (refusal, place))?;
                place += 1 + operands;
            }
        }
    }
}

/// Carries out one command that gives an edge or masks a vertex; its operands come first in `rest`. Gives how many they are.
fn carry_out(graph: &mut SignedGraph, command: u8, rest: &[u8]) -> Result<usize, u64> {
    let operands = match command {
        POSITIVE | NEGATIVE => 2,
        MASK => 1,
        _ => return Err(3),
    };
    let operands = rest.get(..operands).ok_or(4u64)?;
    if operands.iter().any(|&v| u64::from(v) >= graph.n) {
        return Err(5);
    }
    let vertex = |i: usize| u64::from(operands[i]);
    if command == MASK {
        mask(graph, vertex(0))?;
    } else {
        add_edge(graph, vertex(0), vertex(1), command == POSITIVE)?;
    }
    Ok(operands.len())
}

/// Masks the vertex of a command, which is below n.
fn mask(graph: &mut SignedGraph, a: u64) -> Result<(), u64> {
    if graph.is_masked(a) {
        return Err(15);
    }
    graph.mask(a);
    Ok(())
}

/// Adds the edge of a command whose operands are below n.
fn add_edge(graph: &mut SignedGraph, a: u64, b: u64, positive: bool) -> Result<(), u64> {
    if a == b {
        return Err(6);
    }
    if graph.is_edge(a, b) {
        return Err(7);
    }
    graph.add(a, b, positive);
    Ok(())
}

/// Encodes a graph in canonical (plain) form, edges before masked vertices, at the buffer's beginning and gives the form's
/// length.
pub fn encode(graph: &SignedGraph, buffer: &mut [u8]) -> Result<usize, u64> {
    if !graph.is_sound() {
        return Err(10);
    }
    let mut form = vec![OPEN, graph.n as u8];
    for (a, b, positive) in graph.edges() {
        let command = if positive { POSITIVE } else { NEGATIVE };
        form.extend([command, a as u8, b as u8]);
    }
    for v in vertices(graph.masked) {
        form.extend([MASK, v as u8]);
    }
    form.push(CLOSE);
    if buffer.len() < form.len() {
        return Err(13);
    }
    buffer[..form.len()].copy_from_slice(&form);
    Ok(form.len())
}
