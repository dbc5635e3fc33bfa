//! What the program `groups` prints.

use super::edge_list::decode;
use super::graph::vertices;
use super::groups::groups;
use super::pages::largest;

/// The most bytes of its input that the program reads.
pub const MOST_INPUT: usize = 65_536;

/// The standard output of `groups` for an input: a byte k, then an edge list.
pub fn program(input: &[u8]) -> String {
    let input = &input[..input.len().min(MOST_INPUT)];
    let (k, list) = match input.split_first() {
        Some((&k, list)) => (u64::from(k), list),
        None => (0, input),
    };
    let graph = match decode(list) {
        Ok(graph) => graph,
        Err((refusal, place)) => return format!("refused {refusal} at {place}\n"),
    };
    if k > 32 {
        return "refused 11\n".to_string();
    }
    let found = groups(&graph, k);
    let mut lines: Vec<String> = found.iter().map(|&group| line(group)).collect();
    lines.push(match largest(&graph, k) {
        Ok(group) => format!("biggest {}", line(group)),
        Err(_) => "biggest none".to_string(),
    });
    lines.push(format!("groups {}", found.len()));
    lines.iter().map(|line| format!("{line}\n")).collect()
}

/// A group as one line: left vertices, a bar, right vertices.
fn line(group: (u64, u64)) -> String {
    let names = |set: u64| vertices(set).into_iter().map(|v| v.to_string());
    let tokens: Vec<String> = names(group.0)
        .chain(["|".to_string()])
        .chain(names(group.1))
        .collect();
    tokens.join(" ")
}
