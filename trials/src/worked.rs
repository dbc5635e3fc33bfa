//! What the program crates/trials must print: the cases that it is given, answered by the reference.

use crate::reference::{
    classify, count, decode, encode, largest, list_page, record_at, reduce, Bookmark, Reduced,
    SignedGraph, Verdict,
};

/// What the program is given. Its first lines say what the letter of a case stands for.
const CASES: &str = include_str!("../../crates/trials/stdin");

/// What each byte of a buffer, and each word of an array for counts, is before a call.
const FILL: u8 = 0xaa;

/// The most bytes of a buffer.
const ROOM: usize = 128;

/// The whole expected standard output: each line, and behind a case its answer. A line that is no case is a panic.
pub fn expected() -> String {
    let mut graph = SignedGraph::new(0);
    CASES
        .lines()
        .map(|line| format!("{line}{}\n", answer(line, &mut graph)))
        .collect()
}

/// The answer to a case on a graph, which the case may replace.
fn answer(line: &str, graph: &mut SignedGraph) -> String {
    if line.starts_with('#') {
        return String::new();
    }
    let (letter, bytes) = read(line).unwrap_or_else(|| panic!("malformed: {line}"));
    let number = |i: usize| u64::from(bytes[i]);
    let room = |i: usize| usize::from(bytes[i]);
    match (letter, bytes.len()) {
        ('d', _) => decoded(&bytes, graph),
        ('g', 5..=6) => by_rows(&bytes, graph),
        ('r', 1) => reduced(number(0), graph),
        ('e', 1) => encoded(graph, room(0)),
        ('l', 1) => found(graph, number(0)),
        ('c', 2..=9) => classified(graph, number(0), word(&bytes[1..])),
        ('p', 2) => paged(graph, number(0), Bookmark::Start, room(1)),
        ('a', 3..=10) => {
            let from = Bookmark::After(word(&bytes[2..]));
            paged(graph, number(0), from, room(1))
        }
        ('n', 5) => {
            let [sets, places] = [1, 3].map(|i| word(&bytes[i..i + 2]));
            counted(graph, number(0), sets, places)
        }
        ('i', 3..=10) => looked_up(graph, number(0), room(1), word(&bytes[2..])),
        _ => panic!("no case: {line}"),
    }
}

/// The letter of a case, and its bytes: each is a space and two digits.
fn read(line: &str) -> Option<(char, Vec<u8>)> {
    let mut words = line.split(' ');
    let mut letters = words.next()?.chars();
    let letter = letters.next()?;
    let bytes = words.map(byte).collect::<Option<Vec<u8>>>()?;
    letters.next().is_none().then_some((letter, bytes))
}

fn byte(word: &str) -> Option<u8> {
    let lower = |digit: u8| digit.is_ascii_digit() || (b'a'..=b'f').contains(&digit);
    let proper = word.len() == 2 && word.bytes().all(lower);
    proper.then(|| u8::from_str_radix(word, 16).ok())?
}

/// The number of up to eight bytes, low byte first.
fn word(bytes: &[u8]) -> u64 {
    let mut whole = [0; 8];
    whole[..bytes.len()].copy_from_slice(bytes);
    u64::from_le_bytes(whole)
}

/// The number of a refusal, or 0, and the numbers of the answer.
fn said(number: u64, data: &[u64]) -> String {
    let data: String = data.iter().map(|number| format!(" {number:x}")).collect();
    format!(" : {number}{data}")
}

/// All bytes of a buffer.
fn buffered(bytes: &[u8]) -> String {
    let bytes: String = bytes.iter().map(|byte| format!(" {byte:02x}")).collect();
    format!(" [{bytes} ]")
}

/// Decodes an edge list, which gives the graph.
fn decoded(list: &[u8], graph: &mut SignedGraph) -> String {
    let answer = decode(list);
    *graph = answer.clone().unwrap_or(SignedGraph::new(0));
    match answer {
        Ok(_) => said(0, &[]),
        Err((number, place)) => said(number, &[place as u64]),
    }
}

/// Gives the graph of n vertices with these rows for the vertices 0 and 1 and, where a byte says so, these masked, sound or not.
fn by_rows(bytes: &[u8], graph: &mut SignedGraph) -> String {
    *graph = SignedGraph::new(0);
    graph.n = bytes[0].into();
    for vertex in 0..2 {
        graph.positive[vertex] = bytes[1 + vertex].into();
        graph.negative[vertex] = bytes[3 + vertex].into();
    }
    graph.masked = bytes.get(5).copied().unwrap_or(0).into();
    String::new()
}

/// Reduces the graph, which gives the reduced one; the looks.
fn reduced(k: u64, graph: &mut SignedGraph) -> String {
    let answer = reduce(graph, k);
    let number = answer.as_ref().err().copied().unwrap_or(0);
    let reduced = answer.unwrap_or(Reduced::nothing());
    *graph = reduced.graph;
    said(number, &[reduced.looks])
}

/// Encodes the graph into `room` bytes.
fn encoded(graph: &SignedGraph, room: usize) -> String {
    let mut buffer = vec![FILL; room];
    let (number, length) = match encode(graph, &mut buffer) {
        Ok(length) => (0, length),
        Err(number) => (number, 0),
    };
    said(number, &[length as u64]) + &buffered(&buffer)
}

/// The largest group.
fn found(graph: &SignedGraph, k: u64) -> String {
    match largest(graph, k) {
        Ok((left, right)) => said(0, &[left, right]),
        Err(number) => said(number, &[0, 0]),
    }
}

/// A set classified.
fn classified(graph: &SignedGraph, k: u64, set: u64) -> String {
    match classify(graph, k, set) {
        Err(number) => said(number, &[]),
        Ok(Verdict::Empty) => said(0, &[1, 0, 0, 0]),
        Ok(Verdict::OutOfRange(v)) => said(0, &[2, v, 0, 0]),
        Ok(Verdict::MissingEdge(a, b)) => said(0, &[3, a, b, 0]),
        Ok(Verdict::Unbalanced(a, b, c)) => said(0, &[4, a, b, c]),
        Ok(Verdict::TooSmall(left, right)) => said(0, &[5, left, right, 0]),
        Ok(Verdict::Extensible(v)) => said(0, &[6, v, 0, 0]),
        Ok(Verdict::Group(left, right)) => said(0, &[7, left, right, 0]),
        Ok(Verdict::Alone) => said(0, &[8, 0, 0, 0]),
        Ok(Verdict::Masked(v)) => said(0, &[9, v, 0, 0]),
    }
}

/// A page into `room` bytes.
fn paged(graph: &SignedGraph, k: u64, from: Bookmark, room: usize) -> String {
    let mut buffer = vec![FILL; room];
    let page = list_page(graph, k, from, &mut buffer);
    let more = u64::from(!page.finished);
    let (kind, set) = match page.next {
        Bookmark::Start => (0, 0),
        Bookmark::After(set) => (1, set),
    };
    said(page.number, &[page.count, more, kind, set]) + &buffered(&buffer)
}

/// Record i of the first `length` bytes of the listing.
fn looked_up(graph: &SignedGraph, k: u64, length: usize, i: u64) -> String {
    let mut listing = vec![FILL; ROOM];
    list_page(graph, k, Bookmark::Start, &mut listing);
    said(0, &[]) + &buffered(record_at(&listing[..length], i))
}

/// Counts into `places` words for so many sets: 0, 1, 2 and so on, but the last is all 64 vertices.
fn counted(graph: &SignedGraph, k: u64, sets: u64, places: u64) -> String {
    let mut sets: Vec<u64> = (0..sets).collect();
    if let Some(last) = sets.last_mut() {
        *last = u64::MAX;
    }
    let mut counts = vec![u64::from(FILL); places as usize];
    let number = count(graph, k, &sets, &mut counts).err().unwrap_or(0);
    let counts: String = counts.iter().map(|count| format!(" {count:x}")).collect();
    said(number, &[]) + &format!(" [{counts} ]")
}
