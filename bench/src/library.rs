//! The library's calls on arrays that are made beforehand.

use mastpickle_trials::interface::{c, GRAPH_WORDS};
use mastpickle_trials::reference::SignedGraph;
use mastpickle_trials::trials::words;

/// The bytes of a record.
pub const RECORD: usize = 16;

/// Where a page begins: a kind and a set.
pub type Place = (u64, u64);

pub const START: Place = (0, 0);

/// The place after a set.
pub fn after(set: u64) -> Place {
    (1, set)
}

/// What a page call answers: how many records it wrote, and where the next page begins if more are due.
pub struct Answer {
    pub records: usize,
    pub next: Option<Place>,
}

/// A graph as the library takes it: n, 64 positive rows, 64 negative rows, the masked vertices.
pub type Words = [u64; GRAPH_WORDS];

pub struct Graph {
    pub words: Words,
}

impl Graph {
    pub fn new(graph: &SignedGraph) -> Graph {
        let words = words(graph).try_into();
        Graph {
            words: words.expect("a graph has so many words"),
        }
    }

    pub fn list_page(&self, k: u64, from: Place, out: &mut [u8]) -> Answer {
        let mut answer = [0; 4];
        let refused = unsafe {
            c::mastpickle_list_page(
                self.words.as_ptr(),
                self.words.len(),
                k,
                from.0,
                from.1,
                out.as_mut_ptr(),
                out.len(),
                answer.as_mut_ptr(),
                answer.len(),
            )
        };
        assert_eq!(refused, 0, "the call is not refused");
        Answer {
            records: answer[0] as usize,
            next: (answer[1] == 1).then_some((answer[2], answer[3])),
        }
    }

    /// Writes for each of the sets in how many groups for k it lies.
    pub fn count(&self, k: u64, sets: &[u64], counts: &mut [u64]) {
        let refused = unsafe {
            c::mastpickle_count(
                self.words.as_ptr(),
                self.words.len(),
                k,
                sets.as_ptr(),
                sets.len(),
                counts.as_mut_ptr(),
                counts.len(),
            )
        };
        assert_eq!(refused, 0, "the call is not refused");
    }

    /// Writes the graph reduced for k, and gives the looks.
    pub fn reduce(&self, k: u64, reduced: &mut Words) -> u64 {
        let mut answer = [0];
        let refused = unsafe {
            c::mastpickle_reduce(
                self.words.as_ptr(),
                self.words.len(),
                k,
                reduced.as_mut_ptr(),
                reduced.len(),
                answer.as_mut_ptr(),
                answer.len(),
            )
        };
        assert_eq!(refused, 0, "the call is not refused");
        answer[0]
    }

    /// The sides of the largest group for k, both empty where there is none.
    pub fn largest(&self, k: u64) -> (u64, u64) {
        let mut answer = [0; 2];
        let refused = unsafe {
            c::mastpickle_largest(
                self.words.as_ptr(),
                self.words.len(),
                k,
                answer.as_mut_ptr(),
                answer.len(),
            )
        };
        assert!(refused == 0 || refused == 12, "the call is not refused");
        (answer[0], answer[1])
    }
}

/// Writes the graph of a list, of no vertices where it is refused; gives the number of the refusal, else 0.
pub fn decode(list: &[u8], graph: &mut Words) -> u64 {
    let mut answer = [0];
    unsafe {
        c::mastpickle_decode(
            list.as_ptr(),
            list.len(),
            graph.as_mut_ptr(),
            graph.len(),
            answer.as_mut_ptr(),
            answer.len(),
        )
    }
}

/// The groups of records.
pub fn groups(records: &[u8]) -> Vec<(u64, u64)> {
    let word = |bytes: &[u8]| u64::from_le_bytes(bytes.try_into().expect("a word has 8 bytes"));
    records
        .chunks_exact(RECORD)
        .map(|record| (word(&record[..8]), word(&record[8..])))
        .collect()
}
