//! The library's C interface, each call with guarded arrays.
//!
//! A wrapper takes the contents of each array as they are before the call, checks after it that no guard and no array
//! given for reading changed, and hands back the contents of those that the call may write.

pub mod c;
mod lent;
mod own_stack;

use crate::generate::Rng;
pub use lent::{noise, Lent};
pub use own_stack::{OwnStack, Used};

/// The words of a graph.
pub const GRAPH_WORDS: usize = 130;

/// What a call left: its number and the contents of its arrays; an array that it does not have is empty.
#[derive(Clone, PartialEq, Eq, Debug, Default)]
pub struct Outcome {
    pub number: u64,
    pub graph: Vec<u64>,
    pub out: Vec<u8>,
    pub answer: Vec<u64>,
    pub counts: Vec<u64>,
}

type Called = Result<Outcome, String>;

pub fn new(rng: &mut Rng, n: u64, graph: &[u64]) -> Called {
    let mut graph = Lent::new(rng, "graph", graph);
    let number = unsafe { c::mastpickle_new(n, graph.pointer(), graph.length) };
    let graph = graph.written()?;
    Ok(Outcome {
        number,
        graph,
        ..Outcome::default()
    })
}

pub fn check_sound(rng: &mut Rng, graph: &[u64]) -> Called {
    let mut graph = Lent::new(rng, "graph", graph);
    let number = unsafe { c::mastpickle_check_sound(graph.pointer(), graph.length) };
    graph.unchanged()?;
    Ok(Outcome {
        number,
        ..Outcome::default()
    })
}

pub fn check_call(rng: &mut Rng, graph: &[u64], k: u64) -> Called {
    let mut graph = Lent::new(rng, "graph", graph);
    let number = unsafe { c::mastpickle_check_call(graph.pointer(), graph.length, k) };
    graph.unchanged()?;
    Ok(Outcome {
        number,
        ..Outcome::default()
    })
}

pub fn decode(rng: &mut Rng, bytes: &[u8], graph: &[u64], answer: &[u64]) -> Called {
    let mut bytes = Lent::new(rng, "bytes", bytes);
    let mut graph = Lent::new(rng, "graph", graph);
    let mut answer = Lent::new(rng, "answer", answer);
    let number = unsafe {
        c::mastpickle_decode(
            bytes.pointer(),
            bytes.length,
            graph.pointer(),
            graph.length,
            answer.pointer(),
            answer.length,
        )
    };
    bytes.unchanged()?;
    Ok(Outcome {
        number,
        graph: graph.written()?,
        answer: answer.written()?,
        ..Outcome::default()
    })
}

pub fn encode(rng: &mut Rng, graph: &[u64], out: &[u8], answer: &[u64]) -> Called {
    let mut graph = Lent::new(rng, "graph", graph);
    let mut out = Lent::new(rng, "out", out);
    let mut answer = Lent::new(rng, "answer", answer);
    let number = unsafe {
        c::mastpickle_encode(
            graph.pointer(),
            graph.length,
            out.pointer(),
            out.length,
            answer.pointer(),
            answer.length,
        )
    };
    graph.unchanged()?;
    Ok(Outcome {
        number,
        out: out.written()?,
        answer: answer.written()?,
        ..Outcome::default()
    })
}

pub fn classify(rng: &mut Rng, graph: &[u64], k: u64, set: u64, answer: &[u64]) -> Called {
    let mut graph = Lent::new(rng, "graph", graph);
    let mut answer = Lent::new(rng, "answer", answer);
    let number = unsafe {
        c::mastpickle_classify(
            graph.pointer(),
            graph.length,
            k,
            set,
            answer.pointer(),
            answer.length,
        )
    };
    graph.unchanged()?;
    Ok(Outcome {
        number,
        answer: answer.written()?,
        ..Outcome::default()
    })
}

pub fn reduce(rng: &mut Rng, graph: &[u64], k: u64, reduced: &[u64], answer: &[u64]) -> Called {
    let mut graph = Lent::new(rng, "graph", graph);
    let mut reduced = Lent::new(rng, "reduced", reduced);
    let mut answer = Lent::new(rng, "answer", answer);
    let number = unsafe {
        c::mastpickle_reduce(
            graph.pointer(),
            graph.length,
            k,
            reduced.pointer(),
            reduced.length,
            answer.pointer(),
            answer.length,
        )
    };
    graph.unchanged()?;
    Ok(Outcome {
        number,
        graph: reduced.written()?,
        answer: answer.written()?,
        ..Outcome::default()
    })
}

/// Where a page begins, as the interface takes it: a kind and a set.
pub type Place = (u64, u64);

pub fn list_page(
    rng: &mut Rng,
    graph: &[u64],
    k: u64,
    from: Place,
    out: &[u8],
    answer: &[u64],
) -> Called {
    let mut graph = Lent::new(rng, "graph", graph);
    let mut out = Lent::new(rng, "out", out);
    let mut answer = Lent::new(rng, "answer", answer);
    let number = unsafe {
        c::mastpickle_list_page(
            graph.pointer(),
            graph.length,
            k,
            from.0,
            from.1,
            out.pointer(),
            out.length,
            answer.pointer(),
            answer.length,
        )
    };
    graph.unchanged()?;
    Ok(Outcome {
        number,
        out: out.written()?,
        answer: answer.written()?,
        ..Outcome::default()
    })
}

pub fn largest(rng: &mut Rng, graph: &[u64], k: u64, answer: &[u64]) -> Called {
    let mut graph = Lent::new(rng, "graph", graph);
    let mut answer = Lent::new(rng, "answer", answer);
    let number = unsafe {
        c::mastpickle_largest(
            graph.pointer(),
            graph.length,
            k,
            answer.pointer(),
            answer.length,
        )
    };
    graph.unchanged()?;
    Ok(Outcome {
        number,
        answer: answer.written()?,
        ..Outcome::default()
    })
}

pub fn record_at(rng: &mut Rng, listing: &[u8], i: u64, answer: &[u64]) -> Called {
    let mut listing = Lent::new(rng, "listing", listing);
    let mut answer = Lent::new(rng, "answer", answer);
    let number = unsafe {
        c::mastpickle_record_at(
            listing.pointer(),
            listing.length,
            i,
            answer.pointer(),
            answer.length,
        )
    };
    listing.unchanged()?;
    Ok(Outcome {
        number,
        answer: answer.written()?,
        ..Outcome::default()
    })
}

pub fn count(rng: &mut Rng, graph: &[u64], k: u64, sets: &[u64], counts: &[u64]) -> Called {
    let mut graph = Lent::new(rng, "graph", graph);
    let mut sets = Lent::new(rng, "sets", sets);
    let mut counts = Lent::new(rng, "counts", counts);
    let number = unsafe {
        c::mastpickle_count(
            graph.pointer(),
            graph.length,
            k,
            sets.pointer(),
            sets.length,
            counts.pointer(),
            counts.length,
        )
    };
    graph.unchanged()?;
    sets.unchanged()?;
    Ok(Outcome {
        number,
        counts: counts.written()?,
        ..Outcome::default()
    })
}
