//! Running a trial's cases and counting what was in them.

use crate::generate::Rng;
use std::any::Any;
use std::collections::BTreeMap;
use std::panic::{catch_unwind, AssertUnwindSafe};

/// What a trial ran: its cases, and counts of things in them.
#[derive(Default)]
pub struct Tally {
    pub cases: u64,
    counts: BTreeMap<String, u64>,
}

impl Tally {
    /// Counts one of a thing.
    pub fn count(&mut self, what: &str) {
        self.add(what, 1);
    }

    pub fn add(&mut self, what: &str, number: u64) {
        *self.counts.entry(what.to_string()).or_default() += number;
    }

    /// Counts an interface call by the number that it returned.
    pub fn count_number(&mut self, number: u64) {
        if number == 0 {
            self.count("accepted");
        } else {
            self.count(&format!("refused {number:3}"));
        }
    }

    pub fn of(&self, what: &str) -> u64 {
        self.counts.get(what).copied().unwrap_or(0)
    }

    /// Fails where a number from `numbers` was never returned.
    pub fn each_refused(&self, numbers: &[u64]) -> Result<(), String> {
        match numbers
            .iter()
            .find(|n| self.of(&format!("refused {n:3}")) == 0)
        {
            None => Ok(()),
            Some(number) => Err(format!("no case was refused with {number}")),
        }
    }

    /// Fails where a thing from `things` was never counted.
    pub fn each_counted(&self, things: &[&str]) -> Result<(), String> {
        match things.iter().find(|thing| self.of(thing) == 0) {
            None => Ok(()),
            Some(thing) => Err(format!("0 {thing}")),
        }
    }

    /// The counts as text.
    pub fn notes(&self) -> String {
        let notes: Vec<String> = self
            .counts
            .iter()
            .map(|(what, number)| match what.strip_prefix("refused ") {
                Some(refusal) => format!("{number} refused {}", refusal.trim()),
                None => format!("{number} {what}"),
            })
            .collect();
        notes.join(", ")
    }
}

/// Runs `amount` cases, each with its own generator, up to the first difference; its message names seed and case.
pub fn each_case(
    name: &str,
    seed: u64,
    amount: u64,
    mut one: impl FnMut(&mut Rng, &mut Tally) -> Result<(), String>,
) -> Result<Tally, String> {
    let mut tally = Tally::default();
    // Trials with the same seed have different cases.
    let own = name.bytes().fold(seed, |own, byte| {
        (own ^ u64::from(byte)).wrapping_mul(0x0000_0100_0000_01b3)
    });
    for case in 0..amount {
        let mut rng = Rng::of_case(own, case);
        catch_unwind(AssertUnwindSafe(|| one(&mut rng, &mut tally)))
            .unwrap_or_else(|cause| Err(panicked(cause.as_ref())))
            .map_err(|difference| format!("seed {seed:#x} case {case:#x}: {difference}"))?;
        tally.cases += 1;
    }
    Ok(tally)
}

/// What a panic said.
pub fn panicked(cause: &(dyn Any + Send)) -> String {
    let said = match (cause.downcast_ref::<String>(), cause.downcast_ref::<&str>()) {
        (Some(said), _) => said,
        (None, Some(said)) => *said,
        (None, None) => "",
    };
    format!("panic: {said}")
}

/// Bytes in hexadecimal.
pub fn hex(bytes: &[u8]) -> String {
    bytes.iter().map(|byte| format!("{byte:02x}")).collect()
}

/// Words in hexadecimal; a run of zeros is shortened.
pub fn hex_words(words: &[u64]) -> String {
    let mut text = Vec::new();
    let mut rest = words;
    while let Some(&word) = rest.first() {
        let zeros = rest.iter().take_while(|&&word| word == 0).count();
        if zeros > 2 {
            text.push(format!("0*{zeros}"));
            rest = &rest[zeros..];
        } else {
            text.push(format!("{word:x}"));
            rest = &rest[1..];
        }
    }
    format!("[{}]", text.join(" "))
}
