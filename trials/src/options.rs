//! The options of the command line.

use crate::trials::TRIALS;

pub struct Options {
    pub seed: u64,
    pub soak: Option<u64>,
    pub only: Option<String>,
    pub expected: bool,
}

const USAGE: &str =
    "usage: mastpickle-trials [--seed S] [--soak SECONDS] [--only NAME] [--expected]";

pub fn read(mut words: impl Iterator<Item = String>) -> Result<Options, String> {
    let mut options = Options {
        seed: 1,
        soak: None,
        only: None,
        expected: false,
    };
    while let Some(word) = words.next() {
        match word.as_str() {
            "--expected" => options.expected = true,
            "--seed" => options.seed = number(words.next())?,
            "--soak" => options.soak = Some(number(words.next())?),
            "--only" => options.only = Some(name(words.next())?),
            _ => return Err(USAGE.to_string()),
        }
    }
    Ok(options)
}

/// A number, decimal or hexadecimal with 0x.
fn number(word: Option<String>) -> Result<u64, String> {
    let word = word.ok_or(USAGE)?;
    let number = match word.strip_prefix("0x") {
        Some(digits) => u64::from_str_radix(digits, 16),
        None => word.parse(),
    };
    number.map_err(|_| format!("{word} is no number"))
}

/// The name of a trial.
fn name(word: Option<String>) -> Result<String, String> {
    let word = word.ok_or(USAGE)?;
    if TRIALS.iter().any(|trial| trial.name == word) {
        Ok(word)
    } else {
        Err(format!("there is no trial {word}"))
    }
}
