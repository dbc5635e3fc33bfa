//! The options of the command line.

use crate::traps::Call;
use std::str::FromStr;

pub struct Options {
    pub check: bool,
    /// The one part that is run, where it is not all.
    pub only: Option<Part>,
    pub trap_limit: f64,
    /// One trap and call, for a run that a benchmark starts with a time limit.
    pub trap: Option<(usize, Call)>,
}

/// A part of the benchmark that can be run alone; it then prints what it measured and writes no file.
#[derive(Clone, Copy)]
pub enum Part {
    Reduction,
    Masked,
    Decoding,
}

impl FromStr for Part {
    type Err = ();

    fn from_str(word: &str) -> Result<Part, ()> {
        match word {
            "reduction" => Ok(Part::Reduction),
            "masked" => Ok(Part::Masked),
            "decoding" => Ok(Part::Decoding),
            _ => Err(()),
        }
    }
}

const USAGE: &str =
    "usage: mastpickle-bench [--check] [--only reduction|masked|decoding] [--trap-limit SECONDS]";

pub fn read(mut words: impl Iterator<Item = String>) -> Result<Options, String> {
    let mut options = Options {
        check: false,
        only: None,
        trap_limit: 5.0,
        trap: None,
    };
    while let Some(word) = words.next() {
        match word.as_str() {
            "--check" => options.check = true,
            "--only" => options.only = Some(value(words.next())?),
            "--trap-limit" => options.trap_limit = value(words.next())?,
            "--trap" => options.trap = Some((value(words.next())?, value(words.next())?)),
            _ => return Err(USAGE.to_string()),
        }
    }
    Ok(options)
}

fn value<T: FromStr>(word: Option<String>) -> Result<T, String> {
    let word = word.ok_or(USAGE)?;
    word.parse().map_err(|_| USAGE.to_string())
}
