//! Runs the library against a second implementation, over generated cases.

use mastpickle_trials::{options, run, worked};
use std::process::ExitCode;

fn main() -> ExitCode {
    let options = match options::read(std::env::args().skip(1)) {
        Ok(options) => options,
        Err(message) => {
            eprintln!("{message}");
            return ExitCode::from(2);
        }
    };
    if options.expected {
        print!("{}", worked::expected());
        return ExitCode::SUCCESS;
    }
    let (passed, failed) = match options.soak {
        Some(seconds) => run::soak(&options, seconds),
        None => run::once(&options, options.seed, 1, true),
    };
    println!("{passed} passed, {failed} failed");
    if failed > 0 {
        ExitCode::FAILURE
    } else {
        ExitCode::SUCCESS
    }
}
