//! Running the trials, two at a time.

use crate::options::Options;
use crate::trials::{panicked, Tally, Trial, TRIALS};
use std::panic::{catch_unwind, AssertUnwindSafe};
use std::sync::atomic::{AtomicUsize, Ordering};
use std::sync::Mutex;
use std::time::{Duration, Instant};

const THREADS: usize = 2;

/// Runs every chosen trial once, with one part of so many of its cases; gives how many passed and how many failed.
pub fn once(options: &Options, seed: u64, parts: u64, print: bool) -> (u64, u64) {
    let chosen: Vec<&Trial> = TRIALS
        .iter()
        .filter(|trial| options.only.as_ref().is_none_or(|only| only == trial.name))
        .collect();
    let next = AtomicUsize::new(0);
    let results: Mutex<Vec<Option<Result<Tally, String>>>> =
        Mutex::new(chosen.iter().map(|_| None).collect());
    std::thread::scope(|scope| {
        for _ in 0..THREADS {
            scope.spawn(|| loop {
                let i = next.fetch_add(1, Ordering::Relaxed);
                let Some(trial) = chosen.get(i) else { return };
                let result = guarded(trial, seed, trial.amount.div_ceil(parts));
                results.lock().expect("no thread panics")[i] = Some(result);
            });
        }
    });
    let results = results.into_inner().expect("no thread panics");
    let mut failed = 0;
    for (trial, result) in chosen.iter().zip(results) {
        let result = result.unwrap_or_else(|| Err("did not run".to_string()));
        failed += u64::from(result.is_err());
        if print || result.is_err() {
            println!("{}", line(trial, &result));
        }
    }
    (chosen.len() as u64 - failed, failed)
}

/// One trial's result; a panic is a failure.
fn guarded(trial: &Trial, seed: u64, amount: u64) -> Result<Tally, String> {
    catch_unwind(AssertUnwindSafe(|| (trial.run)(seed, amount)))
        .unwrap_or_else(|cause| Err(format!("seed {seed:#x}: {}", panicked(cause.as_ref()))))
}

fn line(trial: &Trial, result: &Result<Tally, String>) -> String {
    match result {
        Ok(tally) if tally.notes().is_empty() => {
            format!("trial {}: {} cases", trial.name, tally.cases)
        }
        Ok(tally) => format!(
            "trial {}: {} cases ({})",
            trial.name,
            tally.cases,
            tally.notes()
        ),
        Err(difference) => format!("trial {}: FAILED {difference}", trial.name),
    }
}

/// Seconds between two lines of a soak.
const SILENCE: u64 = 10;

/// A soak takes this part of the cases for each seed, so that it ends soon after its time.
const PARTS: u64 = 10;

/// Runs the trials with one seed after another until the time is over.
pub fn soak(options: &Options, seconds: u64) -> (u64, u64) {
    let begin = Instant::now();
    let (mut passed, mut failed) = (0, 0);
    let mut seed = options.seed;
    let mut next_line = 0;
    while begin.elapsed() < Duration::from_secs(seconds) {
        let (good, bad) = once(options, seed, PARTS, false);
        passed += good;
        failed += bad;
        let elapsed = begin.elapsed().as_secs();
        if elapsed >= next_line {
            println!("up to seed {seed:#x}: {passed} passed, {failed} failed after {elapsed} s");
            next_line = elapsed + SILENCE;
        }
        seed = seed.wrapping_add(1);
    }
    (passed, failed)
}
