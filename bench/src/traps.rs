//! Measuring the traps, each call in a process of its own with a time limit.

use crate::clock;
use crate::library::{self, Graph, RECORD, START};
use crate::verdict::Verdict;
use mastpickle_trials::generate::{traps, Rng, Trap};
use std::io::Read;
use std::process::{Child, Command, Stdio};
use std::str::FromStr;
use std::time::{Duration, Instant};

/// The traps, with the same shuffled labels in every run.
fn all() -> Vec<Trap> {
    traps(&mut Rng::new(1))
}

/// Room for the records of every trap whose groups are known, and some more.
const MOST_RECORDS: usize = 1000;

/// The call that is measured.
#[derive(Clone, Copy, PartialEq, Eq)]
pub enum Call {
    List,
    Largest,
}

impl Call {
    pub fn name(self) -> &'static str {
        match self {
            Call::List => "list",
            Call::Largest => "largest",
        }
    }
}

impl FromStr for Call {
    type Err = ();

    fn from_str(word: &str) -> Result<Call, ()> {
        [Call::List, Call::Largest]
            .into_iter()
            .find(|call| call.name() == word)
            .ok_or(())
    }
}

/// A trap's call and its seconds, or what is said where the limit passed or the answer was wrong.
pub struct Timed {
    pub name: String,
    pub call: Call,
    pub seconds: Result<f64, String>,
}

/// Measures every trap: the listing where the groups are known, and the largest.
pub fn measure(limit: f64, verdict: &mut Verdict) -> Vec<Timed> {
    let mut times = Vec::new();
    for (i, trap) in all().into_iter().enumerate() {
        for call in [Call::List, Call::Largest] {
            if call == Call::List && trap.groups.is_none() {
                continue;
            }
            let seconds = limited(i, call, limit);
            verdict.take(&format!("{}, {}", trap.name, call.name()), &seconds);
            times.push(Timed {
                name: trap.name.clone(),
                call,
                seconds,
            });
        }
    }
    times
}

/// The seconds of one call, measured by this program started again; an error where the limit passes.
fn limited(i: usize, call: Call, limit: f64) -> Result<f64, String> {
    let program = std::env::current_exe().map_err(|error| error.to_string())?;
    let mut child = Command::new(program)
        .args(["--trap", &i.to_string(), call.name()])
        .stdout(Stdio::piped())
        .spawn()
        .map_err(|error| error.to_string())?;
    if !ended_within(&mut child, limit) {
        child
            .kill()
            .and_then(|()| child.wait())
            .map_err(|error| error.to_string())?;
        return Err(format!("> {limit} s"));
    }
    let mut said = String::new();
    let pipe = child.stdout.as_mut().expect("the output goes into a pipe");
    pipe.read_to_string(&mut said)
        .map_err(|error| error.to_string())?;
    said.trim().parse().map_err(|_| said)
}

/// Waits for the end of a process, at most so many seconds.
fn ended_within(child: &mut Child, limit: f64) -> bool {
    let begin = Instant::now();
    while begin.elapsed().as_secs_f64() < limit {
        if child.try_wait().is_ok_and(|status| status.is_some()) {
            return true;
        }
        std::thread::sleep(Duration::from_millis(2));
    }
    false
}

/// Measures one call in this process and prints its seconds, or what is wrong.
pub fn print_one(i: usize, call: Call) {
    let trap = &all()[i];
    let seconds = match call {
        Call::List => list(trap),
        Call::Largest => largest(trap),
    };
    match seconds {
        Ok(seconds) => println!("{seconds}"),
        Err(fault) => println!("{fault}"),
    }
}

fn list(trap: &Trap) -> Result<f64, String> {
    let graph = Graph::new(&trap.graph);
    let mut out = vec![0; MOST_RECORDS * RECORD];
    let mut records = 0;
    let seconds = clock::best(|| records = graph.list_page(trap.k, START, &mut out).records);
    let listed = library::groups(&out[..records * RECORD]);
    if trap.groups.as_ref().is_some_and(|groups| *groups != listed) {
        return Err(format!("lists other groups, {}", listed.len()));
    }
    Ok(seconds)
}

fn largest(trap: &Trap) -> Result<f64, String> {
    let graph = Graph::new(&trap.graph);
    let mut sides = (0, 0);
    let seconds = clock::best(|| sides = graph.largest(trap.k));
    if sides == trap.largest {
        Ok(seconds)
    } else {
        Err(format!("finds {sides:x?} instead of {:x?}", trap.largest))
    }
}
