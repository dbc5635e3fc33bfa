//! Standard output with a slow reader: the program waits for it without spinning, and every line arrives.

use super::{endless, input, lying_in_pipe, with_triples, Case};
use crate::generate::Rng;
use crate::reference;
use crate::system::{set_nonblocking, SIGCONT, SIGSTOP};
use crate::trials::child::{incomplete, program, program_after, shown, Held, Run};
use std::io::{pipe, Read, Result};
use std::os::fd::OwnedFd;
use std::os::unix::net::UnixStream;
use std::process::Stdio;
use std::thread::{sleep, spawn, JoinHandle};
use std::time::Duration;

pub const CASES: [Case; 4] = [
    ("nonblocking pipe", slow_pipe),
    ("nonblocking socket", slow_socket),
    ("nonblocking pipe whose reader goes", reader_goes),
    ("pipe of a program that is stopped", stopped),
];

/// How long a program with very much to write has time to fill what is behind its standard output.
const FILLING: Duration = Duration::from_millis(100);

/// How long it is then looked at, and of how many parts of this time it may have the processor for one.
const WAITING: Duration = Duration::from_millis(600);
const PARTS: u32 = 3;

/// How long a slow reader sleeps each time before it reads, and how many bytes it then reads at most.
const SLEEP: Duration = Duration::from_millis(20);
const PIECE: usize = 65_536;

/// Inputs with 59,049 short lines and with 6,561 long ones, which a write may cut.
fn inputs(rng: &mut Rng) -> [Vec<u8>; 2] {
    [
        input(rng, 0, &with_triples(30, 10, 0)),
        input(rng, 0, &with_triples(64, 8, 0x5a5a_5a5a_5a5a_5a5a)),
    ]
}

fn slow_pipe(rng: &mut Rng) -> Held<()> {
    for input in inputs(rng) {
        let (reader, writer) = pipe()?;
        set_nonblocking(&writer)?;
        let run = start(&input, writer.into())?;
        does_not_spin(&run)?;
        all_arrives(run, read_slowly(reader), &input)?;
    }
    Ok(())
}

fn slow_socket(rng: &mut Rng) -> Held<()> {
    for input in inputs(rng) {
        let (reader, writer) = UnixStream::pair()?;
        writer.set_nonblocking(true)?;
        let run = start(&input, OwnedFd::from(writer).into())?;
        does_not_spin(&run)?;
        all_arrives(run, read_slowly(reader), &input)?;
    }
    Ok(())
}

/// The pipe is full when its reader goes.
fn reader_goes(rng: &mut Rng) -> Held<()> {
    let (reader, writer) = pipe()?;
    set_nonblocking(&writer)?;
    let mut command = program_after("trap '' PIPE");
    command.stdin(lying_in_pipe(&endless(rng))?).stdout(writer);
    let run = Run::start(command)?;
    sleep(FILLING);
    drop(reader);
    run.end()?.left("", &incomplete("Broken pipe"))
}

/// A pipe that blocks: where the program is stopped while it waits, its write ends early.
fn stopped(rng: &mut Rng) -> Held<()> {
    let [_, input] = inputs(rng);
    let (reader, writer) = pipe()?;
    let run = start(&input, writer.into())?;
    let reading = read_slowly(reader);
    for _ in 0..20 {
        sleep(SLEEP / 2);
        run.signal(SIGSTOP)?;
        sleep(SLEEP / 4);
        run.signal(SIGCONT)?;
    }
    all_arrives(run, reading, &input)
}

fn start(input: &[u8], writer: Stdio) -> Held<Run> {
    let mut command = program();
    command.stdin(lying_in_pipe(input)?).stdout(writer);
    Run::start(command)
}

/// While nobody reads, the program sleeps most of the time.
fn does_not_spin(run: &Run) -> Held<()> {
    sleep(FILLING);
    let before = run.processor_time()?;
    sleep(WAITING);
    let busy = run.processor_time()? - before;
    if busy * PARTS > WAITING {
        return Err(format!("busy for {busy:?} of {WAITING:?} while nobody reads").into());
    }
    Ok(())
}

/// Reads to the end, in a thread of its own.
fn read_slowly(mut reader: impl Read + Send + 'static) -> JoinHandle<Result<Vec<u8>>> {
    spawn(move || {
        let mut read = Vec::new();
        let mut piece = vec![0; PIECE];
        loop {
            sleep(SLEEP);
            match reader.read(&mut piece)? {
                0 => return Ok(read),
                length => read.extend(&piece[..length]),
            }
        }
    })
}

/// What is read is what the reference says, and standard error is empty.
fn all_arrives(run: Run, reading: JoinHandle<Result<Vec<u8>>>, input: &[u8]) -> Held<()> {
    let must = reference::program(input);
    let ended = run.end()?;
    let read = reading.join().expect("a reader does not panic")?;
    ended.left("", "")?;
    if read == must.as_bytes() {
        return Ok(());
    }
    let same = read.iter().zip(must.as_bytes()).take_while(|(a, b)| a == b);
    let (at, must) = (same.count(), must.len());
    Err(format!("read {}, must be {must}, differs at {at}", shown(&read)).into())
}
