//! Standard output that fails: the program ends soon, and one line on standard error says that the output is incomplete.

use super::{endless, input, lying_in_pipe, with_triples, Case, ENDLESS_FIRST};
use crate::generate::Rng;
use crate::reference;
use crate::trials::child::{incomplete, program, program_after, shown, Ended, Held, Run};
use std::fs::{File, OpenOptions};
use std::io::{pipe, Read};
use std::path::Path;
use std::process::Command;
use std::thread::spawn;

pub const CASES: [Case; 6] = [
    ("full device", full_device),
    ("file at its limit", file_at_limit),
    ("closed output", closed_output),
    ("closed output and error", closed_both),
    ("closed pipe", closed_pipe),
    ("closed pipe with SIGPIPE ignored", closed_pipe_ignored),
];

/// Inputs with one line of output, with few lines and with very many.
fn inputs(rng: &mut Rng) -> [Vec<u8>; 4] {
    [
        Vec::new(),
        vec![33, 0x10, 0, 0xff],
        input(rng, 0, &with_triples(9, 2, 0b1001)),
        endless(rng),
    ]
}

fn full_device(rng: &mut Rng) -> Held<()> {
    for input in inputs(rng) {
        let mut command = program();
        let device = OpenOptions::new().write(true).open("/dev/full")?;
        command.stdin(lying_in_pipe(&input)?).stdout(device);
        let ended = Run::start(command)?.end()?;
        ended.left("", &incomplete("No space left on device"))?;
    }
    Ok(())
}

fn closed_output(rng: &mut Rng) -> Held<()> {
    for input in inputs(rng) {
        let mut command = program_after("exec >&-");
        command.stdin(lying_in_pipe(&input)?);
        let ended = Run::start(command)?.end()?;
        ended.left("", &incomplete("Bad file descriptor"))?;
    }
    Ok(())
}

/// Where the line cannot be written either, the program ends all the same.
fn closed_both(rng: &mut Rng) -> Held<()> {
    let mut command = program_after("exec >&- 2>&-");
    command.stdin(lying_in_pipe(&endless(rng))?);
    Run::start(command)?.end()?.left("", "")
}

/// A file that may have 4,096 bytes, in place of a file system that is full in the middle of the output.
fn file_at_limit(rng: &mut Rng) -> Held<()> {
    let name = format!("mastpickle-trials-limit-{}", std::process::id());
    let name = std::env::temp_dir().join(name);
    let result = fill_file(rng, &name);
    // The file is not there where it could not be made.
    let _ = std::fs::remove_file(&name);
    result
}

fn fill_file(rng: &mut Rng, name: &Path) -> Held<()> {
    let input = input(rng, 0, &with_triples(40, 6, 0xf0f0_f0f0_f0f0));
    let must = reference::program(&input);
    let mut command = program_after("trap '' XFSZ; ulimit -f 8");
    command.stdin(lying_in_pipe(&input)?);
    command.stdout(File::create(name)?);
    let ended = Run::start(command)?.end()?;
    ended.left("", &incomplete("File too large"))?;
    let file = std::fs::read(name)?;
    if file.len() == 4096 && must.as_bytes().starts_with(&file) {
        Ok(())
    } else {
        Err(format!("the file has {}", shown(&file)).into())
    }
}

/// The program ignores the signal SIGPIPE, so the write fails.
fn closed_pipe(rng: &mut Rng) -> Held<()> {
    let ended = after_first_line(rng, program())?;
    ended.left("", &incomplete("Broken pipe"))
}

fn closed_pipe_ignored(rng: &mut Rng) -> Held<()> {
    let ended = after_first_line(rng, program_after("trap '' PIPE"))?;
    ended.left("", &incomplete("Broken pipe"))
}

/// A run whose output is closed behind the first of very many lines.
fn after_first_line(rng: &mut Rng, mut command: Command) -> Held<Ended> {
    let (mut reader, writer) = pipe()?;
    command.stdin(lying_in_pipe(&endless(rng))?).stdout(writer);
    let run = Run::start(command)?;
    let reading = spawn(move || {
        let mut first = [0; ENDLESS_FIRST.len()];
        reader.read_exact(&mut first).map(|()| first)
    });
    let ended = run.end()?;
    let first = reading.join().expect("a reader does not panic")?;
    if first == ENDLESS_FIRST.as_bytes() {
        Ok(ended)
    } else {
        Err(format!("the first line is {}", shown(&first)).into())
    }
}
