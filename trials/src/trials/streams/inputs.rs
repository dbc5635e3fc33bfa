//! Standard input of other kinds than files and pipes with a writer: read whole, or refused with one line on standard error.

use super::{input, lying_in_pipe, with_triples, Case};
use crate::generate::Rng;
use crate::reference;
use crate::system::set_nonblocking;
use crate::trials::child::{program, program_after, Held, Run};
use std::fs::File;
use std::io::{pipe, Write};
use std::process::{Command, Stdio};

pub const CASES: [Case; 6] = [
    ("directory", directory),
    ("closed input", closed_input),
    ("nonblocking input with nothing", nothing_there),
    ("nonblocking input with a part", part_there),
    ("nonblocking input with all", all_there),
    ("empty input", empty_input),
];

/// A small input, which has groups.
fn small(rng: &mut Rng) -> Vec<u8> {
    input(rng, 1, &with_triples(9, 2, 0b1001))
}

/// The command prints nothing, and the line for an error of a read.
fn cannot_read(mut command: Command, error: &str) -> Held<()> {
    command.stdout(Stdio::piped());
    let ended = Run::start(command)?.end()?;
    let line = format!("groups: cannot read standard input: {error}\n");
    ended.left("", &line)
}

fn directory(_rng: &mut Rng) -> Held<()> {
    let mut command = program();
    command.stdin(File::open(std::env::temp_dir())?);
    cannot_read(command, "Is a directory")
}

fn closed_input(_rng: &mut Rng) -> Held<()> {
    cannot_read(program_after("exec <&-"), "Bad file descriptor")
}

fn nothing_there(_rng: &mut Rng) -> Held<()> {
    before_the_rest(&[])
}

fn part_there(rng: &mut Rng) -> Held<()> {
    let input = small(rng);
    before_the_rest(&input[..input.len() / 2])
}

/// These bytes lie in a nonblocking pipe whose writer is open.
fn before_the_rest(bytes: &[u8]) -> Held<()> {
    let (reader, mut writer) = pipe()?;
    writer.write_all(bytes)?;
    set_nonblocking(&reader)?;
    let mut command = program();
    command.stdin(reader);
    cannot_read(command, "Resource temporarily unavailable")?;
    drop(writer);
    Ok(())
}

fn all_there(rng: &mut Rng) -> Held<()> {
    let input = small(rng);
    let reader = lying_in_pipe(&input)?;
    set_nonblocking(&reader)?;
    let mut command = program();
    command.stdin(reader).stdout(Stdio::piped());
    let must = reference::program(&input);
    Run::start(command)?.end()?.left(&must, "")
}

fn empty_input(_rng: &mut Rng) -> Held<()> {
    let mut command = program();
    command.stdin(Stdio::null()).stdout(Stdio::piped());
    Run::start(command)?.end()?.left("refused 1 at 0\n", "")
}
