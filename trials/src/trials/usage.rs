//! The trial of the program's arguments: the usage, the version, and the usage where an argument is not known.

use super::child::{directory, incomplete, program, shown, Ended, Held, Run};
use super::header;
use super::tally::Tally;
use crate::system::terminal;
use std::ffi::{OsStr, OsString};
use std::fs::OpenOptions;
use std::io::pipe;
use std::os::unix::ffi::OsStrExt;
use std::os::unix::process::CommandExt;
use std::process::{Command, Stdio};

/// The most columns that a line of the usage has.
const COLUMNS: usize = 90;

pub fn run(_seed: u64, _amount: u64) -> Result<Tally, String> {
    let mut tally = Tally::default();
    held(&mut tally).map_err(|fault| fault.to_string())?;
    Ok(tally)
}

fn held(tally: &mut Tally) -> Held<()> {
    let usage = usage().map_err(|fault| format!("--help: {fault}"))?;
    example(&usage).map_err(|fault| format!("the example of --help: {fault}"))?;
    version().map_err(|fault| format!("--version: {fault}"))?;
    at_terminal(&usage).map_err(|fault| format!("at a terminal: {fault}"))?;
    own_name().map_err(|fault| format!("called --help: {fault}"))?;
    full_device().map_err(|fault| format!("on a full device: {fault}"))?;
    tally.cases += 6;
    for arguments in unknown() {
        let ended = with_arguments(&arguments)?;
        ended.left("", &usage).map_err(|fault| {
            let first = arguments.first().map(|first| shown(first.as_bytes()));
            format!("{} arguments, {first:?}: {fault}", arguments.len())
        })?;
        tally.cases += 1;
        tally.count("with unknown arguments");
    }
    Ok(())
}

/// A run with arguments, on an input that never comes and does not end.
fn with_arguments<S: AsRef<OsStr>>(arguments: &[S]) -> Held<Ended> {
    let (reader, writer) = pipe()?;
    let mut command = program();
    command.args(arguments).stdin(reader).stdout(Stdio::piped());
    let ended = Run::start(command)?.end()?;
    drop(writer);
    Ok(ended)
}

/// The usage, which `--help` prints.
fn usage() -> Held<String> {
    let ended = with_arguments(&["--help"])?;
    let usage = String::from_utf8_lossy(&ended.stdout).into_owned();
    ended.left(&usage, "")?;
    if !usage.starts_with("usage: groups") || !usage.ends_with('\n') {
        return Err(ended.to_string().into());
    }
    match usage.lines().find(|line| line.chars().count() > COLUMNS) {
        Some(line) => Err(format!("over {COLUMNS} columns: {line}").into()),
        None => Ok(usage),
    }
}

/// The command that the usage shows prints what the usage says.
fn example(usage: &str) -> Held<()> {
    let mut lines = usage
        .lines()
        .skip_while(|line| !line.starts_with("  printf "));
    let command = lines.next().ok_or("the usage has no line of printf")?;
    let must: String = lines
        .skip_while(|line| !line.starts_with("  "))
        .map_while(|line| line.strip_prefix("  "))
        .map(|line| format!("{line}\n"))
        .collect();
    if !must.lines().any(|line| line.starts_with("groups ")) {
        return Err("the usage does not say what its example prints".into());
    }
    let mut shell = Command::new("sh");
    shell.arg("-c").arg(command).env("PATH", directory_first());
    shell.stdin(Stdio::null()).stdout(Stdio::piped());
    Run::start(shell)?.end()?.left(&must, "")
}

/// The places of programs, that of the compiled program first.
fn directory_first() -> OsString {
    let mut path = directory().into_os_string();
    if let Some(others) = std::env::var_os("PATH") {
        path.push(":");
        path.push(others);
    }
    path
}

/// `--version` prints the version of the header.
fn version() -> Held<()> {
    let header = header::text()?;
    let line = format!("groups (Mastpickle) {}\n", header::version(&header)?);
    with_arguments(&["--version"])?.left(&line, "")
}

/// Without an argument a terminal is not read.
fn at_terminal(usage: &str) -> Held<()> {
    let (outer, inner) = terminal()?;
    let mut command = program();
    command.stdin(inner).stdout(Stdio::piped());
    let ended = Run::start(command)?.end()?;
    drop(outer);
    ended.left("", usage)
}

/// The name that a program is called by is no argument.
fn own_name() -> Held<()> {
    let mut command = program();
    command.arg0("--help").stdin(Stdio::null());
    command.stdout(Stdio::piped());
    Run::start(command)?.end()?.left("refused 1 at 0\n", "")
}

/// What these print may be lost as well.
fn full_device() -> Held<()> {
    for argument in ["--help", "--version"] {
        let mut command = program();
        command.arg(argument).stdin(Stdio::null());
        command.stdout(OpenOptions::new().write(true).open("/dev/full")?);
        let ended = Run::start(command)?.end()?;
        ended.left("", &incomplete("No space left on device"))?;
    }
    Ok(())
}

/// Lists of arguments that the program does not know.
fn unknown() -> Vec<Vec<OsString>> {
    let long = format!("--help{}", "x".repeat(5_000));
    let longer = "-".repeat(100_000);
    let lists: [&[&str]; 17] = [
        &["-h"],
        &["help"],
        &["--help", "x"],
        &["--help", ""],
        &["--help", "--help"],
        &[""],
        &["", "--help"],
        &["--helpx"],
        &["--hel"],
        &["--HELP"],
        &["--help "],
        &["--versio"],
        &["--versions"],
        &["--version", "--help"],
        &["-"],
        &[&long],
        &[&longer],
    ];
    let mut all: Vec<Vec<OsString>> = lists
        .iter()
        .map(|list| list.iter().map(OsString::from).collect())
        .collect();
    all.push(vec![OsStr::from_bytes(b"--help\xff").into()]);
    all.push(vec!["--help".into(); 1_000]);
    all
}
