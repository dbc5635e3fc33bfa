//! The trial of the program `groups`: its output for an input from a file and through a pipe, and no word on standard error.

use super::kinds::{count_kinds, ISOLATED, MASKED};
use super::tally::{each_case, hex, Tally};
use super::{child, cut_inputs};
use crate::generate::{
    amended_to_length, amendment_list, damaged, damaged_amendments, edge_list, fill, graph,
    mutated, random_bytes, Rng, AMENDMENT_REFUSALS, REFUSALS,
};
use crate::reference::{decode, program, MOST_INPUT};
use std::fs::File;
use std::io::{ErrorKind, Write};
use std::path::Path;
use std::process::{Output, Stdio};
use std::time::Duration;

/// Reports with groups of a graph that has masked vertices.
const BESIDE_MASKED: &str = "with groups beside masked vertices";

/// Reports on amendment lists, and refusals of amendment lists.
const AMENDMENTS: [&str; 2] = ["reports on amendment lists", "amendment lists refused"];

pub fn run(seed: u64, amount: u64) -> Result<Tally, String> {
    let file =
        std::env::temp_dir().join(format!("mastpickle-trials-{}-{seed:x}", std::process::id()));
    let tally = all_cases(seed, amount, &file);
    // The file is not there where no case used one.
    let _ = std::fs::remove_file(&file);
    let tally = tally?;
    tally.each_counted(&[ISOLATED, BESIDE_MASKED, "refused 15"])?;
    tally.each_counted(&MASKED)?;
    tally.each_counted(&AMENDMENTS)?;
    Ok(tally)
}

fn all_cases(seed: u64, amount: u64, file: &Path) -> Result<Tally, String> {
    let cuts = cut_inputs::check(&mut Rng::new(seed), file)
        .map_err(|fault| format!("seed {seed:#x}: {fault}"))?;
    let mut tally = each_case("program", seed, amount, |rng, tally| {
        let input = input(rng);
        let printed = if rng.chance(40) {
            tally.count("from a file");
            from_file(file, &input)
        } else {
            tally.count("through a pipe");
            through_pipe(&pieces(rng, &input))
        };
        let printed = printed.map_err(|fault| format!("the program: {fault}"))?;
        let must = program(&input);
        count(tally, &input, &must);
        hold(&printed, &must).map_err(|fault| format!("{}{fault}", hex(&input)))
    })?;
    tally.add("runs on inputs that may be cut", cuts);
    Ok(tally)
}

/// Nothing where the program printed what it must, and no word on standard error.
pub fn hold(printed: &Output, must: &str) -> Result<(), String> {
    if printed.stdout == must.as_bytes() && printed.stderr.is_empty() {
        return Ok(());
    }
    let [left, error] = [&printed.stdout, &printed.stderr].map(|s| String::from_utf8_lossy(s));
    Err(format!(
        "\n  left {left}\n  must {must}\n  standard error {error}"
    ))
}

fn count(tally: &mut Tally, input: &[u8], must: &str) {
    let first = must.lines().next().unwrap_or("");
    let amends = u64::from(input.get(1) == Some(&0x11));
    match first.strip_prefix("refused ") {
        Some("11") => tally.count("refused 11"),
        Some(rest) => {
            tally.count(&format!("refused {}", rest.split(' ').next().unwrap_or("")));
            tally.add(AMENDMENTS[1], amends);
        }
        None => {
            count_report(tally, input, must.lines().count() as u64 - 2);
            tally.add(AMENDMENTS[0], amends);
        }
    }
    if input.len() > MOST_INPUT {
        tally.count("longer than 65,536 bytes");
    }
}

/// Counts an accepted input with so many groups.
fn count_report(tally: &mut Tally, input: &[u8], groups: u64) {
    let read = &input[..input.len().min(MOST_INPUT)];
    let (&k, list) = read.split_first().expect("empty input is refused");
    let graph = decode(list).expect("a report is for an accepted list");
    tally.add("groups", groups);
    count_kinds(tally, &graph, k.into());
    if graph.masked != 0 && groups > 0 {
        tally.count(BESIDE_MASKED);
    }
}

/// A byte k and a list of any kind, or next to nothing.
fn input(rng: &mut Rng) -> Vec<u8> {
    let list = match rng.below(16) {
        0 => return Vec::new(),
        1 => Vec::new(),
        2..=6 => edge_list(rng).1,
        7 | 8 => {
            let any = rng.pick(&REFUSALS);
            let refusal = rng.pick(&[any, any, 15]);
            damaged(rng, refusal).bytes
        }
        9 => {
            let list = edge_list(rng).1;
            mutated(rng, list)
        }
        10..=14 => any_amendment_list(rng),
        _ => random_bytes(rng),
    };
    let k = match rng.below(10) {
        0 => rng.between(33, 255) as u8,
        1 => rng.pick(&[32, 33, 255]),
        _ => rng.pick(&[0, 0, 0, 0, 1, 1, 2, 3, 4]),
    };
    let mut input = vec![k];
    input.extend(list);
    if rng.chance(4) {
        let length = rng.pick(&[65_535, 65_536, 65_537, 65_600, 131_073, 200_000]);
        let filling = rng.pick(&[0x00, 0x21, 0x23, 0xff]);
        input.resize(length, filling);
    }
    input
}

/// An amendment list of any kind.
fn any_amendment_list(rng: &mut Rng) -> Vec<u8> {
    match rng.below(10) {
        0..=5 => amendment_list(rng).1,
        6 | 7 => {
            let refusal = rng.pick(&AMENDMENT_REFUSALS);
            damaged_amendments(rng, refusal).bytes
        }
        8 => {
            let list = amendment_list(rng).1;
            mutated(rng, list)
        }
        _ => closed_near_end(rng),
    }
}

/// An amendment list that closes around the last byte that is read, with or without more behind.
fn closed_near_end(rng: &mut Rng) -> Vec<u8> {
    let mut graph = loop {
        let graph = graph(rng);
        if graph.n > 1 {
            break graph;
        }
    };
    graph.mask(0);
    let length = MOST_INPUT - rng.length(0, 4);
    let mut list = amended_to_length(rng, &graph, length);
    list.push(0xff);
    if rng.chance(50) {
        let length = list.len() + rng.length(2, 300);
        fill(rng, &mut list, &[0], length);
    }
    list
}

pub fn from_file(file: &Path, input: &[u8]) -> std::io::Result<Output> {
    std::fs::write(file, input)?;
    child::program().stdin(File::open(file)?).output()
}

/// Writes the pieces of an input one by one, while the output is read.
pub fn through_pipe(pieces: &[Piece]) -> std::io::Result<Output> {
    let mut child = child::program()
        .stdin(Stdio::piped())
        .stdout(Stdio::piped())
        .stderr(Stdio::piped())
        .spawn()?;
    std::thread::scope(|scope| {
        let stdin = child.stdin.take();
        scope.spawn(|| write_pieces(stdin, pieces));
        child.wait_with_output()
    })
}

/// A piece of an input, with the microseconds to wait in front of it.
pub type Piece<'a> = (u64, &'a [u8]);

/// Cuts an input into random pieces, with short pauses.
pub fn pieces<'a>(rng: &mut Rng, input: &'a [u8]) -> Vec<Piece<'a>> {
    let most = rng.pick(&[1, 7, 100, 5_000, 100_000]).max(input.len() / 12);
    let mut pieces = Vec::new();
    let mut rest = input;
    while !rest.is_empty() {
        let (piece, behind) = rest.split_at(rng.length(1, most.min(rest.len())));
        let pause = rng.pick(&[0, 0, 20, 150]);
        pieces.push((pause, piece));
        rest = behind;
    }
    pieces
}

fn write_pieces(stdin: Option<std::process::ChildStdin>, pieces: &[Piece]) {
    let mut stdin = stdin.expect("the program's input is a pipe");
    for &(pause, piece) in pieces {
        if pause > 0 {
            std::thread::sleep(Duration::from_micros(pause));
        }
        match stdin.write_all(piece).and_then(|()| stdin.flush()) {
            Ok(()) => {}
            // The program reads no more than it needs.
            Err(fault) if fault.kind() == ErrorKind::BrokenPipe => return,
            Err(fault) => panic!("writing to the program: {fault}"),
        }
    }
}
