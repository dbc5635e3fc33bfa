//! Builds the shims of the peers in C, each where its header is installed.

use std::path::PathBuf;
use std::process::{Command, Stdio};

fn main() {
    let compiler = std::env::var("RUSTC").expect("cargo names the compiler");
    let compiler = told(&compiler, &["--version"]);
    println!("cargo::rustc-env=COMPILER={compiler}");
    let igraph = told("pkg-config", &["--modversion", "igraph"]);
    println!("cargo::rustc-env=IGRAPH={igraph}");
    println!("cargo::rustc-check-cfg=cfg(igraph)");
    println!("cargo::rustc-check-cfg=cfg(cliquer)");
    let flags = told("pkg-config", &["--cflags", "igraph"]);
    let flags: Vec<&str> = flags.split_whitespace().collect();
    peer("igraph", &flags, "#include <igraph.h>\n");
    peer("cliquer", &[], "#include <cliquer/cliquer.h>\n");
}

/// What a program prints; nothing where it cannot be run.
fn told(program: &str, arguments: &[&str]) -> String {
    let output = Command::new(program).args(arguments).output();
    let printed = output.map(|output| output.stdout).unwrap_or_default();
    String::from_utf8_lossy(&printed).trim().to_string()
}

/// Builds and links the shim of a peer where its header can be included.
fn peer(name: &str, flags: &[&str], header: &str) {
    let source = format!("peers/{name}.c");
    println!("cargo::rerun-if-changed={source}");
    let built = PathBuf::from(std::env::var("OUT_DIR").expect("cargo names the output directory"));
    let probe = built.join(format!("{name}_header.c"));
    std::fs::write(&probe, header).expect("the output directory can be written");
    let found = Command::new("gcc")
        .args(flags)
        .arg("-E")
        .arg(&probe)
        .stdout(Stdio::null())
        .stderr(Stdio::null())
        .status();
    if !found.is_ok_and(|status| status.success()) {
        return;
    }
    let object = built.join(format!("{name}.o"));
    run(Command::new("gcc")
        .args(["-std=c11", "-O3", "-Wall", "-Wextra", "-Werror"])
        .args(flags)
        .args(["-c", &source, "-o"])
        .arg(&object));
    run(Command::new("ar")
        .arg("rcs")
        .arg(built.join(format!("libshim_{name}.a")))
        .arg(&object));
    println!("cargo::rustc-cfg={name}");
    println!("cargo::rustc-link-search=native={}", built.display());
    println!("cargo::rustc-link-lib=static=shim_{name}");
    println!("cargo::rustc-link-lib={name}");
}

fn run(command: &mut Command) {
    let status = command.status().expect("the command is on the path");
    assert!(status.success(), "{command:?} failed");
}
