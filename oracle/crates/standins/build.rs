//! Compares kanpig's files with their sums, copies them to OUT_DIR, and patches the copies of the second build.
use std::{env, fs, path::Path, process::Command};

const FILES: [&str; 7] = [
    "graphparams", "haplotype", "kmer", "metrics", "pathscore", "traverse", "vargraph",
];

fn run(command: &mut Command) {
    let done = command.status().expect("a build tool is missing");
    assert!(done.success(), "failed: {command:?}");
}

fn main() {
    let here = env::var("CARGO_MANIFEST_DIR").unwrap();
    let oracle = Path::new(&here).ancestors().nth(2).unwrap();
    let out = env::var("OUT_DIR").unwrap();
    for watched in ["kplib", "patches", "crates/standins"] {
        println!("cargo:rerun-if-changed={}", oracle.join(watched).display());
    }
    run(Command::new("sha256sum")
        .args(["--check", "--strict", "--quiet", "SHA256SUMS"])
        .current_dir(oracle.join("kplib")));
    for file in FILES {
        let name = format!("{file}.rs");
        fs::copy(oracle.join("kplib").join(&name), Path::new(&out).join(&name)).unwrap();
    }
    if env::var("CARGO_PKG_NAME").unwrap() == "ordered" {
        for patch in ["order.patch", "squish.patch", "overlap.patch"] {
            run(Command::new("patch")
                .args(["--strip=1", "--fuzz=0", "--no-backup-if-mismatch", "--directory", &out, "--input"])
                .arg(oracle.join("patches").join(patch)));
        }
    }
}
