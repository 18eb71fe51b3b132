//! What stands around a guided run: `corpus seeds FOLDER SEED` and `corpus plain FOLDER` write what it begins with, `corpus reached FOLDER..` tells what the inputs in
//! the folders reach of the archive, `corpus shrink INPUT OUT` writes the smallest input found that still shows a difference.
mod reached;

use guided::check::Checker;
use guided::seeds;
use judge::{describe, shrink};
use std::cell::RefCell;
use std::fs;
use std::io;
use std::path::Path;

fn write_all(folder: &str, jobs: Vec<Vec<u8>>) -> io::Result<()> {
    fs::create_dir_all(folder)?;
    for (at, job) in jobs.iter().enumerate() {
        fs::write(Path::new(folder).join(format!("{at:05}")), job)?;
    }
    println!("{} inputs to begin with", jobs.len());
    Ok(())
}

fn shrink_to(checker: Checker, input: &str, out: &str) -> io::Result<()> {
    let checker = RefCell::new(checker);
    let differs = |job: &[u8]| checker.borrow_mut().check(job).is_err();
    let found = fs::read(input)?;
    let small = shrink::bytes(found.clone(), differs);
    // a job whose settings are NaNs is not written as it was read
    let small = if differs(&small) { small } else { found };
    let words = checker.borrow_mut().check(&small).err().unwrap_or_else(|| "no difference in a process of its own".to_string());
    println!("{} bytes: {}\n{words}", small.len(), describe::bytes(&small));
    fs::write(out, small)
}

fn main() -> io::Result<()> {
    // words of no mistake stop the run here, before it begins
    let checker = Checker::new(std::env::var("GUIDED_PLANTED").ok().as_deref());
    let words: Vec<String> = std::env::args().skip(1).collect();
    let words: Vec<&str> = words.iter().map(String::as_str).collect();
    match words[..] {
        ["seeds", folder, seed] => write_all(folder, seeds::seeds(seed.parse().expect("SEED is a whole number"), 500)?),
        ["plain", folder] => write_all(folder, seeds::plain()?),
        ["reached", ref folders @ ..] => reached::report(checker, folders),
        ["shrink", input, out] => shrink_to(checker, input, out),
        _ => panic!("corpus seeds FOLDER SEED | plain FOLDER | reached FOLDER.. | shrink INPUT OUT; not {words:?}"),
    }
}
