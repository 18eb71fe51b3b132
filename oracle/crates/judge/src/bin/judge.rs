//! Prints what the program must print for a job's bytes: `judge JOBFILE`, or the job on standard input.
use std::{fs, io, io::Read};

fn main() -> io::Result<()> {
    let mut bytes = vec![];
    match std::env::args().nth(1) {
        Some(file) => bytes = fs::read(file)?,
        None => {
            io::stdin().read_to_end(&mut bytes)?;
        }
    }
    print!("{}", judge::program::text(&bytes));
    Ok(())
}
