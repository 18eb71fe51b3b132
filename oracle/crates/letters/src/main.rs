//! `letters K [negative] < TEXT`: the words of K letters that stand in the text, without bytes that were not read, each with its count.
use std::io::Read;
use std::process::ExitCode;

fn main() -> ExitCode {
    let given: Vec<String> = std::env::args().skip(1).collect();
    let k = given.first().and_then(|word| word.parse().ok()).filter(|k| (1..=6).contains(k));
    let (Some(k), [_] | [_, _]) = (k, &given[..]) else {
        eprintln!("write: letters K [negative] < TEXT, with K from 1 to 6");
        return ExitCode::from(2);
    };
    let mut text = Vec::new();
    if let Err(fault) = std::io::stdin().read_to_end(&mut text) {
        eprintln!("standard input cannot be read ({fault})");
        return ExitCode::from(2);
    }
    let row = letters::row(k, &text, given.len() == 2);
    for (word, count) in letters::words(k.into()).iter().zip(row).filter(|(_, count)| *count != 0) {
        println!("{} {count}", word.escape_ascii());
    }
    ExitCode::SUCCESS
}
