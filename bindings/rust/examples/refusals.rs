//! A refusal is a value: its number, its words, and a case to match.
use ndigomarr::{apply_haplotype, Refusal, Settings};

fn main() {
    let settings = Settings { maxpaths: 5_000, ..Settings::default() };
    match apply_haplotype(&settings, &settings.table(), &settings.haplotype()) {
        Ok(answer) => println!("{answer:?}"),
        Err(Refusal::BadNumber) => println!("write maxpaths as 4,095 at the most"),
        Err(other) => println!("{other}"),
    }
}
