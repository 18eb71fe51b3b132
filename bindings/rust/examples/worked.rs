//! The worked example: two insertions, a haplotype of one part, and the row that explains it.
use ndigomarr::{apply_haplotype, Refusal, Settings};

fn main() -> Result<(), Refusal> {
    let settings = Settings { k: 1, minkfreq: 1, ..Settings::default() };
    let mut table = settings.table();
    table.insertion(10, b"AG")?;
    table.insertion(20, b"CT")?;
    let mut haplotype = settings.haplotype();
    haplotype.insertion(b"AG")?;

    let answer = apply_haplotype(&settings, &table, &haplotype)?;
    println!("rows {:?}, score {}, {} paths scored, complete: {}", answer.rows, answer.score, answer.scored, answer.complete);
    Ok(())
}
