//! Many searches one after the other in one room, so that memory is asked for once.
use ndigomarr::{apply_haplotype_in, count_chains, Refusal, Room, Settings};

fn main() -> Result<(), Refusal> {
    let settings = Settings { k: 2, minkfreq: 1, ..Settings::default() };
    let mut table = settings.table();
    table.insertion(100, b"ACGTAC")?;
    table.deletion(150, b"GGTTA")?;
    table.insertion(200, b"TTTTTT")?;
    println!("the table has {} paths", count_chains(&table, settings.full, 4096)?);
    let mut room = Room::new();
    for letters in [b"ACGTAC", b"TTTTTT", b"GATACA"] {
        let mut haplotype = settings.haplotype();
        haplotype.insertion(letters)?;
        let answer = apply_haplotype_in(&settings, &table, &haplotype, &mut room)?;
        println!("{}: rows {:?}, score {}", String::from_utf8_lossy(letters), answer.rows, answer.score);
    }
    Ok(())
}
