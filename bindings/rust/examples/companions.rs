//! What a companions sheet costs: a row added beside a question of the table with it (which is the 49: the sheet worked out
//! afresh and compared), and beside all n + 1 rows added anew, call by call; the least of many, in microseconds.
use ndigomarr::{Companions, Refusal};
use std::hint::black_box;
use std::time::{Duration, Instant};

/// Rows of three bases, one base further on each.
fn table(rows: u64) -> Result<Companions, Refusal> {
    let mut companions = Companions::new();
    for start in 0..rows {
        companions.add(start, start + 3)?;
    }
    Ok(companions)
}

/// The least time of a call, over many turns.
fn least(mut turn: impl FnMut() -> Duration) -> f64 {
    (0..2000).map(|_| turn()).min().expect("some turns").as_secs_f64() * 1e6
}

fn timed(call: impl FnOnce()) -> Duration {
    let begin = Instant::now();
    call();
    begin.elapsed()
}

fn main() -> Result<(), Refusal> {
    println!("| rows before | a row added | taken away | two rows asked | all rows added anew |");
    println!("|---:|---:|---:|---:|---:|");
    for rows in [0, 1, 15, 31, 63] {
        let mut kept = table(rows)?;
        let full = table(rows + 1)?;
        let added = least(|| {
            let time = timed(|| kept.add(rows, rows + 3).expect("room"));
            kept.remove().expect("the row just added");
            time
        });
        let taken = least(|| {
            kept.add(rows, rows + 3).expect("room");
            timed(|| kept.remove().expect("the row just added"))
        });
        let asked = least(|| timed(|| assert!(black_box(&full).together(0, rows as u32).is_ok())));
        let anew = least(|| timed(|| assert!(black_box(table(rows + 1)).is_ok())));
        println!("| {rows} | {added:.1} | {taken:.1} | {asked:.1} | {anew:.1} |");
    }
    Ok(())
}
