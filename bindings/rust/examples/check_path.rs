//! What a check of a proposed path costs beside the search that finds it: the least of many, in microseconds. Each check looks at the whole table, as
//! every call does, and then scores one list, however many lists there are.
use ndigomarr::{apply_haplotype_in, check_path, Haplotype, Refusal, Room, Settings, Table};
use std::hint::black_box;
use std::time::{Duration, Instant};

/// Insertions of eight letters, each another window more.
fn letters(at: usize) -> Vec<u8> {
    (0..8).map(|place| b"AGCT"[(at >> (2 * (place % 3))) % 4]).collect()
}

fn least(turns: usize, mut turn: impl FnMut() -> Duration) -> f64 {
    (0..turns).map(|_| turn()).min().expect("some turns").as_secs_f64() * 1e6
}

fn timed(call: impl FnOnce()) -> Duration {
    let begin = Instant::now();
    call();
    begin.elapsed()
}

/// How many lists of parts there are.
fn lists(m: usize, settings: &Settings) -> u64 {
    if m >= settings.pileupmax as usize {
        return 1;
    }
    let choose = |n: u64| (0..n).fold(1, |product, taken| product * (m as u64 - taken) / (taken + 1));
    ((m.saturating_sub(settings.fnmax as usize).max(1)) as u64..=m as u64).map(choose).sum()
}

fn main() -> Result<(), Refusal> {
    println!("| V | m | fnmax | part lists | a check | its search |");
    println!("|---:|---:|---:|---:|---:|---:|");
    for (v, m, fnmax) in [(4, 3, 0), (64, 3, 0), (64, 3, 2), (64, 11, 0), (64, 11, 10), (64, 64, 0)] {
        let settings = Settings { fnmax, sizesim: 0.0, seqsim: 0.0, minkfreq: 1, maxpaths: 255, ..Settings::default() };
        let (mut table, mut haplotype): (Table, Haplotype) = (settings.table(), settings.haplotype());
        for row in 0..v {
            table.insertion(10 * row as u64, &letters(row))?;
        }
        for part in 0..m {
            haplotype.insertion(&letters(part))?;
        }
        let mut room = Room::new();
        let answer = apply_haplotype_in(&settings, &table, &haplotype, &mut room)?;
        let parts: Vec<usize> = (0..m).collect();
        let checked = least(2000, || timed(|| assert!(black_box(check_path(&settings, &table, &haplotype, &answer.rows, &parts, answer.score)).is_ok())));
        let searched = least(20, || timed(|| assert!(black_box(apply_haplotype_in(&settings, &table, &haplotype, &mut room)).is_ok())));
        println!("| {v} | {m} | {fnmax} | {} | {checked:.1} | {searched:.1} |", lists(m, &settings));
    }
    Ok(())
}
