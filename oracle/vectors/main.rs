//! Makes the list of inputs for crates/metrics_vectors, and answers it by kanpig's own functions.
//!   vectors list           prints the list
//!   vectors answer <LIST   prints an answer for each line
//! A line is one of
//!   c K NEGATIVE ROOM COUNT LETTERS   counts the windows of K letters of LETTERS, repeated to COUNT letters, in a row of ROOM entries
//!   s MINKFREQ M N X.. Y..            seqsim of a row of M entries and one of N
//!   z A B                             sizesim
//!   o S1 E1 S2 E2                     overlaps
//! and its answer `counted`, with `entry:count` for each entry that is not 0; `value` and the f32's bits; `yes` or `no`.

#[path = "../kplib/kmer.rs"]
mod kmer;
#[path = "../kplib/metrics.rs"]
mod metrics;
#[path = "../crates/judge/src/random.rs"]
mod random;

use random::Random;
use std::io::Read;

fn letters(random: &mut Random, count: u64, alphabet: &[u8]) -> String {
    (0..count).map(|_| random.pick(alphabet) as char).collect()
}

fn row(random: &mut Random, entries: u64, low: i64, high: i64) -> Vec<i64> {
    (0..entries).map(|_| random.within(low, high)).collect()
}

fn counter_line(k: u32, negative: bool, count: usize, letters: &str) {
    println!("c {k} {} {} {count} {letters}", negative as u8, 1u32 << (2 * k));
}

fn seqsim_line(minkfreq: u64, a: &[i64], b: &[i64]) {
    let words: Vec<String> = a.iter().chain(b).map(|x| x.to_string()).collect();
    println!("s {minkfreq} {} {} {}", a.len(), b.len(), words.join(" "));
}

fn list_counter(random: &mut Random) {
    // each letter by itself, and beside it what stands near it in ASCII
    for letter in "ACGTacgtNnUu@BDFHSUZ[`bdfhsuz{*-.0?~".chars() {
        counter_line(1, false, 1, &letter.to_string());
    }
    // a window whose letters differ, so that a reversed one has another number
    for (k, letters) in [(2, "ACGT"), (2, "AG"), (2, "GA"), (3, "AGC"), (3, "CGA"), (4, "AGCT"), (5, "TCGAA"), (6, "AAGCTT"), (6, "GATTAC")] {
        counter_line(k, false, letters.len(), letters);
        counter_line(k, true, letters.len(), letters);
    }
    for k in 1..=6u32 {
        // none, one too few, just one window, and more
        for count in [0, k - 1, k, k + 1, 12, 40] {
            for alphabet in [&b"ACGT"[..], &b"ACGTacgt"[..], &b"AGCTNnRy-"[..]] {
                let letters = letters(random, count as u64, alphabet);
                counter_line(k, random.below(2) == 1, letters.len(), &letters);
            }
        }
    }
    // the longest sequence that is accepted
    counter_line(1, false, 131_072, "ACGTTGCAAG");
    counter_line(2, true, 131_072, "GATTACA");
    counter_line(6, false, 131_072, "T");
}

fn list_seqsim(random: &mut Random) {
    seqsim_line(0, &[], &[]);
    seqsim_line(1, &[1, 1, 1, 1], &[1, 1, 0, 0]);
    seqsim_line(2, &[1, 1, 1, 1], &[1, 1, 0, 0]);
    seqsim_line(3, &[1, 1, 1, 1], &[1, 1, 0, 0]);
    seqsim_line(0, &[0, 0, 0], &[0, 0, 0]);
    seqsim_line(0, &[3, -2, 0], &[3, -2, 0]);
    seqsim_line(1, &[-1, -1], &[1, 1]);
    seqsim_line(16_777_216, &[5, 5], &[5, 5]);
    seqsim_line(16_777_216, &[8_388_608], &[8_388_608]);
    seqsim_line(0, &[8_388_608], &[-8_388_608]);
    seqsim_line(0, &[8_388_607, 1], &[1, -8_388_607]);
    for entries in [1, 2, 4, 16, 64] {
        for (low, high) in [(0, 3), (-3, 3), (-3, 0), (-1000, 1000), (-131_072, 131_072)] {
            let (a, b) = (row(random, entries, low, high), row(random, entries, low, high));
            // at the sum of the first pair of entries, and one to each side of it
            let both = (a[0].abs() + b[0].abs()) as u64;
            for minkfreq in [0, both.saturating_sub(1), both, both + 1] {
                seqsim_line(minkfreq, &a, &b);
            }
        }
    }
}

fn list_numbers(random: &mut Random) {
    let sizes = [0, 1, 2, 3, 4, 7, 50, 131_071, 131_072, 8_388_607, 8_388_608];
    for a in sizes {
        for b in sizes {
            println!("z {a} {b}");
        }
    }
    for [s1, e1, s2, e2] in [[0, 10, 5, 5], [5, 5, 6, 8], [0, 10, 6, 8], [0, 10, 10, 20], [0, 11, 10, 20], [5, 5, 5, 5], [5, 6, 5, 6], [9, 3, 1, 8],
        [5, 10, 5, 5], [0, 5, 5, 5], [4, 6, 5, 5], [4, 5, 5, 5], [5, 6, 5, 5], [6, 4, 5, 5], [7, 7, 8, 8], [0, 0, 0, 9]] {
        println!("o {s1} {e1} {s2} {e2}");
        println!("o {s2} {e2} {s1} {e1}");
    }
    println!("o 0 9999999999999999999 9999999999999999998 9999999999999999999");
    for _ in 0..12 {
        println!("o {} {} {} {}", random.below(9), random.below(9), random.below(9), random.below(9));
    }
}

/// kanpig's overlaps, and what it does not know: "a zero-length interval also overlaps one whose start is less than it and whose end is greater"
/// (document 02, P5).
fn overlaps(a: [u64; 2], b: [u64; 2]) -> bool {
    let inside = |point: [u64; 2], other: [u64; 2]| point[0] == point[1] && other[0] < point[0] && other[1] > point[0];
    inside(a, b) || inside(b, a) || metrics::overlaps(a[0], a[1], b[0], b[1])
}

fn answer(line: &str) -> Option<String> {
    let words: Vec<&str> = line.split(' ').collect();
    let numbers: Vec<i128> = words[1..].iter().map_while(|word| word.parse().ok()).collect();
    let value = |x: f32| Some(format!("value {:08x}", x.to_bits()));
    match words[0] {
        "c" => {
            let letters: Vec<u8> = words[5].bytes().cycle().take(numbers[3] as usize).collect();
            let row = kmer::seq_to_kmer(&letters, numbers[0] as u8, numbers[1] == 1);
            assert_eq!(row.len() as i128, numbers[2]);
            let entries = row.iter().enumerate().filter(|(_, &count)| count != 0.0);
            Some(entries.fold(String::from("counted"), |text, (entry, &count)| format!("{text} {entry}:{}", count as i64)))
        }
        "s" => {
            let (m, n) = (numbers[1] as usize, numbers[2] as usize);
            assert_eq!(m, n);
            let floats: Vec<f32> = numbers[3..].iter().map(|&x| x as f32).collect();
            value(metrics::seqsim(&floats[..m], &floats[m..m + n], numbers[0] as f32))
        }
        "z" => value(metrics::sizesim(numbers[0] as u64, numbers[1] as u64)),
        "o" => {
            let [s1, e1, s2, e2] = [0, 1, 2, 3].map(|i| numbers[i] as u64);
            Some(String::from(if overlaps([s1, e1], [s2, e2]) { "yes" } else { "no" }))
        }
        _ => None,
    }
}

fn main() {
    if std::env::args().nth(1).as_deref() == Some("list") {
        let mut random = Random::new(1);
        list_counter(&mut random);
        list_seqsim(&mut random);
        list_numbers(&mut random);
        return;
    }
    let mut list = String::new();
    std::io::stdin().read_to_string(&mut list).expect("the list is text");
    for line in list.lines().filter_map(answer) {
        println!("{line}");
    }
}
