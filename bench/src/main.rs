//! Times the proved code beside kanpig's Rust, both in this process, on the same inputs. Each line gives the median time of
//! one call, ours and the Rust's, and their ratio. Before a row is timed our answers are compared with the judge's, bit for bit.
//! `--chart FILE` writes the chart too; `--only WORDS` times the rows whose name holds these words.
use bench::cases::{copied_chains, shapes, Case, Parts, Shape};
use bench::chart;
use bench::random::Random;
use bench::rust_side::{self, floats, Search};
use bench::timing::{compare, Times};
use judge::rust::judged;
use ndigomarr::{apply_haplotype_in, count_chains, seq_to_kmer_into, Answer, Haplotype, Room, Settings, Table, Target};
use std::hint::black_box;

/// What the search may count to.
const CAP: u32 = 4_096;

fn counter(random: &mut Random, name: &str, k: u8, count: usize) -> Times {
    let inputs = 400_000 / count;
    let letters: Vec<Vec<u8>> = (0..inputs).map(|_| random.letters(count)).collect();
    let mut row = vec![0i32; 1 << (2 * k as usize)];
    for sequence in &letters {
        let wanted = unchanged::kplib::seq_to_kmer(sequence, k, false);
        seq_to_kmer_into(sequence, k, false, 0, &mut row).expect("within the limits");
        assert_eq!(floats(&row), wanted, "the counters differ");
    }
    compare(
        name,
        inputs,
        &mut |at| {
            black_box(seq_to_kmer_into(&letters[at], black_box(k), black_box(false), black_box(0), black_box(&mut row)).is_ok());
        },
        &mut |at| {
            black_box(unchanged::kplib::seq_to_kmer(&letters[at], black_box(k), black_box(false)));
        },
    )
}

/// Our counter with letters 1 beside itself with letters 0, on the same texts; one letter in so many is an N, or none.
fn reading(random: &mut Random, name: &str, k: u8, count: usize, one_in: Option<usize>) -> Times {
    let inputs = 400_000 / count;
    let texts: Vec<Vec<u8>> = (0..inputs).map(|_| random.letters_with_n(count, one_in)).collect();
    let mut rows = [vec![0i32; 1 << (2 * k as usize)], vec![0i32; 1 << (2 * k as usize)]];
    for (text, letters) in texts.iter().flat_map(|text| [(text, 0), (text, 1)]) {
        let row = &mut rows[0];
        seq_to_kmer_into(text, k, false, letters, row).expect("within the limits");
        assert_eq!(*row, judge::call::counted(letters.into(), k, text, false), "the counters differ");
    }
    let [row, other] = &mut rows;
    compare(
        name,
        inputs,
        &mut |at| {
            black_box(seq_to_kmer_into(&texts[at], black_box(k), black_box(false), black_box(1), black_box(row)).is_ok());
        },
        &mut |at| {
            black_box(seq_to_kmer_into(&texts[at], black_box(k), black_box(false), black_box(0), black_box(other)).is_ok());
        },
    )
}

/// Rows of entries from `low` to 3, the first entry apart.
fn seqsim(random: &mut Random, name: &str, k: u32, low: i32, first: i32, minkfreq: u32) -> Times {
    let entries = 1 << (2 * k);
    let inputs = 65_536 / entries;
    let mut row = || {
        let mut row = random.row(entries, low, 3);
        row[0] = first;
        row
    };
    let rows: Vec<_> = (0..inputs).map(|_| (row(), row())).collect();
    let float_rows: Vec<_> = rows.iter().map(|(a, b)| (floats(a), floats(b))).collect();
    for ((a, b), (fa, fb)) in rows.iter().zip(&float_rows) {
        let ours = ndigomarr::seqsim(a, b, minkfreq).expect("within the limits");
        assert_eq!(ours.to_bits(), rust_side::seqsim(fa, fb, minkfreq as f32).to_bits(), "the similarities differ");
    }
    compare(
        name,
        inputs,
        &mut |at| {
            let (a, b) = &rows[at];
            black_box(ndigomarr::seqsim(a, b, black_box(minkfreq)).is_ok());
        },
        &mut |at| {
            let (a, b) = &float_rows[at];
            black_box(rust_side::seqsim(a, b, black_box(minkfreq as f32)));
        },
    )
}

fn sizesim(random: &mut Random) -> Times {
    let sizes: Vec<(u64, u64)> = (0..4_096).map(|_| (random.below(100_000) as u64, random.below(100_000) as u64)).collect();
    for &(a, b) in &sizes {
        let ours = ndigomarr::sizesim(a, b).expect("within the limits");
        assert_eq!(ours.to_bits(), rust_side::sizesim(a, b).to_bits(), "the similarities differ");
    }
    compare(
        "sizesim",
        sizes.len(),
        &mut |at| {
            let (a, b) = sizes[at];
            black_box(ndigomarr::sizesim(black_box(a), black_box(b)).is_ok());
        },
        &mut |at| {
            let (a, b) = sizes[at];
            black_box(rust_side::sizesim(black_box(a), black_box(b)));
        },
    )
}

fn capped_count(random: &mut Random, name: &str, variants: usize, crowded: bool) -> Times {
    let shape = Shape { k: 4, variants, maxpaths: 63, parts: Parts::Rows(3), threshold: 0.0, crowded };
    let case = Case::new(random, &shape);
    let (table, apart) = (case.table(), rust_side::Apart::new(&case.call));
    let ours = count_chains(&table, true, CAP).expect("within the limits");
    assert_eq!(ours, rust_side::count_chains(&apart, CAP), "the counts differ");
    compare(
        name,
        1,
        &mut |_| {
            black_box(count_chains(&table, true, black_box(CAP)).is_ok());
        },
        &mut |_| {
            black_box(rust_side::count_chains(&apart, black_box(CAP)));
        },
    )
}

/// Our answer in the judge's words.
fn judges(answer: &Answer) -> judge::answer::Answer {
    judge::answer::Answer {
        refusal: 0,
        rows: answer.rows.iter().map(|&row| row as u32).collect(),
        records: answer.records.clone(),
        target: match answer.target {
            Target::Nothing => judge::answer::Target::Nothing,
            Target::Whole => judge::answer::Target::Whole,
            Target::Partial(left) => judge::answer::Target::Partial(left),
        },
        score: answer.score.to_bits(),
        sizesim: answer.sizesim.to_bits(),
        seqsim: answer.seqsim.to_bits(),
        scored: answer.scored,
        complete: answer.complete,
    }
}

/// Inputs on which the unchanged Rust says what we say, and how many were left out: it may say something else only where
/// chains of equal distance were queued, since its heap takes any of them. The judge sees to that.
struct Agreeing {
    cases: Vec<Case>,
    left_out: usize,
}

impl Agreeing {
    fn new(random: &mut Random, shape: &Shape, inputs: usize) -> Self {
        let mut room = Room::new();
        let mut agreeing = Agreeing { cases: Vec::new(), left_out: 0 };
        while agreeing.cases.len() < inputs {
            let case = Case::new(random, shape);
            let answer = apply_haplotype_in(&case.settings, &case.table(), &case.haplotype(), &mut room).expect("within the limits");
            let judged = judged(&case.call);
            assert_eq!(judges(&answer), judged.answer, "the answers differ: {}", shape.name());
            if judged.unchanged_differs.is_none() {
                agreeing.cases.push(case);
            } else {
                agreeing.left_out += 1;
            }
        }
        agreeing
    }
}

fn search(random: &mut Random, shape: &Shape, left_out: &mut usize) -> Times {
    let inputs = shape.inputs();
    let Agreeing { cases, left_out: more } = Agreeing::new(random, shape, inputs);
    *left_out += more;
    let ours: Vec<(Settings, Table, Haplotype)> = cases.iter().map(|case| (case.settings, case.table(), case.haplotype())).collect();
    let rust: Vec<Search> = cases.iter().map(|case| Search::new(&case.call)).collect();
    let mut room = Room::new();
    compare(
        &shape.name(),
        inputs,
        &mut |at| {
            let (settings, table, haplotype) = &ours[at];
            black_box(apply_haplotype_in(black_box(settings), table, haplotype, &mut room).is_ok());
        },
        &mut |at| {
            black_box(rust[at].run());
        },
    )
}

/// What is asked for: a chart's file, and words that stand in the names of the rows wanted.
struct Asked {
    chart: Option<String>,
    only: String,
}

fn asked() -> Asked {
    let mut asked = Asked { chart: None, only: String::new() };
    let mut words = std::env::args().skip(1);
    while let Some(word) = words.next() {
        let value = words.next();
        match (word.as_str(), value) {
            ("--chart", Some(file)) => asked.chart = Some(file),
            ("--only", Some(only)) => asked.only = only,
            _ => panic!("usage: bench [--chart FILE] [--only WORDS]"),
        }
    }
    asked
}

/// The table: a row is printed as soon as it is known.
struct Rows {
    only: String,
    told: Vec<Times>,
}

impl Rows {
    /// Each row has inputs of its own seed, so that it stands alone too.
    fn tell(&mut self, name: &str, work: impl FnOnce(&mut Random) -> Times) {
        if !name.contains(&self.only) {
            return;
        }
        let times = work(&mut Random::new(1));
        let [ours, rust] = [times.ours, times.rust].map(|nanos| nanos / 1e3);
        println!("{name:<66} {ours:>12.2} {rust:>12.2} {:>8.2}", times.ratio());
        self.told.push(times);
    }
}

fn main() {
    let asked = asked();
    let mut rows = Rows { only: asked.only, told: Vec::new() };
    // in a table of its own: both columns are ours, and the ratio is to be at most 1.3
    println!("{:<66} {:>12} {:>12} {:>8}", "the counter in both readings, microseconds", "letters 1", "letters 0", "ratio");
    for (k, count) in [4, 6].into_iter().flat_map(|k| [(k, 100), (k, 1_000), (k, 100_000)]) {
        for (one_in, kind) in [(None, "no N"), (Some(100), "one N in 100"), (Some(10), "one N in 10")] {
            let name = format!("reading 1, k {k}, {count} letters, {kind}");
            rows.tell(&name, |random| reading(random, &name, k, count, one_in));
        }
    }
    // the chart is of the Rust beside us
    rows.told.clear();
    println!("{:<66} {:>12} {:>12} {:>8}", "one call, microseconds", "ours", "the Rust", "ratio");
    for k in [4, 6] {
        for count in [50, 100, 1_000, 100_000] {
            let name = format!("counter, k {k}, {count} letters");
            rows.tell(&name, |random| counter(random, &name, k, count));
        }
    }
    for k in [4, 6] {
        // a large entry is what a long repeat gives
        for (kind, low, first) in [("non-negative", 0, 1), ("mixed", -3, -1), ("one large entry", -3, 100_000)] {
            for minkfreq in [0, 2] {
                let name = format!("seqsim, k {k}, {kind}, minkfreq {minkfreq}");
                rows.tell(&name, |random| seqsim(random, &name, k, low, first, minkfreq));
            }
        }
    }
    rows.tell("sizesim", sizesim);
    for variants in [16, 64] {
        for crowded in [true, false] {
            let kind = if crowded { "crowded" } else { "loose" };
            let name = format!("chain count up to {CAP}, V {variants}, {kind}");
            rows.tell(&name, |random| capped_count(random, &name, variants, crowded));
        }
    }
    let mut left_out = 0;
    for shape in shapes().into_iter().chain(copied_chains()) {
        rows.tell(&shape.name(), |random| search(random, &shape, &mut left_out));
    }
    println!("inputs left out, where equally near chains made the unchanged Rust answer otherwise: {left_out}");
    if let Some(file) = asked.chart {
        std::fs::write(&file, chart::svg(&rows.told)).expect("the chart cannot be written");
    }
}
