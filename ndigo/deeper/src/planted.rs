//! Tables of which the answer is known: some rows that stand together are the truth, and the parts are noisy copies of theirs. For tests
//! and figures alone.
use crate::problem::{Counts, Problem, Settings, Variant};

/// A fixed sequence of numbers for each seed (splitmix64).
pub struct Random(pub u64);

impl Random {
    fn next(&mut self) -> u64 {
        self.0 = self.0.wrapping_add(0x9e37_79b9_7f4a_7c15);
        let mixed = (self.0 ^ (self.0 >> 30)).wrapping_mul(0xbf58_476d_1ce4_e5b9);
        let mixed = (mixed ^ (mixed >> 27)).wrapping_mul(0x94d0_49bb_1331_11eb);
        mixed ^ (mixed >> 31)
    }

    /// Below this.
    pub fn below(&mut self, count: u64) -> u64 {
        ((u128::from(self.next()) * u128::from(count)) >> 64) as u64
    }

    pub fn within(&mut self, low: u64, high: u64) -> u64 {
        low + self.below(high - low + 1)
    }

    fn letter(&mut self) -> u8 {
        b"AGCT"[self.below(4) as usize]
    }
}

/// Letters put in or, with `negative`, left out.
#[derive(Clone, Debug)]
pub struct Change {
    pub letters: Vec<u8>,
    pub negative: bool,
}

impl Change {
    /// 50 to 400 letters; four in ten are deletions.
    fn random(random: &mut Random) -> Self {
        let count = random.within(50, 400);
        let negative = random.below(10) < 4;
        Self { letters: (0..count).map(|_| random.letter()).collect(), negative }
    }

    /// As a read shows it: one letter in a hundred is wrong, lost or doubled, each as often.
    fn noisy(&self, random: &mut Random) -> Self {
        let mut letters = Vec::with_capacity(self.letters.len() + 8);
        for &letter in &self.letters {
            match random.below(300) {
                0 => letters.push(random.letter()),
                1 => {}
                2 => letters.extend([letter; 2]),
                _ => letters.push(letter),
            }
        }
        Self { letters, negative: self.negative }
    }

    pub fn size(&self) -> i64 {
        let count = self.letters.len() as i64;
        if self.negative { -count } else { count }
    }

    fn counts(&self, k: usize) -> Counts {
        let code = |letter: &u8| b"AGCT".iter().position(|other| other == letter).unwrap_or(0);
        let mut counts = Counts { size: self.size(), features: vec![0; 1 << (2 * k)] };
        for window in self.letters.windows(k) {
            let entry = window.iter().fold(0, |entry, letter| 4 * entry + code(letter));
            counts.features[entry] += if self.negative { -1 } else { 1 };
        }
        counts
    }
}

#[derive(Clone, Debug)]
pub struct Row {
    pub start: u64,
    pub end: u64,
    pub change: Change,
}

#[derive(Clone, Debug)]
pub struct Planted {
    pub rows: Vec<Row>,
    pub parts: Vec<Change>,
    /// The rows whose copies the parts are, ascending: no two of them overlap.
    pub truth: Vec<usize>,
}

/// The settings that a sheet has where it names none; k is 4 there.
pub const DEFAULTS: Settings = Settings { squish: false, fnmax: 3, pileupmax: 12, minkfreq: 2, sizesim: 0.9, seqsim: 0.9, fpenalty: 0.1, gpenalty: 0.02 };

/// Starts up to 50, 200 or 1,000 apart, as the table is drawn: from one where many rows overlap to one where few do.
fn rows(random: &mut Random, count: usize) -> Vec<Row> {
    let apart = [50, 200, 1_000][random.below(3) as usize];
    let mut start = 1_000;
    let row = |_| {
        start += random.within(0, apart);
        let change = Change::random(random);
        Row { start, end: start + if change.negative { change.letters.len() as u64 } else { 0 }, change }
    };
    (0..count).map(row).collect()
}

fn overlap(a: &Row, b: &Row) -> bool {
    let inside = |point: &Row, other: &Row| point.start == point.end && other.start < point.start && point.start < other.end;
    a.start.max(b.start) < a.end.min(b.end) || inside(a, b) || inside(b, a)
}

/// Up to `count` rows that stand together, drawn one after the other.
fn truth(random: &mut Random, rows: &[Row], count: usize) -> Vec<usize> {
    let mut left: Vec<usize> = (0..rows.len()).collect();
    let mut truth = vec![];
    while truth.len() < count && !left.is_empty() {
        let row = left[random.below(left.len() as u64) as usize];
        truth.push(row);
        left.retain(|&other| other != row && !overlap(&rows[row], &rows[other]));
    }
    truth.sort_unstable();
    truth
}

impl Planted {
    /// So many variants, and 1 to 6 parts or as many as stand together.
    pub fn any(random: &mut Random, variants: usize) -> Self {
        let rows = rows(random, variants);
        let count = random.within(1, 6) as usize;
        let truth = truth(random, &rows, count);
        let parts = truth.iter().map(|&row| rows[row].change.noisy(random)).collect();
        Self { rows, parts, truth }
    }

    /// One whose truth passes the thresholds with a score above 0, so that there is something to find; and that score.
    pub fn findable(random: &mut Random, variants: usize, k: usize, settings: Settings) -> (Self, Problem, f32) {
        loop {
            let planted = Self::any(random, variants);
            let problem = planted.problem(k, settings);
            if let Some(score) = planted.truth_score(&problem) {
                return (planted, problem, score);
            }
        }
    }

    pub fn problem(&self, k: usize, settings: Settings) -> Problem {
        let variant = |row: &Row| Variant { start: row.start, end: row.end, counts: row.change.counts(k) };
        Problem { settings, variants: self.rows.iter().map(variant).collect(), parts: self.parts.iter().map(|part| part.counts(k)).collect() }
    }

    /// What the truth scores with all parts, if no skip test stops it.
    pub fn truth_score(&self, problem: &Problem) -> Option<f32> {
        let all: Vec<usize> = (0..self.parts.len()).collect();
        crate::scored(problem, &self.truth, &all)
    }

    /// As a sheet, for the settings that it has where it names none.
    pub fn sheet(&self) -> String {
        let letters = |change: &Change| String::from_utf8_lossy(&change.letters).into_owned();
        let row = |(at, row): (usize, &Row)| format!("row-{at}\t{}\t{}\t{}\t{}\n", row.start, row.end, row.change.size(), letters(&row.change));
        let part = |(at, part): (usize, &Change)| format!("part-{at}\t{}\t{}\n", part.size(), letters(part));
        let rows: String = self.rows.iter().enumerate().map(row).collect();
        let parts: String = self.parts.iter().enumerate().map(part).collect();
        format!("variant\tstart\tend\tsize\tletters\n{rows}\npart\tsize\tletters\n{parts}")
    }
}
