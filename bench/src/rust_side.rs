//! kanpig's Rust, unchanged, on the inputs of the bench.
use judge::call::Call;
use judge::rules::DOCUMENT;
use judge::rust::unchanged_build;
use unchanged::kplib::{metrics, GraphParams, Haplotype, PathScore, Variants};

pub struct Search {
    pub params: GraphParams,
    pub variants: Variants,
    pub whole: Haplotype,
}

impl Search {
    /// The graph is built here, outside the time of a call.
    pub fn new(call: &Call) -> Self {
        Search {
            params: unchanged_build::params(call),
            variants: unchanged_build::table(call),
            whole: unchanged_build::haplotype(call),
        }
    }

    pub fn run(&self) -> PathScore {
        self.variants.apply_haplotype(&self.whole, &self.params)
    }
}

/// Which rows may stand together, by document 02's rule (P5), which kanpig does not have.
pub struct Apart(Vec<Vec<bool>>);

impl Apart {
    /// Laid here, outside the time of a call.
    pub fn new(call: &Call) -> Self {
        let rows = || 0..call.starts.len();
        let is_apart = |r: usize, s: usize| !DOCUMENT.overlaps(call.interval(r), call.interval(s));
        Apart(rows().map(|r| rows().map(|s| is_apart(r, s)).collect()).collect())
    }

    /// Counts the chains that go on by some of these rows: each row alone, and those that go on from it by the later rows that may stand with it.
    fn walk(&self, rows: &[usize], left: &mut u32) {
        for (at, &row) in rows.iter().enumerate() {
            if *left == 0 {
                return;
            }
            *left -= 1;
            let stay: Vec<usize> = rows[at + 1..].iter().copied().filter(|&later| self.0[row][later]).collect();
            self.walk(&stay, left);
        }
    }
}

/// The number of chains up to a cap: kanpig has no such function, so this is a plain walk of the same rule, written for the bench.
pub fn count_chains(apart: &Apart, cap: u32) -> u32 {
    let mut left = cap - 1;
    apart.walk(&(0..apart.0.len()).collect::<Vec<usize>>(), &mut left);
    cap - left
}

pub fn floats(row: &[i32]) -> Vec<f32> {
    row.iter().map(|&x| x as f32).collect()
}

pub use metrics::{seqsim, sizesim};
