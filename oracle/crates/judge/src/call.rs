//! A haplotype as the library is asked for it: flat slices and lent room, and the refusals 1 to 12, 14 and 16 in the table's order.
use crate::job::{Job, Part, Settings};
use crate::rules::Rules;
use crate::rust;

#[derive(Clone, Debug)]
pub struct Call {
    pub settings: Settings,
    pub starts: Vec<u64>,
    pub ends: Vec<u64>,
    pub sizes: Vec<i32>,
    pub features: Vec<i32>,
    /// the variants' record numbers
    pub numbers: Vec<u32>,
    pub part_sizes: Vec<i32>,
    pub part_features: Vec<i32>,
    pub queue_room: usize,
    pub answer_room: usize,
    /// what the second answer buffer, that of the records, holds before the call
    pub record_buffer: Vec<u32>,
}

/// The sum of a row's magnitudes.
pub fn magnitudes(row: &[i32]) -> u64 {
    row.iter().map(|x| u64::from(x.unsigned_abs())).sum()
}

/// The room a search needs: one entry and, for each scored chain, one for each row.
pub fn queue_need(settings: &Settings, variants: usize) -> usize {
    1 + (settings.maxpaths as usize).saturating_add(1).saturating_mul(variants)
}

/// The counts by a reading: of document 01's by the Rust's own counter, of `letters` 1 by the second program, which takes its place. Of one that is refused
/// anyway as of 0.
pub fn counted(letters: u32, k: u8, text: &[u8], negative: bool) -> Vec<i32> {
    match letters {
        1 => letters::row(k, text, negative),
        _ => rust::features(k, text, negative),
    }
}

impl Call {
    /// The job's first haplotype, counted by its reading, with its record numbers. A k that is refused anyway gets no features.
    pub fn of_job(job: &Job) -> Call {
        let features = |k, text: &[u8], negative| counted(job.settings.letters, k, text, negative);
        Call::of_parts_by(job, &job.haplotypes[0], job.numbers(), features)
    }

    /// The job's table and these parts.
    pub fn of_parts_by(job: &Job, parts: &[Part], numbers: Vec<u32>, features: impl Fn(u8, &[u8], bool) -> Vec<i32>) -> Call {
        let k = job.settings.k;
        let row = |letters: &[u8], negative: bool| match k {
            1..=6 => features(k, letters, negative),
            _ => vec![],
        };
        Call {
            settings: job.settings.clone(),
            starts: job.variants.iter().map(|v| v.start).collect(),
            ends: job.variants.iter().map(|v| v.end).collect(),
            sizes: job.variants.iter().map(|v| v.size).collect(),
            features: job.variants.iter().flat_map(|v| row(&v.letters, v.negative)).collect(),
            numbers,
            part_sizes: parts.iter().map(|p| p.size).collect(),
            part_features: parts.iter().flat_map(|p| row(&p.letters, p.negative)).collect(),
            queue_room: queue_need(&job.settings, job.variants.len()).min(1 << 19),
            answer_room: job.variants.len(),
            record_buffer: vec![0; job.variants.len()],
        }
    }

    pub fn interval(&self, row: usize) -> (u64, u64) {
        (self.starts[row], self.ends[row])
    }

    pub fn searches(&self, rules: &Rules) -> bool {
        !rules.is_one_to_one(&self.settings, self.starts.len())
    }

    /// What document 01 has lent beside V starts and m part sizes: how long it is, and should be.
    fn lengths(&self, v: usize, m: usize) -> [(usize, usize); 4] {
        let e = self.settings.entries();
        [(self.ends.len(), v), (self.sizes.len(), v), (self.features.len(), v * e), (self.part_features.len(), m * e)]
    }

    /// The first refusal that applies, or 0.
    pub fn refusal(&self, rules: &Rules) -> u32 {
        rules.refusals().iter().copied().find(|&number| self.is_refused_by(rules, number)).unwrap_or(0)
    }

    /// Document 01's table, with what document 02 adds to it. A row may count on those before it.
    pub fn is_refused_by(&self, rules: &Rules, number: u32) -> bool {
        let s = &self.settings;
        let (v, m) = (self.starts.len(), self.part_sizes.len());
        let rows = || self.features.chunks(s.entries()).chain(self.part_features.chunks(s.entries()));
        match number {
            1 => s.k < 1 || s.k > 6,
            2 => s.floats().into_iter().zip([1.0, 1.0, 1000.0, 1000.0]).any(|(float, top)| !rules.float_is_good(float, top)),
            3 => s.wholes().into_iter().zip([4_095, 65_535, 65_535, 12, 16_777_216]).any(|(whole, top)| whole > top) || rules.letters_are_refused(s.letters),
            4 => v == 0,
            5 => v > 64 || m > 64,
            6 => self.lengths(v, m).into_iter().any(|(lent, wanted)| lent != wanted) || rules.numbers_disagree(self.numbers.len(), v),
            7 => self.starts.iter().zip(&self.ends).any(|(&start, &end)| rules.is_reversed(start, end)),
            8 => self.starts.windows(2).any(|pair| rules.falls(pair[1], pair[0])),
            9 => self.sizes.iter().chain(&self.part_sizes).any(|&size| rules.size_is_over(size)),
            10 => rows().any(|row| magnitudes(row) > 131_072),
            11 => self.searches(rules) && self.queue_room < queue_need(s, v),
            12 => self.answer_room < v || rules.second_is_short(self.record_buffer.len(), v, self.searches(rules)),
            14 => rules.repeats(&self.numbers),
            16 => {
                let blank = |features: &[i32]| -> Vec<bool> { features.chunks(s.entries()).map(|row| rules.is_blank(row)).collect() };
                rules.blank_is_refused(&blank(&self.features), &blank(&self.part_features), self.searches(rules), s.full)
            }
            27 => rules.count_is_refused(1),
            _ => unreachable!("no refusal of the table: {number}"),
        }
    }
}
