//! Several haplotypes over one table as the library is asked for them (document 02, P1): the refusals of the whole call, each haplotype's own call,
//! and what a caller finds in the lent buffers afterwards.
use crate::answer::Answer;
use crate::call::{counted, queue_need, Call};
use crate::job::Job;
use crate::rules::Rules;
use std::ops::Range;

#[derive(Clone, Debug)]
pub struct Several {
    /// the table and the parts of all haplotypes, one behind the other; its second buffer is that of all, its answer room is `row_buffer`'s
    pub call: Call,
    pub part_ends: Vec<u64>,
    pub feature_ends: Vec<u64>,
    /// what the answer buffer and the reports hold before the call
    pub row_buffer: Vec<u32>,
    pub reports: Vec<u32>,
}

/// All that anyone outside sees of a call, but for the queue.
#[derive(Clone, Debug, PartialEq, Eq)]
pub struct Seen {
    pub returned: u32,
    pub rows: Vec<u32>,
    pub records: Vec<u32>,
    pub reports: Vec<u32>,
}

/// Where each of these lengths ends, one behind the other.
pub fn ends(lengths: impl Iterator<Item = usize>) -> Vec<u64> {
    let after = |sum: &mut u64, length: usize| {
        *sum += length as u64;
        Some(*sum)
    };
    lengths.scan(0, after).collect()
}

/// What a stretch holds; one outside the slice holds nothing.
fn within<T: Clone>(list: &[T], stretch: Range<usize>) -> Vec<T> {
    list.get(stretch).unwrap_or(&[]).to_vec()
}

/// Puts the words into a buffer, as far as it goes.
fn put(buffer: &mut [u32], from: usize, words: &[u32]) {
    buffer.iter_mut().skip(from).zip(words).for_each(|(place, word)| *place = *word);
}

impl Several {
    /// All haplotypes of a job, with the room that they need.
    pub fn of_job(job: &Job) -> Several {
        let features = |k, text: &[u8], negative| counted(job.settings.letters, k, text, negative);
        Several::of_job_by(job, job.numbers(), features)
    }

    pub fn of_job_by(job: &Job, numbers: Vec<u32>, features: impl Fn(u8, &[u8], bool) -> Vec<i32>) -> Several {
        let mut call = Call::of_parts_by(job, &job.haplotypes.concat(), numbers, features);
        let row = if call.part_sizes.is_empty() { 0 } else { call.part_features.len() / call.part_sizes.len() };
        let room = job.variants.len() * job.haplotypes.len();
        (call.answer_room, call.record_buffer) = (room, vec![0; room]);
        Several {
            part_ends: ends(job.haplotypes.iter().map(Vec::len)),
            feature_ends: ends(job.haplotypes.iter().map(|parts| parts.len() * row)),
            row_buffer: vec![0; room],
            reports: vec![0; 8 * job.haplotypes.len()],
            call,
        }
    }

    pub fn count(&self) -> usize {
        self.part_ends.len()
    }

    /// V
    pub fn rows(&self) -> usize {
        self.call.starts.len()
    }

    /// The first refusal of the whole call that applies, or 0.
    pub fn refusal(&self, rules: &Rules) -> u32 {
        let mut whole = self.call.clone();
        if rules.parts_wait(self.count()) {
            whole.part_sizes.clear();
            whole.part_features.clear();
        }
        let is_refused_by = |&number: &u32| self.is_refused_by(rules, &whole, number);
        rules.refusals().iter().copied().find(is_refused_by).unwrap_or(0)
    }

    fn is_refused_by(&self, rules: &Rules, whole: &Call, number: u32) -> bool {
        let count = self.count();
        let needed = rules.rows_needed(self.rows(), count);
        match number {
            27 => rules.count_is_refused(count),
            6 => {
                let lent = (self.call.part_sizes.len(), self.call.part_features.len());
                rules.ends_disagree(&self.part_ends, &self.feature_ends, lent.0, lent.1) || whole.is_refused_by(rules, 6)
            }
            11 => whole.searches(rules) && whole.queue_room < rules.entries_needed(queue_need(&whole.settings, self.rows()), count),
            12 => {
                let searches = whole.searches(rules);
                let short = self.row_buffer.len() < needed || rules.second_is_short(whole.record_buffer.len(), needed, searches);
                short || rules.reports_are_short(self.reports.len(), count)
            }
            _ => whole.is_refused_by(rules, number),
        }
    }

    /// The haplotype of this place in a call of its own.
    pub fn own(&self, rules: &Rules, at: usize) -> Call {
        let v = self.rows();
        let mut own = self.call.clone();
        own.part_sizes = within(&self.call.part_sizes, rules.stretch(&self.part_ends, at));
        own.part_features = within(&self.call.part_features, rules.stretch(&self.feature_ends, at));
        own.answer_room = v;
        own.record_buffer = vec![0; v];
        own
    }

    /// What is seen after the call when this is answered to the whole of it, or to each haplotype.
    pub fn seen(&self, rules: &Rules, answers: &[Answer]) -> Seen {
        let own: Vec<u32> = answers.iter().map(|answer| answer.refusal).collect();
        let mut seen = Seen {
            returned: rules.returned(&own),
            rows: self.row_buffer.clone(),
            records: self.call.record_buffer.clone(),
            reports: self.reports.clone(),
        };
        if seen.returned != 0 {
            return seen;
        }
        let (v, mut listed) = (self.rows(), 0);
        for (at, answer) in answers.iter().enumerate() {
            let front = rules.answer_front(at, v, listed);
            for (buffer, list) in [(&mut seen.rows, &answer.rows), (&mut seen.records, &answer.records)] {
                let after = rules.stretch_after(&within(buffer, front..front + v), list, answer.refusal != 0);
                put(buffer, front, &after);
            }
            let before = within(&self.reports, 8 * at..8 * at + 8).try_into().unwrap_or([0; 8]);
            put(&mut seen.reports, 8 * at, &rules.report_after(before, answer.report()));
            listed += answer.rows.len();
        }
        seen
    }
}
