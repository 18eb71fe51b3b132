//! What the program must print for given bytes.
use crate::answer::{self, Answer};
use crate::call::Call;
use crate::job::{self, Job, Part};
use crate::rules::{Rules, DOCUMENT};
use crate::rust::{self, Judged};

/// The program's own refusals: 26 for the length, the faults of the form, 26 for its memory; or the job.
pub fn admitted(rules: &Rules, bytes: &[u8]) -> Result<Job, u32> {
    if bytes.len() > 32_768 {
        return Err(26);
    }
    let job = job::read(rules, bytes)?;
    let s = &job.settings;
    let parts: Vec<usize> = job.haplotypes.iter().map(Vec::len).collect();
    if job.variants.len() > 16 || rules.parts_exceed_memory(&parts) || s.k > 4 || s.maxpaths > 63 {
        return Err(26);
    }
    Ok(job)
}

/// The judge's answer to the whole of a program's input, or one to each haplotype: several are so many jobs of their own, but that a refusal
/// of the table, which then has it without any parts too, answers all of them.
pub fn judged(bytes: &[u8]) -> Vec<Judged> {
    let job = match admitted(&DOCUMENT, bytes) {
        Err(number) => return vec![Judged::refused(number)],
        Ok(job) => job,
    };
    let own = |parts: &[Part]| Call::of_job(&job.with_parts(parts));
    if job.haplotypes.len() > 1 {
        let of_table = own(&[]).refusal(&DOCUMENT);
        if of_table != 0 {
            return vec![Judged::refused(of_table)];
        }
    }
    job.haplotypes.iter().map(|parts| rust::judged(&own(parts))).collect()
}

pub fn answers(bytes: &[u8]) -> Vec<Answer> {
    judged(bytes).into_iter().map(|judged| judged.answer).collect()
}

/// What the program must print.
pub fn text(bytes: &[u8]) -> String {
    answer::text(&DOCUMENT, &answers(bytes))
}
