//! Random accepted jobs and calls, of program and library size, in every mode, held to the Rust where it speaks; the second reading must say the same.
use crate::asking::{Asking, Commands};
use crate::damaged::Left;
use crate::judging::{one_haplotype, By};
use crate::question::Question;
use crate::tally::Tally;
use judge::answer::Answer;
use judge::call::Call;
use judge::document::{call_answer, program_answers, several_answers};
use judge::met::Met;
use judge::random::Random;
use judge::rules::DOCUMENT;
use judge::rust::{self, Judged};
use judge::several::Several;
use judge::{generate, job, kinds, program};
use std::sync::atomic::{AtomicU64, Ordering};

const BATCH: u64 = 64;
/// How many of a worker's jobs are left with the library's texts.
const SAMPLE: usize = 100;
/// Entries that a search compares at most: most calls, and one of each so many jobs and calls.
const BUDGET: u64 = 300_000;
const LARGE_BUDGET: u64 = 20_000_000;
const LARGE_EACH: u64 = 1_000;
const AT_LIMITS_EACH: u64 = 20_000;

pub fn soak(seed: u64, commands: &Commands, keep: &str, (upto, done): (u64, &AtomicU64)) -> Left {
    let mut r = Random::new(seed);
    let mut asking = Asking::new(commands, format!("{keep}/differs-accepted-{seed}"), By::Rust);
    let mut sample = vec![];
    while asking.tally.asked < upto {
        let from = asking.tally.asked;
        let until = upto.min(from + BATCH);
        let questions: Vec<Question> = (from..until).map(|number| question(&mut r, number, &mut asking.tally)).collect();
        let replies = asking.put(&mut r, &questions);
        done.fetch_add(until - from, Ordering::Relaxed);
        for (question, reply) in questions.into_iter().zip(replies) {
            if let (Question::Job { bytes, .. }, Ok(reply), true) = (question, reply, sample.len() < SAMPLE) {
                sample.push((bytes, reply.bytes));
            }
        }
    }
    let reached = asking.blocks();
    Left { tally: asking.tally, reached, sample }
}

/// Of a hundred, ninety are jobs, of both editions, and ten are searches of the library, three of them for several haplotypes and four of them of library size.
fn question(r: &mut Random, number: u64, tally: &mut Tally) -> Question {
    loop {
        let found = match number % 100 {
            0..=29 => accepted_job(generate::input(r), tally),
            30..=54 => accepted_job(generate::several_input(r), tally),
            55..=89 => accepted_job(generate::edition_two_input(r), tally),
            90..=93 => accepted_call(generate::small_call(r), r, "program size", tally),
            94..=96 => accepted_call(library_call(r, number), r, "library size", tally),
            97..=98 => accepted_several(generate::several_call(r, generate::PROGRAM, BUDGET), "program size", tally),
            _ => accepted_several(generate::several_call(r, generate::LIBRARY, BUDGET), "library size", tally),
        };
        if let Some(question) = found {
            tally.asked += 1;
            return question;
        }
    }
}

/// A search of library size. One in so many has all sums at their limits: 16,777,216 letters are counted for it by each reading.
fn library_call(r: &mut Random, number: u64) -> Call {
    let job = if number % AT_LIMITS_EACH == 94 { generate::job_at_limits(r) } else { generate::job(r, generate::LIBRARY) };
    generate::call_of(r, job, if number % LARGE_EACH == 95 { LARGE_BUDGET } else { BUDGET })
}

/// The judge's answers, and that the second reading gives the same.
fn agreed(judged: &[Judged], second: &[Answer], tally: &mut Tally, words: impl Fn() -> String) -> Vec<Answer> {
    let answers: Vec<Answer> = judged.iter().map(|one| one.answer.clone()).collect();
    if answers != second {
        tally.differ(|| format!("the second reading says {second:?}, the judge {answers:?} of {}", words()));
    }
    answers
}

fn accepted_job(bytes: Vec<u8>, tally: &mut Tally) -> Option<Question> {
    let good = program::admitted(&DOCUMENT, &bytes).ok()?;
    let judged = program::judged(&bytes);
    if judged.len() == 1 && judged[0].answer.refusal != 0 {
        return None;
    }
    let mut met = Met::default();
    let second = program_answers(&DOCUMENT, &bytes, &mut met);
    kinds::of_input(&mut tally.counts, Some(&good), &judged, &met);
    let size = if good.edition == job::Edition::Two { "asked: a job of edition 2" } else { "asked: a job of edition 1" };
    kinds::add(&mut tally.counts, format!("{size}, {}", if judged.len() > 1 { "several haplotypes" } else { "one haplotype" }));
    tally.bytes += bytes.len() as u64;
    let answers = agreed(&judged, &second, tally, || judge::describe::bytes(&bytes));
    Some(Question::Job { must: By::Rust.text_of(&answers), bytes })
}

fn accepted_call(call: Call, r: &mut Random, size: &str, tally: &mut Tally) -> Option<Question> {
    if call.refusal(&DOCUMENT) != 0 {
        return None;
    }
    let judged = rust::judged(&call);
    let mut met = Met::default();
    let second = call_answer(&DOCUMENT, &call, &mut met);
    kinds::of_judged(&mut tally.counts, &call, &judged, &met);
    kinds::add(&mut tally.counts, format!("asked: a search of {size}"));
    let must = agreed(&[judged], &[second], tally, || judge::describe::call(&call)).remove(0);
    Some(one_haplotype(call, must, std::iter::from_fn(|| Some(r.next() as u32))))
}

fn accepted_several(several: Several, size: &str, tally: &mut Tally) -> Option<Question> {
    if several.refusal(&DOCUMENT) != 0 {
        return None;
    }
    let judged = rust::judged_several(&several);
    let second = several_answers(&DOCUMENT, &several, &mut Met::default());
    kinds::of_several(&mut tally.counts, &several, &judged);
    kinds::add(&mut tally.counts, format!("asked: a search for several of {size}"));
    let must = agreed(&judged, &second, tally, || judge::describe::several(&several));
    Some(Question::Haplotypes { several, must })
}
