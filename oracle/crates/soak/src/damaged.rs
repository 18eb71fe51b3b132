//! Damaged jobs, each answer's whole text held to the second reading.
use crate::asking::{Asking, Commands};
use crate::damage::damage;
use crate::judging::By;
use crate::pool::Pool;
use crate::question::Question;
use crate::tally::Tally;
use judge::random::Random;
use std::sync::atomic::{AtomicU64, Ordering};

const BATCH: u64 = 256;
/// How many of a worker's jobs are left with the library's texts.
const SAMPLE: usize = 1_000;

/// What a worker leaves: its counts, the blocks that its harness reached, and some of its jobs with the library's own text.
pub struct Left {
    pub tally: Tally,
    pub reached: Vec<bool>,
    pub sample: Vec<(Vec<u8>, Vec<u8>)>,
}

/// So many jobs, a batch at a time; all that are done are counted together, and nothing else of the other workers plays a part, so that a seed gives the same jobs again.
pub fn soak(seed: u64, commands: &Commands, keep: &str, by: By, (upto, done): (u64, &AtomicU64)) -> Left {
    let mut r = Random::new(seed);
    let mut pool = Pool::new(&mut r);
    let mut asking = Asking::new(commands, format!("{keep}/differs-damaged-{seed}"), by);
    let mut sample = vec![];
    while asking.tally.asked < upto {
        pool.renew(&mut r);
        let count = BATCH.min(upto - asking.tally.asked);
        let questions: Vec<Question> = (0..count).map(|_| question(&mut r, &pool, by, &mut asking.tally)).collect();
        let replies = asking.put(&mut r, &questions);
        done.fetch_add(count, Ordering::Relaxed);
        for (question, reply) in questions.into_iter().zip(replies) {
            let (Question::Job { bytes, .. }, Ok(reply)) = (question, reply) else { continue };
            if reply.fresh > 0 {
                asking.tally.guided += 1;
                pool.guided.push(bytes.clone());
            }
            if sample.len() < SAMPLE {
                sample.push((bytes, reply.bytes));
            }
        }
    }
    let reached = asking.blocks();
    Left { tally: asking.tally, reached, sample }
}

fn question(r: &mut Random, pool: &Pool, by: By, tally: &mut Tally) -> Question {
    let mut bytes = pool.draw(r).to_vec();
    let other = pool.draw(r);
    damage(r, &mut bytes, other, &mut tally.ways);
    let answers = by.answers(&bytes);
    tally.job(&bytes, &answers);
    Question::Job { must: by.text_of(&answers), bytes }
}
