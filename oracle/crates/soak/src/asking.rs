//! Questions put to the harness in batches, a share of them to the sanitized one and to valgrind too; a difference is shrunk and kept.
use crate::harness::{Harness, Reply};
use crate::judging::By;
use crate::kept;
use crate::message::{How, Placing};
use crate::question::Question;
use crate::tally::Tally;
use judge::random::Random;
use std::cell::RefCell;
use std::time::{Duration, Instant};

/// The commands of the harness: as it is, and on x86-64 with sanitizers and under valgrind.
#[derive(Clone, Default)]
pub struct Commands {
    pub plain: Vec<String>,
    pub sanitized: Vec<String>,
    pub valgrind: Vec<String>,
}

/// Each so many batches go to the sanitized harness too, and each so many to valgrind; the first goes to both.
const SANITIZED_EACH: u64 = 20;
const VALGRIND_EACH: u64 = 2_000;
/// how many of a batch are put to valgrind
const VALGRIND_AT_ONCE: usize = 64;
/// Differences that are shrunk and kept, of one worker; the others are only counted.
const KEPT: u64 = 3;
/// How long one is shrunk: a call that does not return takes its time at each try.
const SHRINKING: Duration = Duration::from_secs(120);

pub struct Asking {
    commands: Commands,
    plain: Harness,
    batches: u64,
    pub tally: Tally,
    /// the front of the path of what is kept
    path: String,
    by: By,
}

fn drawn_placings(r: &mut Random, count: usize, from: &[Placing]) -> Vec<How> {
    (0..count).map(|_| How { placing: r.pick(from), drawn: r.next() }).collect()
}

fn messages(questions: &[Question], hows: &[How]) -> Vec<Vec<u8>> {
    questions.iter().zip(hows).map(|(question, how)| question.message(*how)).collect()
}

impl Asking {
    pub fn new(commands: &Commands, path: String, by: By) -> Asking {
        Asking { plain: Harness::start(&commands.plain), commands: commands.clone(), batches: 0, tally: Tally::default(), path, by }
    }

    /// The replies of the plain harness; all differences are told.
    pub fn put(&mut self, r: &mut Random, questions: &[Question]) -> Vec<Result<Reply, String>> {
        use Placing::*;
        let hows = drawn_placings(r, questions.len(), &[EndsAtPage, EndsAtPage, EndsAtPage, BeginsAtPage, BetweenGuards]);
        hows.iter().for_each(|how| self.tally.placings[how.placing as usize] += 1);
        let replies = self.plain.ask(&messages(questions, &hows));
        self.judge(questions, &hows, &replies, &self.commands.plain.clone());
        let number = self.batches;
        self.batches += 1;
        if number % SANITIZED_EACH == 0 && !self.commands.sanitized.is_empty() {
            self.tally.sanitized += self.also(r, questions, &self.commands.sanitized.clone());
        }
        if number % VALGRIND_EACH == 0 && !self.commands.valgrind.is_empty() {
            let few = &questions[..questions.len().min(VALGRIND_AT_ONCE)];
            self.tally.valgrind += self.also(r, few, &self.commands.valgrind.clone());
        }
        replies
    }

    /// The same questions to another build, in a process of its own.
    fn also(&mut self, r: &mut Random, questions: &[Question], command: &[String]) -> u64 {
        use Placing::*;
        let hows = drawn_placings(r, questions.len(), &[OnHeap, OnHeap, OnHeap, EndsAtPage, BeginsAtPage, BetweenGuards]);
        hows.iter().for_each(|how| self.tally.placings[how.placing as usize] += 1);
        let mut harness = Harness::start(command);
        let replies = harness.ask(&messages(questions, &hows));
        self.judge(questions, &hows, &replies, command);
        let ended = harness.end();
        if !ended.ends_with(": 0") {
            self.tally.differ(|| format!("{} ended with {ended} after its last answer", command.join(" ")));
        }
        questions.len() as u64
    }

    fn judge(&mut self, questions: &[Question], hows: &[How], replies: &[Result<Reply, String>], command: &[String]) {
        for ((question, &how), reply) in questions.iter().zip(hows).zip(replies) {
            let Some(words) = question.differs(reply) else { continue };
            if self.tally.differences >= KEPT {
                self.tally.differ(String::new);
                continue;
            }
            let harness = RefCell::new(Harness::start_quietly(command));
            let alone = |one: &Question| one.differs(&harness.borrow_mut().ask_one(one.message(how)));
            let until = Instant::now() + SHRINKING;
            let small = self.by.shrunk(question, &|one| Instant::now() < until && alone(one).is_some());
            let words = alone(&small).unwrap_or(words);
            let file = kept::keep(&format!("{}-{}", self.path, self.tally.differences + 1), &small, &words);
            self.tally.differ(|| format!("{}\n  {words}\n  {file}", small.describe()));
        }
    }

    /// Which blocks this worker's harness reached.
    pub fn blocks(&mut self) -> Vec<bool> {
        let reply = self.plain.ask_one(crate::message::blocks()).expect("the harness answers");
        reply.bytes.iter().map(|&byte| byte == 1).collect()
    }
}
