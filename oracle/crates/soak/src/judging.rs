//! Who says what the library must say, for a question and for the smaller ones that a difference is shrunk to.
use crate::question::Question;
use judge::answer::{self, Answer};
use judge::call::Call;
use judge::document::program_answers;
use judge::met::Met;
use judge::rules::Rules;
use judge::several::Several;
use judge::{program, rust, shrink};

#[derive(Clone, Copy)]
pub enum By {
    /// the second reading, by these rules
    Reading(&'static Rules),
    /// the Rust where it speaks
    Rust,
}

impl By {
    pub fn answers(self, bytes: &[u8]) -> Vec<Answer> {
        match self {
            By::Reading(rules) => program_answers(rules, bytes, &mut Met::default()),
            By::Rust => program::answers(bytes),
        }
    }

    pub fn text(self, bytes: &[u8]) -> String {
        self.text_of(&self.answers(bytes))
    }

    pub fn text_of(self, answers: &[Answer]) -> String {
        match self {
            By::Reading(rules) => answer::text(rules, answers),
            By::Rust => answer::text(&judge::rules::DOCUMENT, answers),
        }
    }

    fn job(self, bytes: &[u8]) -> Question {
        Question::Job { bytes: bytes.to_vec(), must: self.text(bytes) }
    }

    /// The smallest question found that still shows it.
    pub fn shrunk(self, question: &Question, shows: &dyn Fn(&Question) -> bool) -> Question {
        match question {
            Question::Job { bytes, .. } => self.job(&shrink::bytes(bytes.clone(), |one| shows(&self.job(one)))),
            Question::Haplotype { call, rows, .. } => {
                let of = |call: &Call| one_haplotype(call.clone(), rust::judged(call).answer, rows.iter().copied().cycle());
                of(&shrink::call(call.clone(), |one| shows(&of(one))))
            }
            Question::Haplotypes { several, .. } => several_haplotypes(shrink::several(several.clone(), |one| shows(&several_haplotypes(one.clone())))),
        }
    }
}

/// A search for one haplotype with the judge's answer, its answer buffer and its report filled with these words.
pub fn one_haplotype(call: Call, must: Answer, words: impl Iterator<Item = u32>) -> Question {
    let mut words = words.chain(std::iter::repeat(9));
    let rows = words.by_ref().take(call.answer_room).collect();
    let report = std::array::from_fn(|_| words.next().unwrap_or(9));
    Question::Haplotype { rows, report, must, call }
}

fn several_haplotypes(several: Several) -> Question {
    let must = rust::judged_several(&several).into_iter().map(|judged| judged.answer).collect();
    Question::Haplotypes { several, must }
}
