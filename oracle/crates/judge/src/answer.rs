//! An answer, its lines and the words of its report.
use crate::rules::{Rules, DOCUMENT};

/// A refusal's number and the seven words of document 01's answer: how many rows, the target's number, score, sizesim, seqsim, count, complete.
pub type Report = [u32; 8];

#[derive(Clone, Copy, Debug, PartialEq, Eq)]
pub enum Target {
    Nothing,
    Whole,
    /// how many parts the list leaves out
    Partial(u32),
}

/// Floats are compared by their bits.
#[derive(Clone, Debug, PartialEq, Eq)]
pub struct Answer {
    pub refusal: u32,
    pub rows: Vec<u32>,
    /// the rows' record numbers
    pub records: Vec<u32>,
    pub target: Target,
    pub score: u32,
    pub sizesim: u32,
    pub seqsim: u32,
    pub scored: u32,
    pub complete: bool,
}

impl Answer {
    pub fn refused(number: u32) -> Self {
        Answer {
            refusal: number,
            rows: vec![],
            records: vec![],
            target: Target::Nothing,
            score: 0,
            sizesim: 0,
            seqsim: 0,
            scored: 0,
            complete: false,
        }
    }

    /// What the program prints.
    pub fn text(&self) -> String {
        self.text_in(DOCUMENT.lines())
    }

    /// The lines of these words, in their order.
    pub fn text_in(&self, lines: &[&str]) -> String {
        if self.refusal != 0 {
            return format!("refused {}\n", self.refusal);
        }
        lines.iter().map(|&word| format!("{word}{}\n", self.after(word))).collect()
    }

    pub fn report(&self) -> Report {
        let target = match self.target {
            Target::Nothing => 0,
            Target::Whole => 1,
            Target::Partial(left_out) => left_out + 1,
        };
        [self.refusal, self.rows.len() as u32, target, self.score, self.sizesim, self.seqsim, self.scored, self.complete as u32]
    }

    /// What stands in its line after a word.
    fn after(&self, word: &str) -> String {
        let list = |numbers: &[u32]| numbers.iter().map(|number| format!(" {number}")).collect();
        let bits = |float: u32| format!(" {float:08x}");
        let yes = |b: bool| if b { " yes" } else { " no" }.to_string();
        match word {
            "rows" => list(&self.rows),
            "records" => list(&self.records),
            "score" => bits(self.score),
            "sizesim" => bits(self.sizesim),
            "seqsim" => bits(self.seqsim),
            "full" => yes(self.target == Target::Whole),
            "scored" => format!(" {}", self.scored),
            "complete" => yes(self.complete),
            _ => unreachable!("no line of an answer: {word}"),
        }
    }
}

/// What the program prints for the answer to the whole job, or for one to each of several haplotypes.
pub fn text(rules: &Rules, answers: &[Answer]) -> String {
    let hap = |at: usize| if rules.hap_lines_stand(answers.len()) { format!("hap {}\n", rules.hap_number(at)) } else { String::new() };
    answers.iter().enumerate().map(|(at, answer)| hap(at) + &answer.text_in(rules.lines())).collect()
}
