//! The best path so far: only what is better, and what the check says yes to, is held.
use crate::lists::List;
use crate::problem::Settings;
use crate::score::{verdict, Verdict};
use crate::table::{Rows, Table};

/// A path for the check to say yes or no to: rows of the caller's table, positions of the haplotype's parts, and the score.
#[derive(Clone, Debug, PartialEq)]
pub struct Proposal {
    pub rows: Vec<usize>,
    pub positions: Vec<usize>,
    pub score: f32,
}

/// A proposal that the check said yes to.
#[derive(Clone, Debug, PartialEq)]
pub struct Found {
    pub proposal: Proposal,
    pub sizesim: f32,
    pub seqsim: f32,
}

pub struct Best<'a> {
    settings: Settings,
    table: &'a Table,
    check: &'a mut dyn FnMut(&Proposal) -> bool,
    pub score: f32,
    pub found: Option<Found>,
    /// How many proposals the check said no to: where there is one, this search misreads the rules.
    pub doubted: u32,
    pub scored: u64,
}

impl<'a> Best<'a> {
    /// Nothing counts but what is above this score.
    pub fn above(score: f32, settings: Settings, table: &'a Table, check: &'a mut dyn FnMut(&Proposal) -> bool) -> Self {
        Self { settings, table, check, score, found: None, doubted: 0, scored: 0 }
    }

    /// Scores a chain, of which the sum is known, against a list, and holds it if it is the best.
    pub fn offer(&mut self, chain: Rows, sum: &crate::Counts, list: &List) -> Verdict {
        let told = verdict(&self.settings, sum, chain.count_ones() as usize, list);
        self.scored += 1;
        if told.passes && told.score > self.score {
            self.propose(chain, list, told);
        }
        told
    }

    fn propose(&mut self, chain: Rows, list: &List, told: Verdict) {
        let proposal = Proposal { rows: self.table.numbers(chain), positions: list.positions.clone(), score: told.score };
        if (self.check)(&proposal) {
            self.score = told.score;
            self.found = Some(Found { proposal, sizesim: told.sizesim, seqsim: told.seqsim });
        } else {
            self.doubted += 1;
        }
    }
}
