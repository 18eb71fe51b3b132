//! The search: a beam for each part list and climbs from its best chains, then branch and bound while time lasts.
use crate::best::{Best, Found, Proposal};
use crate::branch::Tree;
use crate::climb::climb;
use crate::fit::Fit;
use crate::goal::Goal;
use crate::lists::{positions, List};
use crate::problem::Problem;
use crate::table::Table;
use crate::beam;
use std::time::{Duration, Instant};

/// From how many of a beam's chains it is climbed.
const CLIMBS: usize = 3;

/// How much is done.
#[derive(Clone, Copy, Debug)]
pub struct Effort {
    pub time: Duration,
    /// How many ways a beam keeps; 0 leaves the beams out, and branch and bound is all.
    pub width: usize,
}

impl Effort {
    pub fn of(time: Duration) -> Self {
        Self { time, width: 192 }
    }
}

/// How the search came to its end.
#[derive(Clone, Copy, Debug, PartialEq, Eq)]
pub enum Ended {
    /// Its bounds rule out every path that scores higher by over a millionth.
    RuledOut,
    TimeRanOut,
    /// The check said no to so many proposals: its bounds say nothing then.
    Doubted(u32),
}

#[derive(Clone, Debug)]
pub struct Looked {
    /// The best that is better than what was there, if any.
    pub found: Option<Found>,
    pub ended: Ended,
    /// How many pairs of a chain and a list were scored.
    pub scored: u64,
    pub lists: usize,
    /// Of so many lists everything better was ruled out.
    pub closed: usize,
}

/// How far it is.
#[derive(Clone, Copy, Debug)]
pub struct Step {
    pub lists: usize,
    pub beams: usize,
    pub closed: usize,
    pub best: f32,
}

struct Search<'a> {
    problem: &'a Problem,
    table: &'a Table,
    lists: Vec<Vec<usize>>,
    ends: Instant,
    width: usize,
}

impl Search<'_> {
    /// Whether a list could give more than the best if all of it were explained.
    fn promises(&self, positions: &[usize], best: &Best) -> bool {
        let partial = (self.problem.parts.len() - positions.len()) as u32;
        Goal::is_open(&self.problem.settings, partial, best.score)
    }

    fn beam(&self, fit: &Fit, list: &List, best: &mut Best) {
        let goes_on = || Instant::now() < self.ends;
        let chains = beam::chains(self.table, fit, &fit.wanted(self.table, list), self.width);
        let mut scores: Vec<(f32, u64)> = chains.iter().map(|&chain| (best.offer(chain, &self.table.sum(chain), list).score, chain)).collect();
        scores.sort_by(|a, b| b.0.total_cmp(&a.0));
        scores.iter().take(CLIMBS).for_each(|&(_, chain)| climb(self.table, list, best, chain, &goes_on));
    }

    fn beams(&self, best: &mut Best, step: &mut dyn FnMut(Step)) {
        let fit = Fit::of(self.table);
        for (beams, positions) in self.lists.iter().enumerate() {
            if self.width == 0 || Instant::now() >= self.ends {
                return;
            }
            if self.promises(positions, best) {
                self.beam(&fit, &List::of(self.problem, positions.clone()), best);
            }
            step(Step { lists: self.lists.len(), beams: beams + 1, closed: 0, best: best.score });
        }
    }

    /// Whether everything better was ruled out of a list before its time was over.
    fn branch(&self, positions: &[usize], best: &mut Best, time: Duration) -> bool {
        let ends = Instant::now() + time;
        let list = List::of(self.problem, positions.to_vec());
        let tree = Tree { settings: &self.problem.settings, table: self.table, list: &list };
        tree.close(best, &|| Instant::now() < ends)
    }

    /// How many lists are closed in the end. In each round every list that is still open has an equal share of the time that is left.
    fn branches(&self, best: &mut Best, step: &mut dyn FnMut(Step)) -> usize {
        let mut open: Vec<&Vec<usize>> = self.lists.iter().collect();
        loop {
            open.retain(|positions| self.promises(positions, best));
            let left = self.ends.saturating_duration_since(Instant::now());
            if open.is_empty() || left.is_zero() {
                return self.lists.len() - open.len();
            }
            let mut still = open.len();
            let share = left / still as u32;
            open.retain(|positions| {
                let closed = !self.promises(positions, best) || self.branch(positions, best, share);
                still -= usize::from(closed);
                step(Step { lists: self.lists.len(), beams: self.lists.len(), closed: self.lists.len() - still, best: best.score });
                !closed
            });
        }
    }
}

/// Looks for a path that scores above `than`. Each that it would hold is put to `check` first.
pub fn search(problem: &Problem, than: f32, effort: Effort, check: &mut dyn FnMut(&Proposal) -> bool, step: &mut dyn FnMut(Step)) -> Looked {
    let ends = Instant::now() + effort.time;
    let table = Table::of(problem);
    let mut best = Best::above(than, problem.settings, &table, check);
    let search = Search { problem, table: &table, lists: positions(problem), ends, width: effort.width };
    search.beams(&mut best, step);
    let closed = search.branches(&mut best, step);
    let ended = match (best.doubted, closed == search.lists.len()) {
        (0, true) => Ended::RuledOut,
        (0, false) => Ended::TimeRanOut,
        (doubted, _) => Ended::Doubted(doubted),
    };
    Looked { found: best.found, ended, scored: best.scored, lists: search.lists.len(), closed }
}
