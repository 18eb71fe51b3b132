//! What a reading of document 01 met on its way, to count what the jobs reach. Nothing here decides an answer.
use crate::call::Call;
use crate::document::{PartList, Verdict};
use crate::job::Settings;

#[derive(Clone, Copy, Debug, Default)]
pub struct Met {
    pub signs_differ: bool,
    pub sizesim_below: bool,
    pub seqsim_below: bool,
    pub sizesim_at_threshold: bool,
    pub seqsim_at_threshold: bool,
    pub score_exactly_zero: bool,
    pub score_below_zero: bool,
    pub lists_tie: bool,
    pub d_zero: bool,
    pub n_zero: bool,
    pub empty_under_squish: bool,
    pub fpenalty_used: bool,
    pub gpenalty_used: bool,
    pub nodes_tie: bool,
    pub inside: bool,
    pub no_neighbour: bool,
    pub touches: bool,
}

impl Met {
    /// A list was tried against a chain whose best was so far this.
    pub fn list(&mut self, s: &Settings, list: &PartList, verdict: &Verdict, best: f32) {
        let alike = match verdict {
            Verdict::SignsDiffer => return self.signs_differ = true,
            Verdict::EmptyUnderSquish => return self.empty_under_squish = true,
            Verdict::SizesimBelow => return self.sizesim_below = true,
            Verdict::SeqsimBelow(alike) => {
                self.seqsim_below = true;
                alike
            }
            Verdict::Score { score, g, alike } => {
                self.score_exactly_zero |= *score == 0.0;
                self.score_below_zero |= *score < 0.0;
                self.lists_tie |= *score == best && *score > 0.0;
                self.fpenalty_used |= list.partial > 0 && s.fpenalty > 0.0;
                self.gpenalty_used |= *g > 0 && s.gpenalty > 0.0;
                alike
            }
        };
        self.sizesim_at_threshold |= alike.sizesim == s.sizesim;
        self.seqsim_at_threshold |= alike.seqsim == s.seqsim;
        self.d_zero |= alike.d == 0;
        self.n_zero |= alike.d != 0 && alike.n == 0;
    }

    /// A chain was queued with one row more, or was not, because the row overlaps one of its rows.
    pub fn extension(&mut self, call: &Call, chain: &[usize], row: usize, overlaps: impl Fn(usize) -> bool) {
        let (start, end) = call.interval(row);
        let kept_back = chain.iter().any(|&earlier| overlaps(earlier));
        self.inside |= kept_back && start == end;
        self.no_neighbour |= kept_back && chain.last().is_some_and(|&last| !overlaps(last));
        self.touches |= !kept_back && start == end && chain.iter().any(|&earlier| call.interval(earlier).0 < start && call.interval(earlier).1 == start);
    }

    /// A node was a candidate of one-to-one.
    pub fn candidate(&mut self, score: f32, best: f32) {
        self.nodes_tie |= score == best;
    }
}
