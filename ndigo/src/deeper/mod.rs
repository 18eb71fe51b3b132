//! A look for a better path than the proved search found, where that stopped early. The crate `deeper` searches and is not proved; what
//! leaves this module was put to the proved check, which said yes.
mod check;
mod words;

pub use check::Check;
pub use words::{below, cells, progress, CELLS};

use crate::model::Sheet;
use crate::search::counted;
use ::deeper::{Counts, Effort, Problem, Settings, Step, Variant};
use ndigomarr::{Answer, Target};
use std::time::Duration;

pub use ::deeper::Ended;

/// A better path and the positions of the parts that it explains.
#[derive(Clone, Debug)]
pub struct Better {
    pub answer: Answer,
    pub used: Vec<usize>,
}

/// What came of a look.
#[derive(Clone, Debug)]
pub struct Looked {
    pub better: Option<Better>,
    pub ended: Ended,
    /// How many pairs of a path and a part list were scored.
    pub scored: u64,
    pub lists: usize,
    /// Of so many lists everything better is ruled out.
    pub closed: usize,
    /// What it was given.
    pub time: Duration,
}

/// What became of a haplotype beyond its answer.
#[derive(Clone, Debug)]
pub enum Outcome {
    /// The answer stands: all paths were scored.
    AllScored,
    /// Each row is tried alone: longer paths were not asked for.
    OneToOne,
    /// Its letters could not be counted: no sheet that is answered comes here.
    NotCounted,
    Looked(Looked),
}

/// Size and features of a row or a part, by the library's own counter and the sheet's reading of letters.
fn counts(sequence: &crate::model::Sequence, settings: &ndigomarr::Settings) -> Option<Counts> {
    counted(sequence, settings).map(|(size, features)| Counts { size, features })
}

/// The haplotype, in a sheet of its own, as the search takes it.
pub fn problem(own: &Sheet) -> Option<Problem> {
    let s = own.settings.to_library();
    let variant = |v: &crate::model::Variant| Some(Variant { start: v.start, end: v.end, counts: counts(&v.sequence, &s)? });
    let settings = Settings {
        squish: s.squish,
        fnmax: s.fnmax,
        pileupmax: s.pileupmax,
        minkfreq: s.minkfreq,
        sizesim: s.sizesim,
        seqsim: s.seqsim,
        fpenalty: s.fpenalty,
        gpenalty: s.gpenalty,
    };
    let variants: Option<Vec<Variant>> = own.variants.iter().map(variant).collect();
    let parts: Option<Vec<Counts>> = own.parts.iter().map(|part| counts(part, &s)).collect();
    Some(Problem { settings, variants: variants?, parts: parts? })
}

/// What was found in the form of an answer. It has no count of its own: the proved answer's says how many paths were scored.
fn better(own: &Sheet, answer: &Answer, found: ::deeper::Found) -> Better {
    let ::deeper::Proposal { rows, positions, score } = found.proposal;
    let left_out = own.parts.len() - positions.len();
    let target = if left_out == 0 { Target::Whole } else { Target::Partial(left_out as u32) };
    let records = rows.iter().map(|&row| own.number(row) as u32).collect();
    let (sizesim, seqsim) = (found.sizesim, found.seqsim);
    Better { answer: Answer { rows, records, target, score, sizesim, seqsim, scored: answer.scored, complete: false }, used: positions }
}

/// Looks for a path that scores higher than the answer, for a haplotype in a sheet of its own.
pub fn look(own: &Sheet, answer: &Answer, time: Duration, step: &mut dyn FnMut(Step)) -> Outcome {
    if own.one_to_one() {
        return Outcome::OneToOne;
    }
    if answer.complete {
        return Outcome::AllScored;
    }
    let Some((problem, check)) = problem(own).zip(Check::of(own)) else { return Outcome::NotCounted };
    let looked = ::deeper::search(&problem, answer.score, Effort::of(time), &mut |proposal| check.says_yes(proposal), step);
    let ::deeper::Looked { found, ended, scored, lists, closed } = looked;
    Outcome::Looked(Looked { better: found.map(|found| better(own, answer, found)), ended, scored, lists, closed, time })
}
