//! A chain's score against one part list, in the rules' own order of rounded operations: the same bits as the library's.
use crate::lists::List;
use crate::problem::{Counts, Problem, Settings};

/// Of one chain and one list.
#[derive(Clone, Copy, Debug)]
pub struct Verdict {
    pub score: f32,
    pub sizesim: f32,
    pub seqsim: f32,
    /// Whether no skip test stops it. Where one does, the score still tells how near it is.
    pub passes: bool,
}

pub fn sizesim(a: u64, b: u64) -> f32 {
    if a == b {
        return 1.0;
    }
    a.min(b).max(1) as f32 / a.max(b).max(1) as f32
}

pub fn seqsim(a: &[i32], b: &[i32], minkfreq: u32) -> f32 {
    let least = i32::try_from(minkfreq).unwrap_or(i32::MAX);
    let (mut n, mut d) = (0, 0);
    for (x, y) in a.iter().zip(b) {
        let both = x.abs() + y.abs();
        let kept = i32::from(both >= least);
        n += kept * (x - y).abs();
        d += kept * both;
    }
    match (n, d) {
        (_, 0) => 0.0,
        (0, _) => 1.0,
        _ => 1.0 - n as f32 / d as f32,
    }
}

/// g of the rules; none for the empty chain under squish.
fn gap(settings: &Settings, list: &List, length: usize) -> Option<usize> {
    if settings.squish { length.checked_sub(1) } else { Some(list.positions.len().abs_diff(length)) }
}

/// Both similarities less the penalties.
pub fn total(settings: &Settings, seqsim: f32, sizesim: f32, partial: u32, gap: usize) -> f32 {
    (seqsim + sizesim) / 2.0 - settings.fpenalty * partial as f32 - settings.gpenalty * gap as f32
}

pub fn verdict(settings: &Settings, chain: &Counts, length: usize, list: &List) -> Verdict {
    let one_sign = chain.size.signum() == list.counts.size.signum();
    let sizes = if one_sign { sizesim(chain.size.unsigned_abs(), list.counts.size.unsigned_abs()) } else { 0.0 };
    let letters = seqsim(&chain.features, &list.counts.features, settings.minkfreq);
    let gap = gap(settings, list, length);
    let score = total(settings, letters, sizes, list.partial, gap.unwrap_or(1));
    let passes = one_sign && gap.is_some() && sizes >= settings.sizesim && letters >= settings.seqsim;
    Verdict { score, sizesim: sizes, seqsim: letters, passes }
}

/// The rules' score of some rows and one list, by their numbers; none where a skip test stops it or it is not above 0. That the rows are a chain is not looked at.
pub fn scored(problem: &Problem, rows: &[usize], positions: &[usize]) -> Option<f32> {
    let mut chain = Counts::none(problem.entries());
    rows.iter().for_each(|&row| chain.add(&problem.variants[row].counts));
    let told = verdict(&problem.settings, &chain, rows.len(), &List::of(problem, positions.to_vec()));
    (told.passes && told.score > 0.0).then_some(told.score)
}

#[cfg(test)]
mod tests {
    use super::*;

    #[test]
    fn the_bench_examples() {
        assert_eq!([sizesim(0, 1), sizesim(0, 4), sizesim(0, 0)], [1.0, 0.25, 1.0]);
        let (a, b) = ([1, 1, 1, 1], [1, 1, 0, 0]);
        assert_eq!([seqsim(&a, &b, 1), seqsim(&a, &b, 2), seqsim(&a, &b, 3)], [1.0 - 2.0 / 6.0, 1.0, 0.0]);
    }
}
