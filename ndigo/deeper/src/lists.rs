//! The part lists, in the rules' order.
use crate::problem::{Counts, Problem};

/// A part list: what a chain is compared with.
#[derive(Clone, Debug)]
pub struct List {
    pub positions: Vec<usize>,
    pub counts: Counts,
    /// Parts left out.
    pub partial: u32,
}

/// Every ascending list of `count` places below `length`, in lexicographic order.
fn places(length: usize, count: usize) -> Vec<Vec<usize>> {
    let mut all = vec![vec![]];
    for taken in 0..count {
        let extended = |list: &Vec<usize>| {
            let from = list.last().map_or(0, |last| last + 1);
            (from..=length + taken - count).map(|next| [list.clone(), vec![next]].concat()).collect::<Vec<_>>()
        };
        all = all.iter().flat_map(extended).collect();
    }
    all
}

/// The positions of each list: the whole alone from `pileupmax` parts on, else the lists of m parts down to the larger of 1 and m - fnmax.
pub fn positions(problem: &Problem) -> Vec<Vec<usize>> {
    let m = problem.parts.len();
    if m as u64 >= u64::from(problem.settings.pileupmax) {
        return vec![(0..m).collect()];
    }
    let least = m.saturating_sub(problem.settings.fnmax as usize).max(1);
    (least..=m).rev().flat_map(|count| places(m, count)).collect()
}

impl List {
    pub fn of(problem: &Problem, positions: Vec<usize>) -> Self {
        let mut counts = Counts::none(problem.entries());
        positions.iter().for_each(|&part| counts.add(&problem.parts[part]));
        let partial = (problem.parts.len() - positions.len()) as u32;
        Self { positions, counts, partial }
    }
}

#[cfg(test)]
mod tests {
    use super::*;
    use crate::problem::Settings;

    fn listed(m: usize, fnmax: u32, pileupmax: u32) -> Vec<Vec<usize>> {
        let settings = Settings { squish: false, fnmax, pileupmax, minkfreq: 1, sizesim: 0.0, seqsim: 0.0, fpenalty: 0.0, gpenalty: 0.0 };
        positions(&Problem { settings, variants: vec![], parts: vec![Counts::none(4); m] })
    }

    #[test]
    fn the_lists_of_the_bench_examples() {
        assert_eq!(listed(3, 1, 5), [vec![0, 1, 2], vec![0, 1], vec![0, 2], vec![1, 2]]);
        assert_eq!(listed(5, 1, 5), [[0, 1, 2, 3, 4]]);
        assert_eq!(listed(2, 9, 5), [vec![0, 1], vec![0], vec![1]]);
        assert!(listed(0, 1, 5).is_empty());
        assert_eq!(listed(0, 1, 0), [[0usize; 0]]);
    }
}
