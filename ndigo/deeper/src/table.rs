//! The table's rows ordered so that a chain asks nothing but the row before. Sorted by start and then by end, a row without length
//! stands before the rows that begin where it is, and so the rows that may follow a row in a chain are all those from one place on.
use crate::problem::{Counts, Problem};

/// A set of rows, by their places in this order.
pub type Rows = u64;

pub struct Row {
    pub counts: Counts,
    /// The features that are not 0, by entry.
    filled: Vec<(u32, f64)>,
    /// From here on the rows stand with this one.
    pub next: usize,
    /// Its place in the caller's table.
    pub at: usize,
}

pub struct Table {
    pub rows: Vec<Row>,
    pub entries: usize,
    /// For each row those that overlap it.
    pub overlapped: Vec<Rows>,
}

/// The rules' overlap: what both cover, or a point strictly inside.
fn overlap(a: (u64, u64), b: (u64, u64)) -> bool {
    let inside = |point: (u64, u64), other: (u64, u64)| point.0 == point.1 && other.0 < point.0 && point.0 < other.1;
    a.0.max(b.0) < a.1.min(b.1) || inside(a, b) || inside(b, a)
}

pub fn places(rows: Rows) -> impl Iterator<Item = usize> {
    std::iter::successors(Some(rows), |rest| Some(rest & rest.wrapping_sub(1))).take_while(|&rest| rest != 0).map(|rest| rest.trailing_zeros() as usize)
}

impl Table {
    pub fn of(problem: &Problem) -> Self {
        let bounds = |at: usize| (problem.variants[at].start, problem.variants[at].end);
        let mut order: Vec<usize> = (0..problem.variants.len()).collect();
        order.sort_by_key(|&at| bounds(at));
        let rows = order.iter().enumerate().map(|(place, &at)| {
            let counts = problem.variants[at].counts.clone();
            let filled = counts.features.iter().enumerate().filter(|(_, entry)| **entry != 0).map(|(place, entry)| (place as u32, f64::from(*entry)));
            let next = (place + 1..order.len()).find(|&later| !overlap(bounds(at), bounds(order[later]))).unwrap_or(order.len());
            Row { filled: filled.collect(), counts, next, at }
        });
        let set = |at: usize| order.iter().enumerate().filter(|(_, other)| **other != at && overlap(bounds(at), bounds(**other))).fold(0, |set, (place, _)| set | 1 << place);
        Self { rows: rows.collect(), entries: problem.entries(), overlapped: order.iter().map(|&at| set(at)).collect() }
    }

    pub fn all(&self) -> Rows {
        if self.rows.len() == 64 { Rows::MAX } else { (1 << self.rows.len()) - 1 }
    }

    pub fn sum(&self, chain: Rows) -> Counts {
        let mut sum = Counts::none(self.entries);
        places(chain).for_each(|place| sum.add(&self.rows[place].counts));
        sum
    }

    /// The chain's rows as the caller numbers them.
    pub fn numbers(&self, chain: Rows) -> Vec<usize> {
        let mut numbers: Vec<usize> = places(chain).map(|place| self.rows[place].at).collect();
        numbers.sort_unstable();
        numbers
    }

    /// How much a row weighs where each of its windows weighs this much.
    pub fn weight(&self, place: usize, slopes: &[f64]) -> f64 {
        let row = &self.rows[place];
        if row.filled.len() * 3 < self.entries {
            return row.filled.iter().map(|&(entry, count)| slopes[entry as usize] * count).sum();
        }
        row.counts.features.iter().zip(slopes).map(|(&count, slope)| slope * f64::from(count)).sum()
    }

    /// The heaviest chain of these rows, and its weight; the empty one weighs 0.
    pub fn heaviest(&self, among: Rows, weights: &[f64]) -> (f64, Rows) {
        let count = self.rows.len();
        let mut best = [(0.0, 0); 65];
        for place in (0..count).rev() {
            best[place] = best[place + 1];
            let (rest, chain) = best[self.rows[place].next];
            if among >> place & 1 == 1 && weights[place] + rest > best[place].0 {
                best[place] = (weights[place] + rest, chain | 1 << place);
            }
        }
        best[0]
    }
}

#[cfg(test)]
mod tests {
    use super::*;
    use crate::problem::{Settings, Variant};

    const SETTINGS: Settings = Settings { squish: false, fnmax: 0, pileupmax: 1, minkfreq: 1, sizesim: 0.0, seqsim: 0.0, fpenalty: 0.0, gpenalty: 0.0 };

    fn table(bounds: &[(u64, u64)]) -> Table {
        let variants = bounds.iter().map(|&(start, end)| Variant { start, end, counts: Counts::none(4) }).collect();
        Table::of(&Problem { settings: SETTINGS, variants, parts: vec![] })
    }

    /// A chain by the rules: no two of its rows overlap.
    fn stands(table: &Table, chain: Rows) -> bool {
        places(chain).all(|place| table.overlapped[place] & chain == 0)
    }

    #[test]
    fn what_follows_is_all_from_one_place_on() {
        // all pairs of bounds up to 4, three rows at a time, as sorted starts allow
        let bounds: Vec<(u64, u64)> = (0..4).flat_map(|start| (start..5).map(move |end| (start, end))).collect();
        for a in &bounds {
            for b in bounds.iter().filter(|b| b.0 >= a.0) {
                for c in bounds.iter().filter(|c| c.0 >= b.0) {
                    let table = table(&[*a, *b, *c]);
                    let by_next = |chain: Rows| {
                        let rows: Vec<usize> = places(chain).collect();
                        rows.windows(2).all(|pair| pair[1] >= table.rows[pair[0]].next)
                    };
                    assert!((0..8).all(|chain| stands(&table, chain) == by_next(chain)), "{a:?} {b:?} {c:?}");
                }
            }
        }
    }

    #[test]
    fn the_heaviest_is_a_chain() {
        let table = table(&[(0, 10), (5, 5), (6, 8), (10, 12)]);
        assert_eq!(table.heaviest(table.all(), &[3.0, 1.0, 1.5, 1.0]), (4.0, 0b1001));
        assert_eq!(table.heaviest(table.all(), &[2.0, 1.0, 1.5, 1.0]), (3.5, 0b1110));
        assert_eq!(table.heaviest(0b0110, &[2.0, 1.0, -1.5, 1.0]), (1.0, 0b0010));
    }
}
