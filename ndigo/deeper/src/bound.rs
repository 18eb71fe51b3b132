//! A bound on what all chains of some rows can still come to. A chain is as similar as asked for exactly if a sum over the entries,
//! each a function of how often the chain has that window, is not above 0. Each such function lies above every line of a slope within
//! bounds, so the sum lies above a sum of lines, which is linear in the rows: its least value over all chains is the heaviest chain's.
//! Every choice of slopes gives a bound that holds; good slopes are found by going up where the bound rises.
use crate::goal::Goal;
use crate::lists::List;
use crate::table::{places, Rows, Table};

/// An entry of which the list has fewer than minkfreq: where its function may touch a line from above.
struct Thin {
    entry: usize,
    points: [(f64, f64); 5],
}

/// The functions of one list and one goal.
pub struct Bound<'a> {
    table: &'a Table,
    counts: Vec<f64>,
    thin: Vec<Thin>,
    goal: Goal,
    /// What a letter of size weighs beside a window, so that both rise alike.
    letter: f64,
    /// Above what a bound must lie for its own rounding to be of no account.
    margin: f64,
}

/// Which rows are in and which are open.
#[derive(Clone, Copy, Debug)]
pub struct Open {
    pub taken: Rows,
    pub free: Rows,
}

/// The best bound that was found: slopes of the entries, and last that of the size.
pub struct Raised {
    pub value: f64,
    pub weights: Vec<f64>,
    pub slopes: Vec<f64>,
    /// Of each row how often the heaviest chain held it.
    pub often: Vec<f64>,
    /// The chain that the bound would come to.
    pub chain: Rows,
}

fn cost(x: f64, y: f64, minkfreq: f64, unlike: f64) -> f64 {
    let both = x.abs() + y.abs();
    if both >= minkfreq { (x - y).abs() - unlike * both } else { 0.0 }
}

fn thin(entry: usize, y: f64, minkfreq: f64, unlike: f64) -> Thin {
    let kept = minkfreq - y.abs();
    let points = [-kept, 1.0 - kept, kept - 1.0, kept, y];
    Thin { entry, points: points.map(|x| (x, cost(x, y, minkfreq, unlike))) }
}

impl<'a> Bound<'a> {
    pub fn of(table: &'a Table, list: &List, minkfreq: u32, goal: Goal) -> Self {
        let counts: Vec<f64> = list.counts.features.iter().map(|&count| f64::from(count)).collect();
        let least = f64::from(minkfreq);
        let few = counts.iter().enumerate().filter(|(_, count)| count.abs() < least);
        let thin = few.map(|(entry, &count)| thin(entry, count, least, goal.unlike)).collect();
        let margin = 1e-6 * (1.0 + counts.iter().map(|count| count.abs()).sum::<f64>());
        Self { table, counts, thin, goal, letter: 1.0 / (table.entries as f64).sqrt(), margin }
    }

    fn weights(&self, slopes: &[f64]) -> Vec<f64> {
        let by_size = slopes[self.counts.len()] * self.letter;
        (0..self.table.rows.len()).map(|row| self.table.weight(row, slopes) + by_size * self.table.rows[row].counts.size as f64).collect()
    }

    /// The least weight of a chain that holds what is taken, and the chain.
    fn least(&self, weights: &[f64], open: Open) -> (f64, Rows) {
        let turned: Vec<f64> = weights.iter().map(|weight| -weight).collect();
        let (gain, chain) = self.table.heaviest(open.free, &turned);
        (places(open.taken).map(|row| weights[row]).sum::<f64>() - gain, chain | open.taken)
    }

    /// How far the lines lie below: the sum over the entries of the most that a line of this slope is above the function; and where, into `points`.
    fn below(&self, slopes: &[f64], points: &mut [f64]) -> f64 {
        let last = self.counts.len();
        points[..last].copy_from_slice(&self.counts);
        let mut sum: f64 = self.counts.iter().zip(slopes).map(|(y, slope)| slope * y + 2.0 * self.goal.unlike * y.abs()).sum();
        for Thin { entry, points: all } in &self.thin {
            let (y, slope) = (self.counts[*entry], slopes[*entry]);
            let value = |&(x, cost): &(f64, f64)| slope * x - cost;
            let top = all.iter().fold(all[0], |top, point| if value(point) > value(&top) { *point } else { top });
            sum += value(&top) - (slope * y + 2.0 * self.goal.unlike * y.abs());
            points[*entry] = top.0;
        }
        points[last] = self.letter * if slopes[last] > 0.0 { self.goal.sizes.1 } else { self.goal.sizes.0 };
        sum + slopes[last] * points[last]
    }

    /// One step up from these slopes, of which the bound is `value`; the uphill direction is where the chain and the points differ.
    fn step(&self, slopes: &mut [f64], points: &[f64], chain: Rows, value: f64) {
        let steepest = 1.0 - self.goal.unlike;
        let sum = self.table.sum(chain);
        let last = self.counts.len();
        let mut uphill: Vec<f64> = sum.features.iter().zip(points).map(|(&x, point)| f64::from(x) - point).collect();
        uphill.push(self.letter * sum.size as f64 - points[last]);
        for (up, slope) in uphill[..last].iter_mut().zip(slopes.iter()) {
            if *slope * up.signum() >= steepest {
                *up = 0.0;
            }
        }
        let length: f64 = uphill.iter().map(|up| up * up).sum();
        let rate = (2.0 * self.margin + 1.0 - value) / length.max(1e-9);
        slopes.iter_mut().zip(&uphill).for_each(|(slope, up)| *slope += rate * up);
        slopes[..last].iter_mut().for_each(|slope| *slope = slope.clamp(-steepest, steepest));
    }

    pub fn rules_out(&self, value: f64) -> bool {
        value > self.margin
    }

    /// Goes up for so many rounds, or until the bound rules all chains out, or `goes_on` says no.
    pub fn raise(&self, open: Open, mut slopes: Vec<f64>, rounds: usize, goes_on: &dyn Fn() -> bool) -> Raised {
        let steepest = 1.0 - self.goal.unlike;
        let last = self.counts.len();
        slopes[..last].iter_mut().for_each(|slope| *slope = slope.clamp(-steepest, steepest));
        let mut points = vec![0.0; last + 1];
        let mut best = Raised { value: f64::NEG_INFINITY, weights: vec![], slopes: vec![], often: vec![0.0; self.table.rows.len()], chain: open.taken };
        for _ in 0..rounds {
            let weights = self.weights(&slopes);
            let (least, chain) = self.least(&weights, open);
            let value = least - self.below(&slopes, &mut points);
            places(chain).for_each(|row| best.often[row] += 1.0 / rounds as f64);
            if value > best.value {
                best = Raised { value, weights, slopes: slopes.clone(), chain, ..best };
            }
            if self.rules_out(value) || !goes_on() {
                break;
            }
            self.step(&mut slopes, &points, chain, value);
        }
        best
    }

    /// Rows that must be in or out, since the bound rules out the other: the same slopes with that row forced.
    pub fn forced(&self, open: Open, raised: &Raised) -> Open {
        let below = self.least(&raised.weights, open).0 - raised.value;
        let value = |open: Open| self.least(&raised.weights, open).0 - below;
        let mut forced = open;
        for row in places(open.free) {
            let with = self.with(open, row);
            if self.rules_out(value(with)) {
                forced.free &= !(1 << row);
            } else if self.rules_out(value(Open { free: open.free & !(1 << row), ..open })) {
                forced = self.with(forced, row);
            }
        }
        forced
    }

    pub fn with(&self, open: Open, row: usize) -> Open {
        Open { taken: open.taken | 1 << row, free: open.free & !self.table.overlapped[row] & !(1 << row) }
    }
}
