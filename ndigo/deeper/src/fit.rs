//! Least squares: how well the rows could explain a list if each could be taken to any amount. The rows' products with each other are
//! brought into triangular form once, the last row first, so that a beam which decides the rows from the first on always knows what
//! the rows still open cannot explain any more.
use crate::lists::List;
use crate::table::Table;

/// How much a letter of size weighs beside a window.
const SIZE: f64 = 0.2;

/// What keeps rows that are sums of others apart, as a share of the rows' mean square.
const RIDGE: f64 = 1e-4;

pub struct Fit {
    /// Row by row; entry [r][s] for s up to r.
    lower: Vec<Vec<f64>>,
}

fn product(a: &crate::Counts, b: &crate::Counts) -> f64 {
    let letters: i64 = a.features.iter().zip(&b.features).map(|(x, y)| i64::from(*x) * i64::from(*y)).sum();
    letters as f64 + SIZE * SIZE * (a.size * b.size) as f64
}

impl Fit {
    pub fn of(table: &Table) -> Self {
        let count = table.rows.len();
        let mut square: Vec<Vec<f64>> = (0..count).map(|r| (0..count).map(|s| product(&table.rows[r].counts, &table.rows[s].counts)).collect()).collect();
        let mean = (0..count).map(|r| square[r][r]).sum::<f64>() / count.max(1) as f64;
        (0..count).for_each(|r| square[r][r] += RIDGE * mean + 1e-9);
        Self { lower: factor(&square) }
    }

    /// What each step of the beam is compared with.
    pub fn wanted(&self, table: &Table, list: &List) -> Vec<f64> {
        let mut wanted: Vec<f64> = table.rows.iter().map(|row| product(&row.counts, &list.counts)).collect();
        for r in (0..wanted.len()).rev() {
            let above: f64 = (r + 1..wanted.len()).map(|s| self.lower[s][r] * wanted[s]).sum();
            wanted[r] = (wanted[r] - above) / self.lower[r][r];
        }
        wanted
    }

    /// What of step r the row s, itself or an earlier one, explains.
    pub fn explains(&self, r: usize, s: usize) -> f64 {
        self.lower[r][s]
    }
}

/// The lower triangle L with L transposed times L the square, from the last row up.
fn factor(square: &[Vec<f64>]) -> Vec<Vec<f64>> {
    let count = square.len();
    let mut lower = vec![vec![0.0; count]; count];
    for r in (0..count).rev() {
        for s in (0..=r).rev() {
            let done: f64 = (r + 1..count).map(|t| lower[t][r] * lower[t][s]).sum();
            let left = square[r][s] - done;
            lower[r][s] = if s == r { left.max(1e-12).sqrt() } else { left / lower[r][r] };
        }
    }
    lower
}
