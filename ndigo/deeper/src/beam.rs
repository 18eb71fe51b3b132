//! The beam: rows are decided in their order, and of all ways so far those stay that leave least unexplained.
use crate::fit::Fit;
use crate::table::{places, Rows, Table};

#[derive(Clone, Copy)]
struct Way {
    chain: Rows,
    /// The first row that may still be taken.
    from: usize,
    /// What the rows that are still open cannot explain, squared.
    left: f64,
}

/// The chains at the beam's end, the nearest first.
pub fn chains(table: &Table, fit: &Fit, wanted: &[f64], width: usize) -> Vec<Rows> {
    let mut ways = vec![Way { chain: 0, from: 0, left: 0.0 }];
    for (row, want) in wanted.iter().enumerate() {
        let mut next = Vec::with_capacity(2 * ways.len());
        for way in &ways {
            let rest = want - places(way.chain).map(|taken| fit.explains(row, taken)).sum::<f64>();
            next.push(Way { left: way.left + rest * rest, ..*way });
            if row >= way.from {
                let rest = rest - fit.explains(row, row);
                next.push(Way { chain: way.chain | 1 << row, from: table.rows[row].next, left: way.left + rest * rest });
            }
        }
        if next.len() > width {
            next.select_nth_unstable_by(width, |a, b| a.left.total_cmp(&b.left));
            next.truncate(width);
        }
        ways = next;
    }
    ways.sort_by(|a, b| a.left.total_cmp(&b.left));
    ways.iter().map(|way| way.chain).collect()
}
