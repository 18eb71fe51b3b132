//! From a chain to a better one, a step at a time: a row put in, taken out, or put in for another. Rows that overlap one that is put in go.
use crate::best::Best;
use crate::lists::List;
use crate::problem::Counts;
use crate::table::{places, Rows, Table};

/// The steps from here: what is taken out, and the row put in, if any.
fn steps(table: &Table, chain: Rows) -> Vec<(Rows, Option<usize>)> {
    let mut steps: Vec<(Rows, Option<usize>)> = places(chain).map(|row| (1 << row, None)).collect();
    for row in places(table.all() & !chain) {
        let gone = table.overlapped[row] & chain;
        steps.push((gone, Some(row)));
        steps.extend(places(chain & !gone).map(|other| (gone | 1 << other, Some(row))));
    }
    steps
}

fn change(table: &Table, sum: &mut Counts, out: Rows, into: Option<usize>) {
    places(out).for_each(|row| sum.take(&table.rows[row].counts));
    into.into_iter().for_each(|row| sum.add(&table.rows[row].counts));
}

/// The best step from here, if it leads up.
fn up(table: &Table, list: &List, best: &mut Best, chain: Rows, sum: &Counts, here: f32) -> Option<(Rows, f32)> {
    let mut top = (chain, here);
    for (out, into) in steps(table, chain) {
        let mut moved = sum.clone();
        change(table, &mut moved, out, into);
        let to = chain & !out | into.map_or(0, |row| 1 << row);
        let score = best.offer(to, &moved, list).score;
        if score > top.1 {
            top = (to, score);
        }
    }
    (top.0 != chain).then_some(top)
}

/// Goes up until no step leads higher, or `goes_on` says no.
pub fn climb(table: &Table, list: &List, best: &mut Best, from: Rows, goes_on: &dyn Fn() -> bool) {
    let mut chain = from;
    let mut sum = table.sum(chain);
    let mut score = best.offer(chain, &sum, list).score;
    while goes_on() {
        let Some((to, higher)) = up(table, list, best, chain, &sum, score) else { return };
        (chain, score) = (to, higher);
        sum = table.sum(chain);
    }
}
