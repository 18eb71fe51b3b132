//! A path that someone else proposes (document 02, P13), and the judge's answer to it: the Rust's own lists and scorer.
use crate::call::Call;
use crate::rules::DOCUMENT;
use crate::rust;

#[derive(Clone, Debug)]
pub struct Proposal {
    pub rows: Vec<u32>,
    /// among the haplotype's parts, from 0
    pub positions: Vec<u32>,
    pub score: f32,
}

/// The refusal's number, and whether it is a yes.
pub type Checked = (u32, bool);

/// The call as a check is lent it: no record numbers, so that those of the rows stand in.
pub fn lent(call: &Call) -> Call {
    Call { numbers: (0..).take(call.starts.len()).collect(), ..call.clone() }
}

fn refusal(call: &Call, proposal: &Proposal) -> u32 {
    let asked = [1, 2, 3, 4, 5, 6, 7, 8, 9, 10, 16];
    let long = proposal.rows.len() > 64 || proposal.positions.len() > 64;
    let table = asked.into_iter().find(|&number| call.is_refused_by(&DOCUMENT, number));
    table.unwrap_or(if long { 54 } else { 0 })
}

/// Ascending rows of the table, no two of which overlap; in a bare graph none.
fn is_chain(call: &Call, rows: &[u32]) -> bool {
    let there = rows.iter().all(|&row| (row as usize) < call.starts.len());
    there && rust::is_chain(call, rows)
}

/// The judge's answer: the Rust's score of that list alone against those rows, bit for bit.
pub fn judged(call: &Call, proposal: &Proposal) -> Checked {
    let call = lent(call);
    let number = refusal(&call, proposal);
    if number != 0 || !is_chain(&call, &proposal.rows) {
        return (number, false);
    }
    let lists = rust::part_positions(&call);
    let Some(place) = lists.iter().position(|list| *list == proposal.positions) else {
        return (0, false);
    };
    let score = rust::list_score(&call, &proposal.rows, place);
    (0, score > 0.0 && score.to_bits() == proposal.score.to_bits())
}

/// The proposal that an answer in search mode makes: its rows and its score with the list that won, the first of the Rust's that gives them.
pub fn own(call: &Call, rows: &[u32], score: u32) -> Option<Proposal> {
    let call = lent(call);
    let lists = rust::part_positions(&call);
    let place = (0..lists.len()).find(|&place| rust::list_score(&call, rows, place).to_bits() == score)?;
    Some(Proposal { rows: rows.to_vec(), positions: lists[place].clone(), score: f32::from_bits(score) })
}
