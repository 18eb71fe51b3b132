//! The library's answer in the sheet's own names: as text, as a tab-separated row, as JSON.
mod json;
mod text;
mod tsv;

pub use json::document;
pub use text::{decimal, parts_words_of, path_lines, printed, refused, text, text_with, titled, why, Lines};
pub use tsv::{listed_names, parted_by_commas, table_headings, table_row};

use ndigomarr::{Answer, Target};

/// The target's word, the same in every form.
pub fn target_word(answer: &Answer) -> &'static str {
    match answer.target {
        Target::Nothing => "nothing",
        Target::Whole => "whole",
        Target::Partial(_) => "partial",
    }
}

/// How many parts were left out; none where nothing was matched.
pub fn left_out(answer: &Answer) -> Option<u32> {
    match answer.target {
        Target::Nothing => None,
        Target::Whole => Some(0),
        Target::Partial(parts) => Some(parts),
    }
}
