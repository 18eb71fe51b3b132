//! From a sheet's bytes to its values, with all its faults in one run, and back to text.
mod cells;
mod headings;
mod rows;
mod split;
mod text;
mod write;

pub use text::marked;
pub use write::{cell, written};

use crate::fault::Fault;
use crate::model::Sheet;

/// What was read. Where there are faults, the sheet lacks what they stand for.
#[derive(Debug, Default)]
pub struct Read {
    pub sheet: Sheet,
    /// What was passed over or taken in another way than it stands there, one line for each kind.
    pub notes: Vec<String>,
    pub faults: Vec<Fault>,
}

/// What is quoted from a sheet is printed on a terminal: what could steer that is written out.
fn printable(words: &mut String) {
    if words.chars().any(char::is_control) {
        *words = words.chars().map(|letter| if letter.is_control() { letter.escape_debug().to_string() } else { letter.to_string() }).collect();
    }
}

pub fn read(data: &[u8]) -> Read {
    match text::decoded(data) {
        Some((text, note)) => {
            let mut read = rows::read(&text::lines(&text));
            read.notes.splice(0..0, note);
            let faults = read.faults.iter_mut().flat_map(|fault| [&mut fault.what, &mut fault.instead]);
            faults.chain(&mut read.notes).for_each(printable);
            read
        }
        None => Read {
            faults: vec![Fault {
                line: 1,
                column: 1,
                heading: None,
                what: if text::marked(data) { "this is not text in UTF-8 or UTF-16" } else { "zero bytes stand here: this is no text, or UTF-16 without its mark" }.into(),
                instead: "save the sheet as tab-separated text in UTF-8".into(),
            }],
            ..Read::default()
        },
    }
}
