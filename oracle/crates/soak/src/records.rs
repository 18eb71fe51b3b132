//! The records of bytes that may be damaged.
use judge::job::shape;
use std::ops::Range;

/// The records front to back as far as they can be told apart; an unknown kind, or a record that is cut short, takes all that is left.
pub fn pieces(bytes: &[u8]) -> Vec<Range<usize>> {
    let mut found = vec![];
    let mut at = 0;
    while at < bytes.len() {
        let length = shape(bytes[at]).map_or(usize::MAX, |shape| 1 + shape.body);
        let until = at.saturating_add(length).min(bytes.len());
        found.push(at..until);
        at = until;
    }
    found
}

/// What is counted of a record: its kind, the last for those that there are not, and whether it stands first, second, last or between.
pub const KINDS: [&str; 9] = ["0x00 end", "0x01 settings", "0x02 variant", "0x03 part", "0x04 letters", "0x05 next haplotype", "0x11 settings", "0x12 variant", "unknown"];
pub const PLACES: [&str; 4] = ["first", "second", "between", "last"];

pub fn kind_of(byte: u8) -> usize {
    match byte {
        0x00..=0x05 => byte.into(),
        0x11 => 6,
        0x12 => 7,
        _ => 8,
    }
}

pub fn place_of(at: usize, count: usize) -> usize {
    match at {
        0 => 0,
        1 => 1,
        _ if at + 1 == count => 3,
        _ => 2,
    }
}
