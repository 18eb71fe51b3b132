//! What the second build notes while it runs (thread by thread); the unchanged build notes nothing.
use std::cell::Cell;

#[derive(Clone, Copy, Debug, Default, PartialEq, Eq)]
pub struct Notes {
    /// How many entries were queued; the next one's place in the order of queueing.
    pub queued: u64,
    /// How many chains were scored.
    pub scored: u64,
    /// How many entries were left when the search stopped.
    pub left: usize,
    /// An entry was taken while another at the same distance stood in the queue.
    pub distance_tie: bool,
    /// Two scores above zero were compared and found equal.
    pub score_tie: bool,
    /// A list was kept from the empty chain under squish.
    pub squish_empty: bool,
    /// A zero-length interval lies inside another of the table.
    pub inside: bool,
    /// A row was kept from a chain by one of its rows that is not the last.
    pub kept_back: bool,
}

thread_local! {
    static NOTES: Cell<Notes> = Cell::new(Notes::default());
}

fn change(with: impl Fn(&mut Notes)) {
    NOTES.with(|cell| {
        let mut notes = cell.get();
        with(&mut notes);
        cell.set(notes);
    })
}

/// The notes so far; they begin afresh.
pub fn take() -> Notes {
    NOTES.with(|cell| cell.replace(Notes::default()))
}

pub fn next_place() -> u64 {
    let place = NOTES.with(|cell| cell.get().queued);
    change(|notes| notes.queued += 1);
    place
}

pub fn taken(dist: u64, next: Option<u64>) {
    change(|notes| notes.distance_tie |= next == Some(dist));
}

pub fn compared(a: f32, b: f32) {
    change(|notes| notes.score_tie |= a == b && a > 0.0);
}

pub fn squish_empty() {
    change(|notes| notes.squish_empty = true);
}

pub fn inside() {
    change(|notes| notes.inside = true);
}

pub fn kept_back() {
    change(|notes| notes.kept_back = true);
}

pub fn stopped(scored: u64, left: usize) {
    change(|notes| {
        notes.scored = scored;
        notes.left = left;
    });
}
