//! How many of each came out, for the last line and the status.
use crate::model::counted;

/// What a line says of its haplotype, or of its table where that has no haplotype's line.
#[derive(Clone, Copy, Debug, PartialEq, Eq)]
pub enum Status {
    Answered,
    Nothing,
    Refused,
    Unread,
}

impl Status {
    pub const ALL: [Status; 4] = [Self::Answered, Self::Nothing, Self::Refused, Self::Unread];

    /// The word in the column `status`.
    pub fn word(self) -> &'static str {
        ["answered", "nothing", "refused", "unread"][self as usize]
    }

    pub fn of_word(word: &[u8]) -> Option<Self> {
        Self::ALL.into_iter().find(|status| status.word().as_bytes() == word)
    }
}

#[derive(Clone, Debug, Default, PartialEq, Eq)]
pub struct Tally {
    tables: usize,
    /// In the order of the statuses.
    lines: [usize; 4],
    stopped_early: usize,
    /// Of how many of these a better path was looked for, and found.
    looked: usize,
    better: usize,
    /// Tables whose lines were there already.
    kept: usize,
}

impl Tally {
    pub fn of_table(kept: bool) -> Self {
        Self { tables: 1, kept: kept.into(), ..Self::default() }
    }

    /// `deeper` is the word that a deeper look has in the line, empty without one.
    pub fn count(&mut self, status: Status, complete: bool, deeper: &[u8]) {
        self.lines[status as usize] += 1;
        let searched = matches!(status, Status::Answered | Status::Nothing);
        self.stopped_early += usize::from(searched && !complete);
        self.looked += usize::from(!deeper.is_empty());
        self.better += usize::from(deeper == b"better");
    }

    pub fn add(&mut self, other: &Tally) {
        self.tables += other.tables;
        self.lines.iter_mut().zip(other.lines).for_each(|(sum, count)| *sum += count);
        self.stopped_early += other.stopped_early;
        self.looked += other.looked;
        self.better += other.better;
        self.kept += other.kept;
    }

    pub fn any_unread(&self) -> bool {
        self.lines[Status::Unread as usize] > 0
    }

    /// 2 where any could not be read, else 1 where any was refused.
    pub fn status(&self) -> u8 {
        if self.any_unread() { 2 } else { u8::from(self.lines[Status::Refused as usize] > 0) }
    }
}

impl std::fmt::Display for Tally {
    fn fmt(&self, out: &mut std::fmt::Formatter<'_>) -> std::fmt::Result {
        let [answered, nothing, refused, unread] = self.lines;
        let kept = if self.kept > 0 { format!(" ({} of them kept from an earlier run)", self.kept) } else { String::new() };
        let lines = counted(self.lines.iter().sum(), "line");
        write!(out, "{}{kept}, {lines}: {answered} answered, {nothing} without a path, {refused} refused, {unread} unread; ", counted(self.tables, "table"))?;
        write!(out, "{} {} stopped early", self.stopped_early, if self.stopped_early == 1 { "search" } else { "searches" })?;
        if self.looked > 0 { write!(out, ", and deeper a better path was found for {} of {}", self.better, self.looked) } else { Ok(()) }
    }
}
