//! What can be asked of a refusal.
use std::fmt;

use crate::refusals::{Refusal, TABLE};

impl Refusal {
    /// The refusal of this number; 0 is an accepted call.
    pub(crate) fn new(number: u32) -> Option<Self> {
        let row = TABLE.iter().find(|row| row.0 == number);
        (number != 0).then(|| row.map_or(Self::Other(number), |row| row.1))
    }

    /// The number in the table of refusals.
    ///
    /// ```
    /// assert_eq!(ndigomarr::Refusal::BadK.number(), 1);
    /// ```
    pub fn number(self) -> u32 {
        match self {
            Self::Other(number) => number,
            known => TABLE.iter().find(|row| row.1 == known).map_or(0, |row| row.0),
        }
    }

    /// The table's words for it.
    ///
    /// ```
    /// assert_eq!(ndigomarr::Refusal::BadK.words(), "k not 1 to 6");
    /// ```
    pub fn words(self) -> &'static str {
        TABLE.iter().find(|row| row.1 == self).map_or("not in the table of refusals", |row| row.2)
    }
}

impl fmt::Display for Refusal {
    fn fmt(&self, out: &mut fmt::Formatter<'_>) -> fmt::Result {
        write!(out, "refused {}: {}", self.number(), self.words())
    }
}

impl std::error::Error for Refusal {}

#[cfg(test)]
mod tests {
    use super::{Refusal, TABLE};

    #[test]
    fn a_number_has_the_words_of_its_own_line() {
        let said = |number| Refusal::new(number).map(|refusal| refusal.to_string());
        assert_eq!(said(0), None);
        assert_eq!(said(1).as_deref(), Some("refused 1: k not 1 to 6"));
        assert_eq!(said(12).as_deref(), Some("refused 12: answer room under V rows"));
        assert_eq!(said(14).as_deref(), Some("refused 14: a repeated record number"));
        assert_eq!(said(16).as_deref(), Some("refused 16: a variant's feature row is all zero"));
        assert_eq!(said(2_000).as_deref(), Some("refused 2000: not in the table of refusals"));
    }

    #[test]
    fn each_number_comes_back() {
        for (number, refusal, words) in TABLE {
            assert_eq!(Refusal::new(number), Some(refusal));
            assert_eq!((refusal.number(), refusal.words()), (number, words));
        }
    }
}
