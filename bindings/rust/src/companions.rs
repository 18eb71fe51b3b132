//! Which variants can go together: a table of up to 64 rows with its companions sheet.
use crate::{checked, raw, Refusal};

/// A table of up to 64 rows, and for every row the later rows that it does not overlap.
///
/// It begins empty and changes only by [`add`](Self::add) and [`remove`](Self::remove), so its sheet is always its
/// table's, and 49 is never given: that is proved (docs/THEOREMS.md, companions-kept).
///
/// ```
/// let mut companions = ndigomarr::Companions::new();
/// companions.add(0, 10)?;
/// companions.add(5, 5)?; // inside the first
/// companions.add(10, 12)?; // only touches it
/// assert!(!companions.together(1, 0)?);
/// assert!(companions.together(0, 2)?);
/// assert_eq!(companions.count(0)?, 1);
/// companions.remove()?;
/// assert_eq!((companions.len(), companions.count(0)?), (2, 0));
/// # Ok::<(), ndigomarr::Refusal>(())
/// ```
///
/// Two are equal where their rows are.
#[derive(Clone)]
pub struct Companions(Box<raw::Sheet>);

impl Companions {
    /// A table of no rows.
    pub fn new() -> Self {
        Self(Box::new(raw::Sheet { starts: [0; 64], ends: [0; 64], flags: [false; 4096], rows: 0 }))
    }

    /// How many rows there are.
    pub fn len(&self) -> usize {
        self.0.rows as usize
    }

    /// Whether there is no row.
    pub fn is_empty(&self) -> bool {
        self.0.rows == 0
    }

    /// The rows' starts.
    pub fn starts(&self) -> &[u64] {
        &self.0.starts[..self.len()]
    }

    /// The rows' ends.
    pub fn ends(&self) -> &[u64] {
        &self.0.ends[..self.len()]
    }

    /// Adds a row at the end. Refused by 5 for a sixty-fifth, 7 where its start is greater than its end, 8 where its start
    /// is less than the last row's; nothing is changed then.
    pub fn add(&mut self, start: u64, end: u64) -> Result<(), Refusal> {
        checked(self.0.add(start, end), ())
    }

    /// Takes the last row away. Refused by 44 where there is none.
    pub fn remove(&mut self) -> Result<(), Refusal> {
        checked(self.0.remove(), ())
    }

    /// May these two rows stand together, in either order? A row with itself is a no. Refused by 44 for a row that isn't there.
    pub fn together(&self, a: u32, b: u32) -> Result<bool, Refusal> {
        let mut yes = 0;
        let number = self.0.together(a, b, &mut yes);
        checked(number, yes == 1)
    }

    /// How many later companions a row has. Refused by 44 for a row that isn't there.
    pub fn count(&self, row: u32) -> Result<u32, Refusal> {
        let mut count = 0;
        let number = self.0.count(row, &mut count);
        checked(number, count)
    }
}

// what lies behind the last row is no part of the table, and the sheet follows from the rows
impl PartialEq for Companions {
    fn eq(&self, other: &Self) -> bool {
        (self.starts(), self.ends()) == (other.starts(), other.ends())
    }
}

impl Eq for Companions {}

impl Default for Companions {
    fn default() -> Self {
        Self::new()
    }
}

impl std::fmt::Debug for Companions {
    fn fmt(&self, f: &mut std::fmt::Formatter<'_>) -> std::fmt::Result {
        f.debug_struct("Companions").field("starts", &self.starts()).field("ends", &self.ends()).finish_non_exhaustive()
    }
}

#[cfg(test)]
mod drawn;

/// What a safe caller cannot see: the lent arrays, and the 49.
#[cfg(test)]
mod tests {
    use crate::raw::Sheet;

    /// Rows 0 to 10, 5 to 5 inside it, and 10 to 12, which only touches it.
    fn three() -> Sheet {
        let mut sheet = Sheet { starts: [7; 64], ends: [7; 64], flags: [false; 4096], rows: 0 };
        for (start, end) in [(0, 10), (5, 5), (10, 12)] {
            assert_eq!(sheet.add(start, end), 0);
        }
        sheet
    }

    fn yes(sheet: &Sheet) -> Vec<usize> {
        (0..4096).filter(|&at| sheet.flags[at]).collect()
    }

    /// Every call's number, and that each leaves what is lent as it was, with its word 0.
    fn refused_all(sheet: &Sheet, number: u32) {
        let mut other = sheet.clone();
        assert_eq!((other.add(9, 8), other.remove()), (number, number));
        let (mut yes, mut count) = (7, 7);
        assert_eq!((other.together(99, 0, &mut yes), other.count(99, &mut count)), (number, number));
        assert_eq!((yes, count), (0, 0));
        assert!(other == *sheet);
    }

    #[test]
    fn the_flags_stand_at_64_r_plus_s() {
        let mut sheet = three();
        assert_eq!(yes(&sheet), [2, 64 + 2]);
        assert_eq!((sheet.starts[3], sheet.ends[3], sheet.rows), (7, 7, 3));
        assert_eq!(sheet.remove(), 0);
        assert_eq!((yes(&sheet).len(), sheet.starts[2], sheet.ends[2], sheet.rows), (0, 10, 12, 2));
    }

    #[test]
    fn any_other_flag_is_a_49_before_all_others() {
        let sheet = three();
        for at in (0..4096).step_by(7).chain([0, 2, 64 + 2, 65, 3, 192, 4095]) {
            let mut wrong = sheet.clone();
            wrong.flags[at] = !wrong.flags[at];
            refused_all(&wrong, 49);
        }
    }

    #[test]
    fn a_table_that_breaks_5_to_8_is_a_49() {
        let sheet = three();
        for wrong in [
            Sheet { rows: 65, ..sheet.clone() },
            Sheet { rows: u32::MAX, ..sheet.clone() },
            Sheet { ends: { let mut ends = sheet.ends; ends[0] = 0; ends[1] = 4; ends }, ..sheet.clone() },
            Sheet { starts: { let mut starts = sheet.starts; starts[2] = 4; starts }, ..sheet.clone() },
            Sheet { rows: 2, ..sheet.clone() },
            Sheet { rows: 4, ..sheet.clone() },
        ] {
            refused_all(&wrong, 49);
        }
        // past the rows anything may stand
        let mut sheet = sheet;
        (sheet.starts[63], sheet.ends[3]) = (0, 0);
        assert_eq!((sheet.remove(), sheet.add(10, 11)), (0, 0));
    }
}
