//! BED in and out: name, start and end, from 0, the end not counted in.
use crate::{checked, raw, Refusal};

/// The most bytes that a row is written in.
const LINE: usize = 75;

/// A table of BED: one name, and a start and an end for each row.
#[derive(Clone, Debug, Default, PartialEq, Eq)]
pub struct Bed {
    /// 1 to 32 bytes 0x21 to 0x7E; empty in a table of no rows.
    pub name: Vec<u8>,
    /// From 0, not falling.
    pub starts: Vec<u64>,
    /// Not counted in; none below its start.
    pub ends: Vec<u64>,
}

impl Bed {
    /// The table that a text says: up to 64 lines of exactly three columns with one name. Refused by 42, 40, 41, then 7 and 8.
    ///
    /// ```
    /// let text = b"reef7\t10\t20\nreef7\t15\t15\n";
    /// let bed = ndigomarr::Bed::read(text)?;
    /// assert_eq!((&bed.starts[..], &bed.ends[..]), (&[10, 15][..], &[20, 15][..]));
    /// assert_eq!(bed.write(&[0, 1])?, text);
    /// assert_eq!(bed.write(&[1])?, b"reef7\t15\t15\n");
    /// # Ok::<(), ndigomarr::Refusal>(())
    /// ```
    pub fn read(text: &[u8]) -> Result<Self, Refusal> {
        let (mut starts, mut ends) = ([0; 64], [0; 64]);
        let (mut name, mut counts) = ([0; 32], [0; 2]);
        let number = raw::read_bed(text, &mut starts, &mut ends, &mut name, &mut counts);
        let [rows, width] = counts.map(|count| count as usize);
        checked(number, Self { name: name[..width].to_vec(), starts: starts[..rows].to_vec(), ends: ends[..rows].to_vec() })
    }

    /// The text of these rows, in their order. Refused by 6, 40 and 44.
    ///
    /// ```
    /// let bed = ndigomarr::Bed { name: b"reef7".to_vec(), starts: vec![10], ends: vec![20] };
    /// assert_eq!(bed.write(&[0])?, b"reef7\t10\t20\n");
    /// assert_eq!(bed.write(&[1]), Err(ndigomarr::Refusal::MissingRow));
    /// # Ok::<(), ndigomarr::Refusal>(())
    /// ```
    pub fn write(&self, rows: &[u32]) -> Result<Vec<u8>, Refusal> {
        let mut text = vec![0; LINE * rows.len()];
        let mut written = 0;
        let number = raw::write_bed(&self.name, &self.starts, &self.ends, rows, &mut text, &mut written);
        text.truncate(written as usize);
        checked(number, text)
    }
}

/// What a safe caller cannot see: the lent buffers themselves.
#[cfg(test)]
mod tests {
    use crate::raw::{read_bed, write_bed};

    const MARK: u64 = 0xdead_0001;

    /// The refusal of a text, and what buffers of these lengths hold then.
    fn read(text: &[u8], starts: usize, ends: usize) -> (u32, Vec<u64>, Vec<u64>, [u8; 32], [u32; 2]) {
        let (mut s, mut e, mut name, mut counts) = (vec![MARK; starts], vec![MARK; ends], [7; 32], [7; 2]);
        let number = read_bed(text, &mut s, &mut e, &mut name, &mut counts);
        (number, s, e, name, counts)
    }

    #[test]
    fn the_rest_of_the_buffers_is_unchanged() {
        let (number, starts, ends, name, counts) = read(b"ab\t1\t2\n", 64, 65);
        assert_eq!((number, counts), (0, [1, 2]));
        assert_eq!((starts[0], ends[0], &name[..3]), (1, 2, &b"ab\x07"[..]));
        assert!(starts[1..].iter().chain(&ends[1..]).all(|&x| x == MARK));
    }

    #[test]
    fn a_refusal_leaves_the_buffers() {
        for (text, starts, ends, wanted) in [
            (&b"a\t2\t1\n"[..], 64, 64, 7),
            (b"a\t2\t2\na\t1\t2\n", 64, 64, 8),
            (b"a\t01\t1\n", 63, 64, 6),
            (b"a\t01\t1\n", 64, 63, 6),
            (b"a\t0\t1\nb\t2\t3", 64, 64, 40),
            (b"a\t0\t1\nb\t2\t3\n", 64, 64, 41),
        ] {
            assert_eq!(read(text, starts, ends), (wanted, vec![MARK; starts], vec![MARK; ends], [7; 32], [0; 2]));
        }
    }

    #[test]
    fn writing_stops_at_the_room() {
        let (mut text, mut written) = ([7; 9], 7);
        assert_eq!(write_bed(b"ab", &[1, 20], &[2, 30], &[1], &mut text, &mut written), 0);
        assert_eq!((&text, written), (b"ab\t20\t30\n", 9));
        assert_eq!(write_bed(b"ab", &[1, 20], &[2, 300], &[1], &mut text, &mut written), 43);
        assert_eq!((&text, written), (b"ab\t20\t30\n", 0));
    }
}
