//! Settings with versions: which map used which.
use crate::{checked, raw, Refusal, Settings};

/// The bytes of a record: its kind, its version, and the 41 settings bytes of the job form's second edition.
const RECORD: usize = 43;
const VERSIONS: usize = 255;

/// Settings under versions 1, 2, 3 and on to 255. Reading one gives the settings saved under it, whatever was saved later.
///
/// ```
/// use ndigomarr::{Book, Settings};
/// let mut book = Book::new();
/// let spring = Settings::default();
/// assert_eq!(book.save(&spring)?, 1);
/// assert_eq!(book.save(&Settings { seqsim: 0.8, ..spring })?, 2);
/// assert_eq!(book.restore(1)?, 3);
/// assert_eq!(book.len(), 3);
/// assert_eq!(book.read(3)?, spring);
/// # Ok::<(), ndigomarr::Refusal>(())
/// ```
///
/// Two are equal where they hold the same versions, byte for byte.
#[derive(Clone)]
pub struct Book {
    bytes: Vec<u8>,
    versions: usize,
}

impl Book {
    /// A book of no versions, with room for all that there may be.
    pub fn new() -> Self {
        Self { bytes: vec![0; VERSIONS * RECORD], versions: 0 }
    }

    /// The book that these bytes hold. Refused by 48 where they break its rules or hold settings that would be refused.
    pub fn of_bytes(bytes: &[u8]) -> Result<Self, Refusal> {
        let mut body = [0; 41];
        // asked for a version that is never there, a sound book answers 45 and a broken one 48
        match raw::book_read(bytes, 0, &mut body) {
            45 => {}
            number => checked(number, ())?,
        }
        let versions = bytes.chunks(RECORD).take_while(|record| record[0] != 0).count();
        let mut book = Self::new();
        book.bytes[..versions * RECORD].copy_from_slice(&bytes[..versions * RECORD]);
        book.versions = versions;
        Ok(book)
    }

    /// Its bytes, a record for each version and nothing behind the last.
    pub fn bytes(&self) -> &[u8] {
        &self.bytes[..self.versions * RECORD]
    }

    /// How many versions there are: 1 to this number can be read.
    pub fn len(&self) -> usize {
        self.versions
    }

    /// Whether there is no version.
    pub fn is_empty(&self) -> bool {
        self.versions == 0
    }

    /// Saves the settings under the next version, which it gives back. Refused by 1 to 3 for the settings, `letters` over 1
    /// by 24, and by 46 where all 255 versions are used; nothing is changed then.
    pub fn save(&mut self, settings: &Settings) -> Result<u32, Refusal> {
        self.save_bytes(&settings.to_bytes())
    }

    /// The same of settings as their 41 bytes. A flag not 0 or 1 is a 24.
    pub fn save_bytes(&mut self, settings: &[u8; 41]) -> Result<u32, Refusal> {
        let mut version = 0;
        let number = raw::book_save(&mut self.bytes, settings, &mut version);
        self.told(number, version)
    }

    /// The settings saved under a version. Refused by 45 for one that isn't there, 0 among them.
    pub fn read(&self, version: u32) -> Result<Settings, Refusal> {
        self.read_bytes(version).map(|bytes| Settings::of_bytes(&bytes))
    }

    /// The same as their 41 bytes.
    pub fn read_bytes(&self, version: u32) -> Result<[u8; 41], Refusal> {
        let mut settings = [0; 41];
        let number = raw::book_read(&self.bytes, version, &mut settings);
        checked(number, settings)
    }

    /// Saves the settings of a version again, under the next, which it gives back. Refused by 45 and 46.
    pub fn restore(&mut self, version: u32) -> Result<u32, Refusal> {
        let mut added = 0;
        let number = raw::book_restore(&mut self.bytes, version, &mut added);
        self.told(number, added)
    }

    fn told(&mut self, number: u32, version: u32) -> Result<u32, Refusal> {
        checked(number, ())?;
        self.versions = version as usize;
        Ok(version)
    }
}

impl Settings {
    /// The 41 bytes of the job form's second edition: k and the flags a byte each, the numbers and the floats' bits four
    /// bytes each, the lowest first, and `letters`.
    pub fn to_bytes(&self) -> [u8; 41] {
        let counts = [self.maxpaths, self.maxnodes, self.fnmax, self.pileupmax, self.minkfreq];
        let floats = [self.sizesim, self.seqsim, self.fpenalty, self.gpenalty].map(f32::to_bits);
        let mut bytes = [0; 41];
        bytes[..4].copy_from_slice(&[self.k, self.squish.into(), self.one_to_one.into(), self.full.into()]);
        for (place, word) in bytes[4..40].chunks_mut(4).zip(counts.into_iter().chain(floats)) {
            place.copy_from_slice(&word.to_le_bytes());
        }
        bytes[40] = self.letters;
        bytes
    }

    /// The settings of such bytes. A flag is yes at 1 alone.
    pub fn of_bytes(bytes: &[u8; 41]) -> Self {
        let word = |at: usize| u32::from_le_bytes([bytes[at], bytes[at + 1], bytes[at + 2], bytes[at + 3]]);
        let float = |at: usize| f32::from_bits(word(at));
        Self {
            k: bytes[0],
            squish: bytes[1] == 1,
            one_to_one: bytes[2] == 1,
            full: bytes[3] == 1,
            maxpaths: word(4),
            maxnodes: word(8),
            fnmax: word(12),
            pileupmax: word(16),
            minkfreq: word(20),
            letters: bytes[40],
            sizesim: float(24),
            seqsim: float(28),
            fpenalty: float(32),
            gpenalty: float(36),
        }
    }
}

impl PartialEq for Book {
    fn eq(&self, other: &Self) -> bool {
        self.bytes() == other.bytes()
    }
}

impl Eq for Book {}

impl Default for Book {
    fn default() -> Self {
        Self::new()
    }
}

impl std::fmt::Debug for Book {
    fn fmt(&self, f: &mut std::fmt::Formatter<'_>) -> std::fmt::Result {
        f.debug_struct("Book").field("versions", &self.versions).finish_non_exhaustive()
    }
}

/// What a safe caller cannot see: the lent buffer, every refusal in its order, and what stays as it was.
#[cfg(test)]
mod tests {
    use super::RECORD;
    use crate::raw::{book_read, book_restore, book_save};
    use crate::{Book, Refusal, Settings};

    /// Settings of this k, in a buffer for so many records and so many bytes more.
    fn body(k: u8) -> [u8; 41] {
        Settings { k, ..Settings::default() }.to_bytes()
    }

    fn book(ks: &[u8], records: usize, more: usize) -> Vec<u8> {
        let mut book = vec![0; records * RECORD + more];
        for (place, &k) in ks.iter().enumerate() {
            let mut version = 7;
            assert_eq!((book_save(&mut book, &body(k), &mut version), version), (0, place as u32 + 1));
        }
        book
    }

    /// Each call's number on this buffer, which none of them changes.
    fn numbers(book: &[u8], settings: &[u8; 41], version: u32) -> [u32; 3] {
        let (mut other, mut words, mut place) = (book.to_vec(), [7, 7], [9; 41]);
        let saved = book_save(&mut other, settings, &mut words[0]);
        let restored = book_restore(&mut other, version, &mut words[1]);
        let read = book_read(&other, version, &mut place);
        for (number, word) in [(saved, words[0]), (restored, words[1])] {
            assert_eq!(word == 0, number != 0);
        }
        if saved != 0 && restored != 0 {
            assert_eq!(other, book);
        }
        assert_eq!(place == [9; 41], read != 0);
        [saved, read, restored]
    }

    #[test]
    fn a_record_is_43_bytes_and_nothing_else_changes() {
        let book = book(&[4, 5], 3, 5);
        assert_eq!((book[0], book[1], &book[2..43]), (0x21, 1, &body(4)[..]));
        assert_eq!((book[43], book[44], &book[45..86]), (0x21, 2, &body(5)[..]));
        assert!(book[86..].iter().all(|&byte| byte == 0));
    }

    #[test]
    fn versions_are_read_whatever_was_saved_later() {
        let mut book = book(&[1, 2, 3], 255, 0);
        let (mut added, mut read) = (0, [0; 41]);
        for version in 4..=255 {
            let back = version % 3 + 1;
            assert_eq!((book_restore(&mut book, back, &mut added), added), (0, version));
            assert_eq!((book_read(&book, version, &mut read), read), (0, body(back as u8)));
        }
        for version in 1..=3 {
            assert_eq!((book_read(&book, version, &mut read), read), (0, body(version as u8)));
        }
        // 46 comes before 47
        assert_eq!(numbers(&book, &body(4), 1), [46, 0, 46]);
        let roomy = [&book[..], &[0; 43]].concat();
        assert_eq!(numbers(&roomy, &body(4), 256), [46, 45, 45]);
    }

    #[test]
    fn every_byte_that_breaks_the_rules_is_a_48() {
        let sound = book(&[4, 5], 3, 5);
        // the kind, the version and the flags of the second record, and every byte behind it
        for at in [43, 44, 46, 47, 48, 85].into_iter().chain(86..sound.len()) {
            let mut wrong = sound.clone();
            wrong[at] = 9;
            assert_eq!(numbers(&wrong, &[9; 41], 0), [48; 3], "byte {at}");
        }
        // version 0, version 1 again, a gap
        for version in [0, 1, 3] {
            let mut wrong = sound.clone();
            wrong[44] = version;
            assert_eq!(numbers(&wrong, &body(4), 1), [48; 3]);
        }
        // settings that are refused: k 7, and a NaN
        for (at, byte) in [(45, 7), (43 + 2 + 27, 0x7f)] {
            let mut wrong = sound.clone();
            wrong[at] = byte;
            wrong[43 + 2 + 26] |= 0xc0;
            assert_eq!(numbers(&wrong, &body(4), 1), [48; 3]);
        }
        for length in [1, 42, 44, 85] {
            assert_eq!(numbers(&sound[..length], &body(4), 1), [48; 3], "cut to {length}");
        }
        assert_eq!(numbers(&sound[..43], &body(4), 1), [47, 0, 47]);
    }

    #[test]
    fn refusals_come_in_their_order() {
        let full = book(&[4], 1, 42);
        let bad = |at: usize, byte: u8| { let mut body = body(7); body[at] = byte; body };
        // 24 before 1, 1 before 2, and the settings' before the room's
        assert_eq!(numbers(&full, &bad(40, 2), 2), [24, 45, 45]);
        assert_eq!(numbers(&full, &bad(3, 2), 0), [24, 45, 45]);
        assert_eq!(numbers(&full, &bad(27, 0x7f), 1), [1, 0, 47]);
        assert_eq!(numbers(&full, &body(4), 1), [47, 0, 47]);
        assert_eq!(numbers(&[], &body(4), 1), [47, 45, 45]);
        let exact = book(&[4], 2, 0);
        assert_eq!(numbers(&exact, &body(4), 1)[0], 0);
        let float = Settings { seqsim: f32::NAN, maxpaths: 9999, ..Settings::default() };
        assert_eq!(Book::new().save(&float), Err(Refusal::BadFloat));
        assert_eq!(Book::new().save(&Settings { maxpaths: 4096, ..Settings::default() }), Err(Refusal::BadNumber));
        assert_eq!(Book::new().save(&Settings { letters: 2, ..Settings::default() }), Err(Refusal::BadFlag));
    }

    #[test]
    fn a_book_goes_to_bytes_and_back() {
        let mut book = Book::new();
        assert!(book.is_empty() && book.bytes().is_empty());
        for k in 1..=6 {
            book.save(&Settings { k, ..Settings::default() }).unwrap();
        }
        let again = Book::of_bytes(book.bytes()).unwrap();
        assert_eq!((&again, again.len()), (&book, 6));
        assert_eq!(Book::of_bytes(&book.bytes()[..50]), Err(Refusal::BrokenBook));
        assert_eq!(Book::of_bytes(b"no book"), Err(Refusal::BrokenBook));
        assert_eq!((book.read(0), book.read(7)), (Err(Refusal::MissingVersion), Err(Refusal::MissingVersion)));
        // the bytes are kept as they are lent: minus zero stays minus zero
        let mut minus = Settings::default().to_bytes();
        minus[27] = 0x80;
        minus[24..27].fill(0);
        let version = book.save_bytes(&minus).unwrap();
        assert_eq!(book.read_bytes(version), Ok(minus));
    }
}
