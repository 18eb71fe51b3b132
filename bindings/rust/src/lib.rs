//! Places insertions and deletions: which rows of a variant table best explain a haplotype.
//!
//! A safe wrapper of a library whose every function is proved to meet its contract. Four things to
//! know about an [`Answer`]: its rows are row numbers of the [`Table`] handed over, from 0; its
//! records are those rows' record numbers, which are the row numbers unless the table has others
//! ([`Table::with_record_numbers`]); the search stops after `maxpaths` + 1 paths, and `complete` says
//! whether those were all: if not, better ones may exist; of two equally good paths the one scored
//! later wins, which need not be the lower in the table.
//!
//! ```
//! use ndigomarr::{apply_haplotype, Settings, Target};
//!
//! let settings = Settings { k: 1, minkfreq: 1, ..Settings::default() };
//! let mut table = settings.table();
//! table.insertion(10, b"AG")?;
//! table.insertion(20, b"CT")?;
//! let mut haplotype = settings.haplotype();
//! haplotype.insertion(b"AG")?;
//!
//! let answer = apply_haplotype(&settings, &table, &haplotype)?;
//! assert_eq!(answer.rows, [0]);
//! assert_eq!(answer.records, [0]);
//! assert_eq!(answer.score, 1.0);
//! assert_eq!(answer.target, Target::Whole);
//! assert_eq!((answer.scored, answer.complete), (4, true));
//! # Ok::<(), ndigomarr::Refusal>(())
//! ```

#![warn(missing_docs)]

/// The page's own example is run as a test.
#[cfg(doctest)]
#[doc = include_str!("../README.md")]
struct Readme;

mod bed;
mod book;
mod companions;
mod editions;
mod meta;
mod raw;
mod refusal;
mod refusals;
mod settings;
mod table;

pub use bed::Bed;
pub use book::Book;
pub use companions::Companions;
pub use editions::move_job;
pub use meta::{apply_haplotypes_with_meta, apply_with_meta, HaplotypeMeta, Told};
pub use refusals::Refusal;
pub use settings::Settings;
pub use table::{Haplotype, Table};

impl Settings {
    /// A table of no rows for these settings: its letters will be counted by windows of `k`, as `letters` reads them.
    ///
    /// ```
    /// let settings = ndigomarr::Settings { k: 2, ..Default::default() };
    /// assert_eq!(settings.table(), ndigomarr::Table::new(2));
    /// ```
    pub fn table(&self) -> Table {
        Table::read_by(self.k, self.letters)
    }

    /// A haplotype of no parts for these settings: its letters will be counted by windows of `k`, as `letters` reads them.
    ///
    /// ```
    /// let settings = ndigomarr::Settings { k: 2, ..Default::default() };
    /// assert_eq!(settings.haplotype(), ndigomarr::Haplotype::new(2));
    /// ```
    pub fn haplotype(&self) -> Haplotype {
        Haplotype::read_by(self.k, self.letters)
    }
}

/// What of the haplotype an answer matched.
#[derive(Clone, Copy, Debug, PartialEq, Eq)]
pub enum Target {
    /// No part list was accepted.
    Nothing,
    /// All its parts.
    Whole,
    /// A part list that leaves out so many parts.
    Partial(u32),
}

/// The best path found.
#[derive(Clone, Debug, PartialEq)]
pub struct Answer {
    /// Row numbers of the table handed over, ascending from 0. They are not names.
    pub rows: Vec<usize>,
    /// The record number of each of these rows, in the rows' order.
    pub records: Vec<u32>,
    /// What of the haplotype the path matched.
    pub target: Target,
    /// The path's score: the mean of both similarities, less the penalties; 0 where nothing was found.
    pub score: f32,
    /// The similarity of the sizes of path and haplotype.
    pub sizesim: f32,
    /// The similarity of their letters.
    pub seqsim: f32,
    /// How many paths were scored; in a one-to-one match the rows and the two ends.
    pub scored: u32,
    /// Whether these were all paths. If not, a better one may exist.
    pub complete: bool,
}

/// The queue's room. It grows to the largest search that it was lent to, and says nothing about any.
#[derive(Clone, Debug, Default)]
pub struct Room {
    links: Vec<u32>,
    keys: Vec<u64>,
}

impl Room {
    /// A room of no entries, which grows when it is lent.
    ///
    /// ```
    /// assert_eq!(ndigomarr::Room::new().bytes(), 0);
    /// ```
    pub fn new() -> Self {
        Self::default()
    }

    /// How much memory it holds: 12 bytes an entry.
    ///
    /// ```
    /// use ndigomarr::{apply_haplotype_in, Room, Settings};
    ///
    /// let settings = Settings { k: 1, maxpaths: 9, ..Settings::default() };
    /// let mut table = settings.table();
    /// table.insertion(10, b"AG")?;
    /// let mut room = Room::new();
    /// apply_haplotype_in(&settings, &table, &settings.haplotype(), &mut room)?;
    /// assert_eq!(room.bytes(), 12 * (1 + 10 * 1));
    /// # Ok::<(), ndigomarr::Refusal>(())
    /// ```
    pub fn bytes(&self) -> usize {
        12 * self.keys.len()
    }
}

fn checked<T>(number: u32, value: T) -> Result<T, Refusal> {
    match Refusal::new(number) {
        None => Ok(value),
        Some(refusal) => Err(refusal),
    }
}

/// The k-mer counts of a sequence, a row of 4^k entries; negative ones for a `negative` sequence. A byte other than A, C, G and T in
/// either case counts as A with `letters` 0; with 1 each window that holds one is left out.
///
/// ```
/// assert_eq!(ndigomarr::seq_to_kmer(b"AAG", 1, false, 0)?, [2, 1, 0, 0]); // A, G, C, T
/// assert_eq!(ndigomarr::seq_to_kmer(b"AAG", 1, true, 0)?, [-2, -1, 0, 0]);
/// assert_eq!(ndigomarr::seq_to_kmer(b"NAG", 1, false, 0)?, [2, 1, 0, 0]);
/// assert_eq!(ndigomarr::seq_to_kmer(b"NAG", 1, false, 1)?, [1, 1, 0, 0]);
/// # Ok::<(), ndigomarr::Refusal>(())
/// ```
pub fn seq_to_kmer(sequence: &[u8], k: u8, negative: bool, letters: u8) -> Result<Vec<i32>, Refusal> {
    let mut row = vec![0; raw::entries(k)];
    seq_to_kmer_into(sequence, k, negative, letters, &mut row)?;
    Ok(row)
}

/// The same in a row that the caller keeps, of 4^k entries; a refusal leaves it as it was.
///
/// ```
/// let mut row = [7; 4];
/// ndigomarr::seq_to_kmer_into(b"CT", 1, false, 0, &mut row)?;
/// assert_eq!(row, [0, 0, 1, 1]);
/// # Ok::<(), ndigomarr::Refusal>(())
/// ```
pub fn seq_to_kmer_into(sequence: &[u8], k: u8, negative: bool, letters: u8, row: &mut [i32]) -> Result<(), Refusal> {
    checked(raw::seq_to_kmer(sequence, k, negative, letters, row), ())
}

/// The similarity of two feature rows.
///
/// ```
/// assert_eq!(ndigomarr::seqsim(&[1, 1, 1, 1], &[1, 1, 0, 0], 2)?, 1.0);
/// # Ok::<(), ndigomarr::Refusal>(())
/// ```
pub fn seqsim(a: &[i32], b: &[i32], minkfreq: u32) -> Result<f32, Refusal> {
    let mut value = 0.0;
    let number = raw::seqsim(a, b, minkfreq, &mut value);
    checked(number, value)
}

/// The similarity of two sizes.
///
/// ```
/// assert_eq!(ndigomarr::sizesim(0, 4)?, 0.25);
/// assert_eq!(ndigomarr::sizesim(0, 8_388_609), Err(ndigomarr::Refusal::BadSize));
/// # Ok::<(), ndigomarr::Refusal>(())
/// ```
pub fn sizesim(a: u64, b: u64) -> Result<f32, Refusal> {
    let mut value = 0.0;
    let number = raw::sizesim(a, b, &mut value);
    checked(number, value)
}

/// How many paths the table has, counted up to `cap`.
///
/// ```
/// let mut table = ndigomarr::Table::new(1);
/// table.insertion(10, b"AG")?;
/// table.insertion(20, b"CT")?;
/// assert_eq!(ndigomarr::count_chains(&table, true, 4096)?, 4); // none, the first, the second, both
/// # Ok::<(), ndigomarr::Refusal>(())
/// ```
pub fn count_chains(table: &Table, full: bool, cap: u32) -> Result<u32, Refusal> {
    let mut count = 0;
    let number = raw::count_chains(table.starts(), table.ends(), full, cap, &mut count);
    checked(number, count)
}

/// The path of the table that best explains the haplotype. A table or a haplotype of another k than the settings', or counted by another
/// reading of letters, is a 6.
///
/// ```
/// use ndigomarr::{apply_haplotype, Settings};
///
/// let settings = Settings { k: 1, minkfreq: 1, ..Settings::default() };
/// let mut table = settings.table();
/// table.deletion(100, b"ACCA")?;
/// let mut haplotype = settings.haplotype();
/// haplotype.deletion(b"ACCA")?;
/// assert_eq!(apply_haplotype(&settings, &table, &haplotype)?.rows, [0]);
/// # Ok::<(), ndigomarr::Refusal>(())
/// ```
pub fn apply_haplotype(settings: &Settings, table: &Table, haplotype: &Haplotype) -> Result<Answer, Refusal> {
    apply_haplotype_in(settings, table, haplotype, &mut Room::new())
}

/// The same in a room that the caller keeps: for many searches one after the other.
///
/// ```
/// use ndigomarr::{apply_haplotype_in, Room, Settings};
///
/// let settings = Settings { k: 1, minkfreq: 1, ..Settings::default() };
/// let mut table = settings.table();
/// table.insertion(10, b"AG")?;
/// let mut room = Room::new();
/// for part in [b"AG", b"CT"] {
///     let mut haplotype = settings.haplotype();
///     haplotype.insertion(part)?;
///     println!("{:?}", apply_haplotype_in(&settings, &table, &haplotype, &mut room)?);
/// }
/// # Ok::<(), ndigomarr::Refusal>(())
/// ```
pub fn apply_haplotype_in(settings: &Settings, table: &Table, haplotype: &Haplotype, room: &mut Room) -> Result<Answer, Refusal> {
    raw::apply_haplotype(settings, table, haplotype, room)
}

/// The paths that best explain each of 1 to 16 haplotypes over one table, which is checked once. A refusal of the settings or the table
/// answers the whole call, and so does any with one haplotype; with several, one of a haplotype's own parts answers that haplotype alone.
///
/// ```
/// use ndigomarr::{apply_haplotypes, Refusal, Settings};
///
/// let settings = Settings { k: 1, minkfreq: 1, ..Settings::default() };
/// let mut table = settings.table();
/// table.insertion(10, b"AG")?;
/// table.insertion(20, b"CT")?;
/// let mut haplotypes = vec![settings.haplotype(); 3];
/// haplotypes[0].insertion(b"CT")?;
/// haplotypes[1].add(131_073, b"AG", false)?;
/// haplotypes[2].insertion(b"AG")?;
/// let answers = apply_haplotypes(&settings, &table, &haplotypes)?;
/// assert_eq!(answers[0].as_ref().unwrap().rows, [1]);
/// assert_eq!(answers[1], Err(Refusal::BadSize));
/// assert_eq!(answers[2].as_ref().unwrap().rows, [0]);
/// # Ok::<(), ndigomarr::Refusal>(())
/// ```
pub fn apply_haplotypes(settings: &Settings, table: &Table, haplotypes: &[Haplotype]) -> Result<Vec<Result<Answer, Refusal>>, Refusal> {
    apply_haplotypes_in(settings, table, haplotypes, &mut Room::new())
}

/// The same in a room that the caller keeps: for many calls one after the other.
///
/// ```
/// use ndigomarr::{apply_haplotypes_in, Room, Settings};
///
/// let settings = Settings { k: 1, minkfreq: 1, ..Settings::default() };
/// let mut table = settings.table();
/// table.insertion(10, b"AG")?;
/// let mut room = Room::new();
/// assert_eq!(apply_haplotypes_in(&settings, &table, &[settings.haplotype()], &mut room)?.len(), 1);
/// # Ok::<(), ndigomarr::Refusal>(())
/// ```
pub fn apply_haplotypes_in(settings: &Settings, table: &Table, haplotypes: &[Haplotype], room: &mut Room) -> Result<Vec<Result<Answer, Refusal>>, Refusal> {
    raw::apply_haplotypes(settings, table, haplotypes, room)
}

/// Whether a path that someone else found is a good one: rows of the table, positions among the haplotype's parts, from 0, and a score.
/// Yes exactly where the rows ascend and no two overlap, the positions are one of the lists of parts that a search tries, and that list scored
/// against those rows passes every test and gives that score, greater than 0, bit for bit. An answer in search mode with a score above 0 gets a
/// yes with the list that won. A row or a position that isn't there is a no; over 64 of either is refused by 54.
///
/// ```
/// use ndigomarr::{apply_haplotype, check_path, Settings};
///
/// let settings = Settings { k: 1, minkfreq: 1, ..Settings::default() };
/// let mut table = settings.table();
/// table.insertion(10, b"AG")?;
/// table.insertion(20, b"CT")?;
/// let mut haplotype = settings.haplotype();
/// haplotype.insertion(b"AG")?;
///
/// let answer = apply_haplotype(&settings, &table, &haplotype)?;
/// assert!(check_path(&settings, &table, &haplotype, &answer.rows, &[0], answer.score)?);
/// assert!(!check_path(&settings, &table, &haplotype, &[1], &[0], answer.score)?);
/// assert!(!check_path(&settings, &table, &haplotype, &answer.rows, &[0], 0.9)?);
/// # Ok::<(), ndigomarr::Refusal>(())
/// ```
pub fn check_path(settings: &Settings, table: &Table, haplotype: &Haplotype, rows: &[usize], positions: &[usize], score: f32) -> Result<bool, Refusal> {
    let mut yes = 0;
    let number = raw::check_path(settings, table, haplotype, &lent(rows), &lent(positions), score, &mut yes);
    checked(number, yes == 1)
}

/// Numbers as they are lent. One that no u32 holds is beyond every table, and so is the largest u32.
fn lent(numbers: &[usize]) -> Vec<u32> {
    numbers.iter().map(|&number| u32::try_from(number).unwrap_or(u32::MAX)).collect()
}

/// The program's answer to a job's bytes: its lines of text. A job that the program refuses is answered by a line that says so.
///
/// ```
/// assert_eq!(ndigomarr::answer(b""), "refused 21\n");
/// ```
pub fn answer(job: &[u8]) -> String {
    String::from_utf8_lossy(&raw::answer(job)).into_owned()
}
