//! What a search is given: the variant table and the haplotype's parts, as flat rows.
use crate::{seq_to_kmer, HaplotypeMeta, Refusal};

/// The number of some letters as a size. More than any size can be is refused by 13 before the size is looked at.
fn signed(letters: &[u8]) -> i32 {
    i32::try_from(letters.len()).unwrap_or(i32::MAX)
}

/// The features where the settings' reading is the one that they were counted by. The library cannot see how a row was counted: rows of
/// another reading are no rows of these settings, so none are lent, and its own 6 tells it, as it does of another k.
fn read_alike(features: &[i32], counted_by: u8, letters: u8) -> &[i32] {
    if counted_by == letters {
        features
    } else {
        &[]
    }
}

/// Variants in the order of their starts. A variant's row number is how many were added before it; its record number names it in
/// an answer, and is its row number where the caller has no other.
#[derive(Clone, Debug, Default, PartialEq)]
pub struct Table {
    k: u8,
    letters: u8,
    starts: Vec<u64>,
    ends: Vec<u64>,
    sizes: Vec<i32>,
    features: Vec<i32>,
    record_numbers: Vec<u32>,
}

impl Table {
    /// A table of no rows, whose letters will be counted by windows of `k`, every byte of them: that is the reading of `letters` 0, and
    /// [`Settings::table`](crate::Settings::table) gives the settings' own. Each variant that is added gets its row number as its
    /// record number.
    ///
    /// ```
    /// assert!(ndigomarr::Table::new(4).is_empty());
    /// ```
    pub fn new(k: u8) -> Self {
        Self::read_by(k, 0)
    }

    pub(crate) fn read_by(k: u8, letters: u8) -> Self {
        Self { k, letters, ..Self::default() }
    }

    /// The same rows with the caller's own record numbers, one for each row, in the rows' order; a variant added later gets its row
    /// number again, which is a 14 where that number was given already. A search refuses other than one for each row (6) and a repeated one (14); nothing else depends on them.
    ///
    /// ```
    /// use ndigomarr::{apply_haplotype, Settings};
    ///
    /// let settings = Settings { k: 1, minkfreq: 1, ..Settings::default() };
    /// let mut table = settings.table();
    /// table.insertion(10, b"CT")?;
    /// table.insertion(20, b"AG")?;
    /// let table = table.with_record_numbers(&[40_713, 268]);
    /// let mut haplotype = settings.haplotype();
    /// haplotype.insertion(b"AG")?;
    ///
    /// let answer = apply_haplotype(&settings, &table, &haplotype)?;
    /// assert_eq!(answer.rows, [1]);
    /// assert_eq!(answer.records, [268]);
    /// # Ok::<(), ndigomarr::Refusal>(())
    /// ```
    pub fn with_record_numbers(self, record_numbers: &[u32]) -> Self {
        Self { record_numbers: record_numbers.to_vec(), ..self }
    }

    /// Adds an insertion of these letters before position `start`: it covers none of the reference, so its end is its start, and its size
    /// is the number of its letters.
    ///
    /// ```
    /// let mut table = ndigomarr::Table::new(1);
    /// table.insertion(10, b"AG")?;
    /// let mut same = ndigomarr::Table::new(1);
    /// same.add(10, 10, 2, b"AG", false)?;
    /// assert_eq!(table, same);
    /// # Ok::<(), ndigomarr::Refusal>(())
    /// ```
    pub fn insertion(&mut self, start: u64, letters: &[u8]) -> Result<(), Refusal> {
        self.add(start, start, signed(letters), letters, false)
    }

    /// Adds a deletion of these letters from position `start` on: it covers them, its size is below 0, and its letters are counted downwards.
    ///
    /// ```
    /// let mut table = ndigomarr::Table::new(1);
    /// table.deletion(10, b"AG")?;
    /// let mut same = ndigomarr::Table::new(1);
    /// same.add(10, 12, -2, b"AG", true)?;
    /// assert_eq!(table, same);
    /// # Ok::<(), ndigomarr::Refusal>(())
    /// ```
    pub fn deletion(&mut self, start: u64, letters: &[u8]) -> Result<(), Refusal> {
        self.add(start, start.saturating_add(letters.len() as u64), -signed(letters), letters, true)
    }

    /// Adds a variant; its letters are counted, downwards for a `negative` sequence. With fewer letters than k it has no window, and a search
    /// refuses the table by 16; so it does where `letters` 1 leaves out every window. A part may have as few.
    ///
    /// ```
    /// let mut table = ndigomarr::Table::new(1);
    /// table.add(10, 10, 2, b"AG", false)?;
    /// assert_eq!(table.len(), 1);
    /// # Ok::<(), ndigomarr::Refusal>(())
    /// ```
    pub fn add(&mut self, start: u64, end: u64, size: i32, letters: &[u8], negative: bool) -> Result<(), Refusal> {
        let row = seq_to_kmer(letters, self.k, negative, self.letters)?;
        self.add_counted(start, end, size, &row);
        Ok(())
    }

    /// Adds a variant whose features were counted already, by the table's k and reading.
    ///
    /// ```
    /// let mut table = ndigomarr::Table::new(1);
    /// table.add_counted(10, 10, 2, &ndigomarr::seq_to_kmer(b"AG", 1, false, 0)?);
    /// assert_eq!(table.len(), 1);
    /// # Ok::<(), ndigomarr::Refusal>(())
    /// ```
    pub fn add_counted(&mut self, start: u64, end: u64, size: i32, features: &[i32]) {
        self.record_numbers.push(self.starts.len() as u32);
        self.starts.push(start);
        self.ends.push(end);
        self.sizes.push(size);
        self.features.extend_from_slice(features);
    }

    /// How many rows the table has.
    ///
    /// ```
    /// assert_eq!(ndigomarr::Table::new(4).len(), 0);
    /// ```
    pub fn len(&self) -> usize {
        self.starts.len()
    }

    /// Whether it has none: a search refuses it by 4.
    ///
    /// ```
    /// assert!(ndigomarr::Table::new(4).is_empty());
    /// ```
    pub fn is_empty(&self) -> bool {
        self.starts.is_empty()
    }

    pub(crate) fn starts(&self) -> &[u64] {
        &self.starts
    }

    pub(crate) fn ends(&self) -> &[u64] {
        &self.ends
    }

    pub(crate) fn sizes(&self) -> &[i32] {
        &self.sizes
    }

    pub(crate) fn features(&self, letters: u8) -> &[i32] {
        read_alike(&self.features, self.letters, letters)
    }

    pub(crate) fn record_numbers(&self) -> &[u32] {
        &self.record_numbers
    }
}

/// A haplotype: its parts in order, and whose reads it came from where the caller says.
#[derive(Clone, Debug, Default, PartialEq)]
pub struct Haplotype {
    k: u8,
    letters: u8,
    sizes: Vec<i32>,
    features: Vec<i32>,
    meta: Option<HaplotypeMeta>,
}

impl Haplotype {
    /// A haplotype of no parts, whose letters will be counted by windows of `k`, every byte of them: that is the reading of `letters` 0,
    /// and [`Settings::haplotype`](crate::Settings::haplotype) gives the settings' own.
    ///
    /// ```
    /// assert!(ndigomarr::Haplotype::new(4).is_empty());
    /// ```
    pub fn new(k: u8) -> Self {
        Self::read_by(k, 0)
    }

    pub(crate) fn read_by(k: u8, letters: u8) -> Self {
        Self { k, letters, ..Self::default() }
    }

    /// The same haplotype with this data, which no search looks at and [`apply_with_meta`](crate::apply_with_meta) hands back.
    ///
    /// ```
    /// let meta = ndigomarr::HaplotypeMeta::new_blank(2)?;
    /// assert_eq!(ndigomarr::Haplotype::new(4).with_meta(meta).meta(), Some(meta));
    /// # Ok::<(), ndigomarr::Refusal>(())
    /// ```
    pub fn with_meta(self, meta: HaplotypeMeta) -> Self {
        Self { meta: Some(meta), ..self }
    }

    /// The data that it carries, if any.
    ///
    /// ```
    /// assert_eq!(ndigomarr::Haplotype::new(4).meta(), None);
    /// ```
    pub fn meta(&self) -> Option<HaplotypeMeta> {
        self.meta
    }

    /// Adds a part in which these letters are inserted.
    ///
    /// ```
    /// let mut haplotype = ndigomarr::Haplotype::new(1);
    /// haplotype.insertion(b"AG")?;
    /// let mut same = ndigomarr::Haplotype::new(1);
    /// same.add(2, b"AG", false)?;
    /// assert_eq!(haplotype, same);
    /// # Ok::<(), ndigomarr::Refusal>(())
    /// ```
    pub fn insertion(&mut self, letters: &[u8]) -> Result<(), Refusal> {
        self.add(signed(letters), letters, false)
    }

    /// Adds a part in which these letters are deleted.
    ///
    /// ```
    /// let mut haplotype = ndigomarr::Haplotype::new(1);
    /// haplotype.deletion(b"AG")?;
    /// let mut same = ndigomarr::Haplotype::new(1);
    /// same.add(-2, b"AG", true)?;
    /// assert_eq!(haplotype, same);
    /// # Ok::<(), ndigomarr::Refusal>(())
    /// ```
    pub fn deletion(&mut self, letters: &[u8]) -> Result<(), Refusal> {
        self.add(-signed(letters), letters, true)
    }

    /// Adds a part; its letters are counted, downwards for a `negative` sequence.
    ///
    /// ```
    /// let mut haplotype = ndigomarr::Haplotype::new(1);
    /// haplotype.add(2, b"AG", false)?;
    /// assert_eq!(haplotype.len(), 1);
    /// # Ok::<(), ndigomarr::Refusal>(())
    /// ```
    pub fn add(&mut self, size: i32, letters: &[u8], negative: bool) -> Result<(), Refusal> {
        let row = seq_to_kmer(letters, self.k, negative, self.letters)?;
        self.add_counted(size, &row);
        Ok(())
    }

    /// Adds a part whose features were counted already, by the haplotype's k and reading.
    ///
    /// ```
    /// let mut haplotype = ndigomarr::Haplotype::new(1);
    /// haplotype.add_counted(2, &[1, 1, 0, 0]);
    /// assert_eq!(haplotype.len(), 1);
    /// ```
    pub fn add_counted(&mut self, size: i32, features: &[i32]) {
        self.sizes.push(size);
        self.features.extend_from_slice(features);
    }

    /// How many parts it has.
    ///
    /// ```
    /// assert_eq!(ndigomarr::Haplotype::new(4).len(), 0);
    /// ```
    pub fn len(&self) -> usize {
        self.sizes.len()
    }

    /// Whether it has none.
    ///
    /// ```
    /// assert!(ndigomarr::Haplotype::new(4).is_empty());
    /// ```
    pub fn is_empty(&self) -> bool {
        self.sizes.is_empty()
    }

    pub(crate) fn sizes(&self) -> &[i32] {
        &self.sizes
    }

    pub(crate) fn features(&self, letters: u8) -> &[i32] {
        read_alike(&self.features, self.letters, letters)
    }
}
