//! Whose reads these were: the data of 1 to 8 samples that a haplotype carries.
use crate::{checked, raw, Answer, Haplotype, Refusal, Room, Settings, Table};

/// The data of 1 to 8 samples, kanpig's `HaplotypeMeta` without read names. Entry i of each array is sample i's; those at and behind
/// `samples` are nobody's.
///
/// ```
/// use ndigomarr::HaplotypeMeta;
///
/// let mut left = HaplotypeMeta::new(0, 2)?;
/// left.ps[0] = Some(7);
/// let mut right = HaplotypeMeta::new(1, 2)?;
/// right.ps = [Some(8); 8];
/// left.combine(&right)?;
/// assert_eq!((left.coverage[..2].to_vec(), left.samples_flag), (vec![1, 1], 0b11));
/// assert_eq!(left.ps[..2], [Some(7), Some(8)]); // the left where there is one
/// # Ok::<(), ndigomarr::Refusal>(())
/// ```
#[derive(Clone, Copy, Debug, PartialEq, Eq)]
pub struct HaplotypeMeta {
    /// Which haplotype this is; combining keeps the left's.
    pub id: u64,
    /// How many samples there are, 1 to 8.
    pub samples: u64,
    /// Bit i stands where sample i has a read.
    pub samples_flag: u64,
    /// How many reads each sample has.
    pub coverage: [u64; 8],
    /// Each sample's phase set, where there is one.
    pub ps: [Option<u32>; 8],
    /// Each sample's haplotype tag, where there is one.
    pub hp: [Option<u8>; 8],
}

impl HaplotypeMeta {
    /// One read of sample `sample_idx` of `num_samples`. Refused by 50 where these are not 1 to 8, by 51 for an index at or above them.
    ///
    /// ```
    /// use ndigomarr::{HaplotypeMeta, Refusal};
    ///
    /// let meta = HaplotypeMeta::new(2, 3)?;
    /// assert_eq!((meta.coverage[2], meta.samples_flag, meta.id), (1, 4, 0));
    /// assert_eq!(HaplotypeMeta::new(0, 9), Err(Refusal::BadSamples));
    /// assert_eq!(HaplotypeMeta::new(3, 3), Err(Refusal::NoSuchSample));
    /// # Ok::<(), ndigomarr::Refusal>(())
    /// ```
    pub fn new(sample_idx: u64, num_samples: u64) -> Result<Self, Refusal> {
        let mut words = [0; 28];
        let number = raw::meta_new(sample_idx, num_samples, &mut words);
        checked(number, of_words(&words))
    }

    /// No read of any of `num_samples`. Refused by 50 where these are not 1 to 8.
    ///
    /// ```
    /// let blank = ndigomarr::HaplotypeMeta::new_blank(3)?;
    /// assert_eq!((blank.samples, blank.coverage, blank.samples_flag), (3, [0; 8], 0));
    /// # Ok::<(), ndigomarr::Refusal>(())
    /// ```
    pub fn new_blank(num_samples: u64) -> Result<Self, Refusal> {
        let mut words = [0; 28];
        let number = raw::meta_blank(num_samples, &mut words);
        checked(number, of_words(&words))
    }

    /// Adds `other`'s coverage, takes its phase sets and tags where there are none here, and joins its flags; the id stays. Refused by 50 for
    /// a count not 1 to 8, by 52 for unequal counts and by 53 where a sum passes 64 bits; nothing is changed then.
    ///
    /// ```
    /// use ndigomarr::{HaplotypeMeta, Refusal};
    ///
    /// let mut meta = HaplotypeMeta::new(0, 2)?;
    /// assert_eq!(meta.combine(&HaplotypeMeta::new(0, 3)?), Err(Refusal::UnequalSamples));
    /// assert_eq!(meta, HaplotypeMeta::new(0, 2)?);
    /// # Ok::<(), ndigomarr::Refusal>(())
    /// ```
    pub fn combine(&mut self, other: &Self) -> Result<(), Refusal> {
        let mut left = to_words(self);
        checked(raw::meta_combine(&mut left, &to_words(other)), ())?;
        *self = of_words(&left);
        Ok(())
    }
}

/// The data as the archive lends it: id, samples, flags, 8 coverages, 8 phase sets, 8 tags (0 absent, else the value + 1), and a 0.
fn to_words(meta: &HaplotypeMeta) -> [u64; 28] {
    let mut words = [0; 28];
    (words[0], words[1], words[2]) = (meta.id, meta.samples, meta.samples_flag);
    words[3..11].copy_from_slice(&meta.coverage);
    words[11..19].copy_from_slice(&meta.ps.map(|ps| ps.map_or(0, |ps| u64::from(ps) + 1)));
    words[19..27].copy_from_slice(&meta.hp.map(|hp| hp.map_or(0, |hp| u64::from(hp) + 1)));
    words
}

/// Every word of a phase set or a tag here came from one, so none is lost.
fn of_words(words: &[u64; 28]) -> HaplotypeMeta {
    let eight = |from: usize| -> [u64; 8] { words[from..from + 8].try_into().expect("eight words") };
    HaplotypeMeta {
        id: words[0],
        samples: words[1],
        samples_flag: words[2],
        coverage: eight(3),
        ps: eight(11).map(|word| word.checked_sub(1).map(|ps| ps as u32)),
        hp: eight(19).map(|word| word.checked_sub(1).map(|hp| hp as u8)),
    }
}

/// An answer or a refusal, with the data that the haplotype carried.
#[derive(Clone, Debug, PartialEq)]
pub struct Told {
    /// What the search came to; the data plays no part in it.
    pub answer: Result<Answer, Refusal>,
    /// The haplotype's own data, unchecked and unchanged, on a refusal and in a one-to-one match too.
    pub meta: Option<HaplotypeMeta>,
}

/// [`apply_haplotype_in`](crate::apply_haplotype_in), with the data that the haplotype carries.
///
/// ```
/// use ndigomarr::{apply_with_meta, HaplotypeMeta, Refusal, Room, Settings};
///
/// let settings = Settings { k: 1, minkfreq: 1, ..Settings::default() };
/// let meta = HaplotypeMeta::new(0, 1)?;
/// let haplotype = settings.haplotype().with_meta(meta);
/// let told = apply_with_meta(&settings, &settings.table(), &haplotype, &mut Room::new());
/// assert_eq!((told.answer, told.meta), (Err(Refusal::NoVariants), Some(meta)));
/// # Ok::<(), ndigomarr::Refusal>(())
/// ```
pub fn apply_with_meta(settings: &Settings, table: &Table, haplotype: &Haplotype, room: &mut Room) -> Told {
    Told { answer: raw::apply_haplotype(settings, table, haplotype, room), meta: haplotype.meta() }
}

/// [`apply_haplotypes_in`](crate::apply_haplotypes_in), with the data that each haplotype carries. A refusal of the whole call is each haplotype's.
///
/// ```
/// use ndigomarr::{apply_haplotypes_with_meta, HaplotypeMeta, Refusal, Room, Settings};
///
/// let settings = Settings { k: 1, minkfreq: 1, ..Settings::default() };
/// let mut table = settings.table();
/// table.insertion(10, b"AG")?;
/// let metas = [HaplotypeMeta::new(0, 2)?, HaplotypeMeta::new(1, 2)?];
/// let mut haplotypes = metas.map(|meta| settings.haplotype().with_meta(meta));
/// haplotypes[0].insertion(b"AG")?;
/// haplotypes[1].add(131_073, b"AG", false)?;
/// let told = apply_haplotypes_with_meta(&settings, &table, &haplotypes, &mut Room::new());
/// assert_eq!(told[0].answer.as_ref().unwrap().rows, [0]);
/// assert_eq!(told[1].answer, Err(Refusal::BadSize));
/// assert_eq!((told[0].meta, told[1].meta), (Some(metas[0]), Some(metas[1])));
/// # Ok::<(), ndigomarr::Refusal>(())
/// ```
pub fn apply_haplotypes_with_meta(settings: &Settings, table: &Table, haplotypes: &[Haplotype], room: &mut Room) -> Vec<Told> {
    let answers = raw::apply_haplotypes(settings, table, haplotypes, room).unwrap_or_else(|refusal| vec![Err(refusal); haplotypes.len()]);
    answers.into_iter().zip(haplotypes).map(|(answer, haplotype)| Told { answer, meta: haplotype.meta() }).collect()
}

#[cfg(test)]
mod drawn;

/// What a safe caller cannot see: the lent words.
#[cfg(test)]
mod tests {
    use crate::raw::{meta_blank, meta_combine, meta_new};

    const MARK: u64 = 0xdead_0001;

    /// The words of a blank of so many samples.
    fn blank(samples: u64) -> [u64; 28] {
        let mut words = [0; 28];
        words[1] = samples;
        words
    }

    #[test]
    fn every_word_is_written() {
        let mut words = [MARK; 28];
        assert_eq!(meta_new(7, 8, &mut words), 0);
        let mut wanted = blank(8);
        (wanted[2], wanted[10]) = (128, 1);
        assert_eq!(words, wanted);
        words = [MARK; 28];
        assert_eq!((meta_blank(5, &mut words), words), (0, blank(5)));
    }

    #[test]
    fn a_refusal_makes_a_blank_of_one_sample() {
        for (index, samples, wanted) in [(0, 0, 50), (9, 9, 50), (0, u64::MAX, 50), (1, 1, 51), (8, 8, 51), (u64::MAX, 8, 51)] {
            let mut words = [MARK; 28];
            assert_eq!((meta_new(index, samples, &mut words), words), (wanted, blank(1)), "{index} of {samples}");
        }
        for samples in [0, 9, u64::MAX] {
            let mut words = [MARK; 28];
            assert_eq!((meta_blank(samples, &mut words), words), (50, blank(1)));
        }
    }

    /// Words no two of which are alike, of so many samples.
    fn marked(samples: u64, from: u64) -> [u64; 28] {
        let mut words = std::array::from_fn(|at| from + at as u64);
        words[1] = samples;
        words
    }

    #[test]
    fn a_refused_combining_changes_no_word() {
        let mut over = marked(3, 1_000);
        over[5] = u64::MAX - 4;
        for (left, right, wanted) in [
            (marked(0, 100), marked(3, 200), 50),
            (marked(3, 100), marked(9, 200), 50),
            (marked(9, 100), marked(8, 200), 50),
            (marked(3, 100), marked(4, 200), 52),
            (over, marked(3, 0), 53),
            (over, marked(2, 0), 52),
        ] {
            let mut words = left;
            assert_eq!((meta_combine(&mut words, &right), words), (wanted, left));
        }
    }

    #[test]
    fn what_lies_behind_the_samples_stays_the_lefts() {
        let (left, right) = (marked(3, 100), marked(3, 200));
        let mut words = left;
        words[13] = 0;
        assert_eq!(meta_combine(&mut words, &right), 0);
        let mut wanted = left;
        wanted[2] = 102 | 202;
        for at in 3..6 {
            wanted[at] = left[at] + right[at];
        }
        (wanted[13], wanted[27]) = (right[13], 0);
        assert_eq!(words, wanted);
        // a sum of all bits fits, and the entries behind the samples may be any
        let (mut left, mut right) = (blank(1), blank(1));
        (left[3], right[3]) = (u64::MAX - 1, 1);
        (left[4], right[4]) = (u64::MAX, u64::MAX);
        assert_eq!((meta_combine(&mut left, &right), left[3], left[4]), (0, u64::MAX, u64::MAX));
    }
}
