//! The boundary: the archive's functions, declared once, and the room that they are lent.
//!
//! `tools/prototypes` holds these declarations to the proved source. A slice passes as a pointer and
//! then a length; each function asks nothing more of its caller than that the two belong together
//! and that no lent buffer overlaps another, which Rust's slices guarantee.
use crate::{checked, Answer, Haplotype, Refusal, Room, Settings, Table, Target};

mod archive {
    extern "C" {
        pub fn nd_seq_to_kmer(text: *const u8, text_len: usize, k: u8, negative: bool, letters: u8, row: *mut i32, row_len: usize) -> u32;
        pub fn nd_seqsim(a: *const i32, a_len: usize, b: *const i32, b_len: usize, minkfreq: u32, place: *mut f32) -> u32;
        pub fn nd_sizesim(a: u64, b: u64, place: *mut f32) -> u32;
        pub fn nd_count_chains(starts: *const u64, starts_len: usize, ends: *const u64, ends_len: usize, full: bool, cap: u32, count: *mut u32) -> u32;
        pub fn nd_answer(job: *const u8, job_len: usize, text: *mut [u8; 8192]) -> u32;
        pub fn nd_read_bed(
            text: *const u8,
            text_len: usize,
            starts: *mut u64,
            starts_len: usize,
            ends: *mut u64,
            ends_len: usize,
            name: *mut [u8; 32],
            counts: *mut [u32; 2],
        ) -> u32;
        pub fn nd_write_bed(
            name: *const u8,
            name_len: usize,
            starts: *const u64,
            starts_len: usize,
            ends: *const u64,
            ends_len: usize,
            rows: *const u32,
            rows_len: usize,
            text: *mut u8,
            text_len: usize,
            written: *mut u64,
        ) -> u32;
        pub fn nd_companions_add(
            starts: *mut [u64; 64],
            ends: *mut [u64; 64],
            sheet: *mut [bool; 4096],
            rows: *mut u32,
            start: u64,
            end: u64,
        ) -> u32;
        pub fn nd_companions_remove(starts: *const [u64; 64], ends: *const [u64; 64], sheet: *mut [bool; 4096], rows: *mut u32) -> u32;
        pub fn nd_companions_together(
            starts: *const [u64; 64],
            ends: *const [u64; 64],
            sheet: *const [bool; 4096],
            rows: u32,
            a: u32,
            b: u32,
            yes: *mut u32,
        ) -> u32;
        pub fn nd_companions_count(
            starts: *const [u64; 64],
            ends: *const [u64; 64],
            sheet: *const [bool; 4096],
            rows: u32,
            row: u32,
            count: *mut u32,
        ) -> u32;
        pub fn nd_meta_new(index: u64, samples: u64, meta: *mut [u64; 28]) -> u32;
        pub fn nd_meta_blank(samples: u64, meta: *mut [u64; 28]) -> u32;
        pub fn nd_meta_combine(left: *mut [u64; 28], right: *const [u64; 28]) -> u32;
        pub fn nd_check_path(
            settings: *const [u32; 14],
            starts: *const u64,
            starts_len: usize,
            ends: *const u64,
            ends_len: usize,
            sizes: *const i32,
            sizes_len: usize,
            features: *const i32,
            features_len: usize,
            part_sizes: *const i32,
            part_sizes_len: usize,
            part_features: *const i32,
            part_features_len: usize,
            rows: *const u32,
            rows_len: usize,
            positions: *const u32,
            positions_len: usize,
            score: f32,
            yes: *mut u32,
        ) -> u32;
        pub fn nd_book_save(book: *mut u8, book_len: usize, settings: *const [u8; 41], version: *mut u32) -> u32;
        pub fn nd_book_read(book: *const u8, book_len: usize, version: u32, settings: *mut [u8; 41]) -> u32;
        pub fn nd_book_restore(book: *mut u8, book_len: usize, version: u32, added: *mut u32) -> u32;
        pub fn nd_move_job(job: *const u8, job_len: usize, edition: u32, out: *mut u8, out_len: usize, written: *mut u64) -> u32;
        pub fn nd_apply_haplotype(
            settings: *const [u32; 14],
            starts: *const u64,
            starts_len: usize,
            ends: *const u64,
            ends_len: usize,
            sizes: *const i32,
            sizes_len: usize,
            features: *const i32,
            features_len: usize,
            record_numbers: *const u32,
            record_numbers_len: usize,
            part_sizes: *const i32,
            part_sizes_len: usize,
            part_features: *const i32,
            part_features_len: usize,
            links: *mut u32,
            links_len: usize,
            keys: *mut u64,
            keys_len: usize,
            rows: *mut u32,
            rows_len: usize,
            records: *mut u32,
            records_len: usize,
            report: *mut [u32; 7],
        ) -> u32;
        pub fn nd_apply_haplotypes(
            settings: *const [u32; 14],
            starts: *const u64,
            starts_len: usize,
            ends: *const u64,
            ends_len: usize,
            sizes: *const i32,
            sizes_len: usize,
            features: *const i32,
            features_len: usize,
            record_numbers: *const u32,
            record_numbers_len: usize,
            part_ends: *const u64,
            part_ends_len: usize,
            feature_ends: *const u64,
            feature_ends_len: usize,
            part_sizes: *const i32,
            part_sizes_len: usize,
            part_features: *const i32,
            part_features_len: usize,
            links: *mut u32,
            links_len: usize,
            keys: *mut u64,
            keys_len: usize,
            rows: *mut u32,
            rows_len: usize,
            records: *mut u32,
            records_len: usize,
            reports: *mut u32,
            reports_len: usize,
        ) -> u32;
    }
}

/// 4^k, or no entries for a k that the counter refuses before it looks at the room.
pub fn entries(k: u8) -> usize {
    match k {
        1..=6 => 1 << (2 * k),
        _ => 0,
    }
}

pub fn seq_to_kmer(text: &[u8], k: u8, negative: bool, letters: u8, row: &mut [i32]) -> u32 {
    unsafe { archive::nd_seq_to_kmer(text.as_ptr(), text.len(), k, negative, letters, row.as_mut_ptr(), row.len()) }
}

pub fn seqsim(a: &[i32], b: &[i32], minkfreq: u32, value: &mut f32) -> u32 {
    unsafe { archive::nd_seqsim(a.as_ptr(), a.len(), b.as_ptr(), b.len(), minkfreq, value) }
}

pub fn sizesim(a: u64, b: u64, value: &mut f32) -> u32 {
    unsafe { archive::nd_sizesim(a, b, value) }
}

pub fn count_chains(starts: &[u64], ends: &[u64], full: bool, cap: u32, count: &mut u32) -> u32 {
    unsafe { archive::nd_count_chains(starts.as_ptr(), starts.len(), ends.as_ptr(), ends.len(), full, cap, count) }
}

/// The program's text for a job's bytes.
pub fn answer(job: &[u8]) -> Vec<u8> {
    let mut text = [0; 8192];
    let length = unsafe { archive::nd_answer(job.as_ptr(), job.len(), &mut text) };
    text[..length as usize].to_vec()
}

pub fn read_bed(text: &[u8], starts: &mut [u64], ends: &mut [u64], name: &mut [u8; 32], counts: &mut [u32; 2]) -> u32 {
    unsafe { archive::nd_read_bed(text.as_ptr(), text.len(), starts.as_mut_ptr(), starts.len(), ends.as_mut_ptr(), ends.len(), name, counts) }
}

pub fn write_bed(name: &[u8], starts: &[u64], ends: &[u64], rows: &[u32], text: &mut [u8], written: &mut u64) -> u32 {
    unsafe {
        archive::nd_write_bed(
            name.as_ptr(),
            name.len(),
            starts.as_ptr(),
            starts.len(),
            ends.as_ptr(),
            ends.len(),
            rows.as_ptr(),
            rows.len(),
            text.as_mut_ptr(),
            text.len(),
            written,
        )
    }
}

pub fn move_job(job: &[u8], edition: u32, out: &mut [u8], written: &mut u64) -> u32 {
    unsafe { archive::nd_move_job(job.as_ptr(), job.len(), edition, out.as_mut_ptr(), out.len(), written) }
}

pub fn meta_new(index: u64, samples: u64, meta: &mut [u64; 28]) -> u32 {
    unsafe { archive::nd_meta_new(index, samples, meta) }
}

pub fn meta_blank(samples: u64, meta: &mut [u64; 28]) -> u32 {
    unsafe { archive::nd_meta_blank(samples, meta) }
}

pub fn meta_combine(left: &mut [u64; 28], right: &[u64; 28]) -> u32 {
    unsafe { archive::nd_meta_combine(left, right) }
}

pub fn book_save(book: &mut [u8], settings: &[u8; 41], version: &mut u32) -> u32 {
    unsafe { archive::nd_book_save(book.as_mut_ptr(), book.len(), settings, version) }
}

pub fn book_read(book: &[u8], version: u32, settings: &mut [u8; 41]) -> u32 {
    unsafe { archive::nd_book_read(book.as_ptr(), book.len(), version, settings) }
}

pub fn book_restore(book: &mut [u8], version: u32, added: &mut u32) -> u32 {
    unsafe { archive::nd_book_restore(book.as_mut_ptr(), book.len(), version, added) }
}

/// A table of up to 64 rows and its companions sheet, as they are lent.
#[derive(Clone, PartialEq, Eq)]
pub struct Sheet {
    pub starts: [u64; 64],
    pub ends: [u64; 64],
    pub flags: [bool; 4096],
    pub rows: u32,
}

impl Sheet {
    pub fn add(&mut self, start: u64, end: u64) -> u32 {
        unsafe { archive::nd_companions_add(&mut self.starts, &mut self.ends, &mut self.flags, &mut self.rows, start, end) }
    }

    pub fn remove(&mut self) -> u32 {
        unsafe { archive::nd_companions_remove(&self.starts, &self.ends, &mut self.flags, &mut self.rows) }
    }

    pub fn together(&self, a: u32, b: u32, yes: &mut u32) -> u32 {
        unsafe { archive::nd_companions_together(&self.starts, &self.ends, &self.flags, self.rows, a, b, yes) }
    }

    pub fn count(&self, row: u32, count: &mut u32) -> u32 {
        unsafe { archive::nd_companions_count(&self.starts, &self.ends, &self.flags, self.rows, row, count) }
    }
}

impl Room {
    /// Grows to what a search is asked to be lent: 1 + (maxpaths + 1) × V entries. None for a one-to-one match, which
    /// has no queue, nor where the call will be refused anyway.
    fn grow(&mut self, settings: &Settings, variants: usize) {
        let asked = settings.maxpaths <= 4095 && variants <= 64 && !settings.one_to_one;
        let entries = if asked { 1 + (settings.maxpaths as usize + 1) * variants } else { 0 };
        if entries > self.keys.len() {
            self.links.resize(entries, 0);
            self.keys.resize(entries, 0);
        }
    }
}

pub fn apply_haplotype(settings: &Settings, table: &Table, haplotype: &Haplotype, room: &mut Room) -> Result<Answer, Refusal> {
    room.grow(settings, table.len());
    let mut rows = vec![0; table.len()];
    let mut records = vec![0; table.len()];
    let mut report = [0; 7];
    let number = search(settings, table, haplotype, room, &mut rows, &mut records, &mut report);
    checked(number, answer_of(report, &rows, &records))
}

/// How many words of the reports a haplotype has: its refusal, and the seven of its answer.
const WORDS: usize = 8;

/// Each haplotype's answer or refusal, or the refusal of the whole call.
pub fn apply_haplotypes(settings: &Settings, table: &Table, haplotypes: &[Haplotype], room: &mut Room) -> Result<Vec<Result<Answer, Refusal>>, Refusal> {
    room.grow(settings, table.len());
    let mut left = Left::new(table.len(), haplotypes.len(), 0);
    let number = search_all(settings, table, &Stretches::of(haplotypes, settings.letters), room, &mut left);
    checked(number, ())?;
    Ok((0..haplotypes.len()).map(|at| left.answer(table.len(), at)).collect())
}

/// The parts of several haplotypes one behind the other, and where those of each end.
#[derive(Default)]
struct Stretches {
    sizes: Vec<i32>,
    features: Vec<i32>,
    part_ends: Vec<u64>,
    feature_ends: Vec<u64>,
}

impl Stretches {
    fn of(haplotypes: &[Haplotype], letters: u8) -> Self {
        let mut all = Self::default();
        for haplotype in haplotypes {
            all.sizes.extend_from_slice(haplotype.sizes());
            all.features.extend_from_slice(haplotype.features(letters));
            all.part_ends.push(all.sizes.len() as u64);
            all.feature_ends.push(all.features.len() as u64);
        }
        all
    }
}

/// The buffers that several haplotypes have their stretches in.
struct Left {
    rows: Vec<u32>,
    records: Vec<u32>,
    reports: Vec<u32>,
}

impl Left {
    fn new(variants: usize, haplotypes: usize, word: u32) -> Self {
        let entries = vec![word; variants * haplotypes];
        Self { rows: entries.clone(), records: entries, reports: vec![word; WORDS * haplotypes] }
    }

    fn answer(&self, variants: usize, at: usize) -> Result<Answer, Refusal> {
        let words = &self.reports[WORDS * at..][..WORDS];
        let report = words[1..].try_into().expect("seven behind the refusal");
        let from = variants * at;
        checked(words[0], answer_of(report, &self.rows[from..], &self.records[from..]))
    }
}

/// What the seven words of a report and the fronts of two buffers say.
fn answer_of(report: [u32; 7], rows: &[u32], records: &[u32]) -> Answer {
    let [count, target, score, sizesim, seqsim, scored, complete] = report;
    let count = count as usize;
    Answer {
        rows: rows[..count].iter().map(|&row| row as usize).collect(),
        records: records[..count].to_vec(),
        target: target_of(target),
        score: f32::from_bits(score),
        sizesim: f32::from_bits(sizesim),
        seqsim: f32::from_bits(seqsim),
        scored,
        complete: complete == 1,
    }
}

/// The archive writes 0 for no part list, 1 for the whole haplotype, and 1 more for each part left out.
fn target_of(number: u32) -> Target {
    match number {
        0 => Target::Nothing,
        1 => Target::Whole,
        more => Target::Partial(more - 1),
    }
}

/// The settings as the archive takes them: flags as 0 and 1, floats by their bits.
fn words(s: &Settings) -> [u32; 14] {
    [
        s.k.into(),
        s.squish.into(),
        s.one_to_one.into(),
        s.full.into(),
        s.maxpaths,
        s.maxnodes,
        s.fnmax,
        s.pileupmax,
        s.minkfreq,
        s.letters.into(),
        s.sizesim.to_bits(),
        s.seqsim.to_bits(),
        s.fpenalty.to_bits(),
        s.gpenalty.to_bits(),
    ]
}

fn search(
    settings: &Settings,
    table: &Table,
    haplotype: &Haplotype,
    room: &mut Room,
    rows: &mut [u32],
    records: &mut [u32],
    report: &mut [u32; 7],
) -> u32 {
    unsafe {
        archive::nd_apply_haplotype(
            &words(settings),
            table.starts().as_ptr(),
            table.starts().len(),
            table.ends().as_ptr(),
            table.ends().len(),
            table.sizes().as_ptr(),
            table.sizes().len(),
            table.features(settings.letters).as_ptr(),
            table.features(settings.letters).len(),
            table.record_numbers().as_ptr(),
            table.record_numbers().len(),
            haplotype.sizes().as_ptr(),
            haplotype.sizes().len(),
            haplotype.features(settings.letters).as_ptr(),
            haplotype.features(settings.letters).len(),
            room.links.as_mut_ptr(),
            room.links.len(),
            room.keys.as_mut_ptr(),
            room.keys.len(),
            rows.as_mut_ptr(),
            rows.len(),
            records.as_mut_ptr(),
            records.len(),
            report,
        )
    }
}

fn search_all(settings: &Settings, table: &Table, parts: &Stretches, room: &mut Room, left: &mut Left) -> u32 {
    unsafe {
        archive::nd_apply_haplotypes(
            &words(settings),
            table.starts().as_ptr(),
            table.starts().len(),
            table.ends().as_ptr(),
            table.ends().len(),
            table.sizes().as_ptr(),
            table.sizes().len(),
            table.features(settings.letters).as_ptr(),
            table.features(settings.letters).len(),
            table.record_numbers().as_ptr(),
            table.record_numbers().len(),
            parts.part_ends.as_ptr(),
            parts.part_ends.len(),
            parts.feature_ends.as_ptr(),
            parts.feature_ends.len(),
            parts.sizes.as_ptr(),
            parts.sizes.len(),
            parts.features.as_ptr(),
            parts.features.len(),
            room.links.as_mut_ptr(),
            room.links.len(),
            room.keys.as_mut_ptr(),
            room.keys.len(),
            left.rows.as_mut_ptr(),
            left.rows.len(),
            left.records.as_mut_ptr(),
            left.records.len(),
            left.reports.as_mut_ptr(),
            left.reports.len(),
        )
    }
}

pub fn check_path(settings: &Settings, table: &Table, haplotype: &Haplotype, rows: &[u32], positions: &[u32], score: f32, yes: &mut u32) -> u32 {
    unsafe {
        archive::nd_check_path(
            &words(settings),
            table.starts().as_ptr(),
            table.starts().len(),
            table.ends().as_ptr(),
            table.ends().len(),
            table.sizes().as_ptr(),
            table.sizes().len(),
            table.features(settings.letters).as_ptr(),
            table.features(settings.letters).len(),
            haplotype.sizes().as_ptr(),
            haplotype.sizes().len(),
            haplotype.features(settings.letters).as_ptr(),
            haplotype.features(settings.letters).len(),
            rows.as_ptr(),
            rows.len(),
            positions.as_ptr(),
            positions.len(),
            score,
            yes,
        )
    }
}

/// What a safe caller cannot see: the lent buffers themselves.
#[cfg(test)]
mod tests {
    use super::{search, search_all, Haplotype, Left, Room, Settings, Stretches, Table};

    const MARK: u32 = 0xdead_0001;

    /// The refusal of a search over rows 0 AG, 1 CT and 2 GC for a haplotype of rows 0 and 2, and what buffers of these lengths hold then.
    fn searched(record_numbers: &[u32], rows: usize, records: usize) -> (u32, Vec<u32>, Vec<u32>) {
        let settings = Settings { k: 1, minkfreq: 1, maxpaths: 10, ..Settings::default() };
        let mut table = Table::new(1);
        for (at, letters) in [b"AG", b"CT", b"GC"].into_iter().enumerate() {
            table.add(at as u64, at as u64, 2, letters, false).expect("few letters");
        }
        let mut haplotype = Haplotype::new(1);
        haplotype.add(2, b"AG", false).expect("few letters");
        haplotype.add(2, b"GC", false).expect("few letters");
        let table = table.with_record_numbers(record_numbers);
        let mut room = Room::new();
        room.grow(&settings, table.len());
        let (mut rows, mut records) = (vec![MARK; rows], vec![MARK; records]);
        let number = search(&settings, &table, &haplotype, &mut room, &mut rows, &mut records, &mut [MARK; 7]);
        (number, rows, records)
    }

    #[test]
    fn the_rest_of_both_buffers_is_unchanged() {
        assert_eq!(searched(&[50, 60, 40], 3, 3), (0, vec![0, 2, MARK], vec![50, 40, MARK]));
        assert_eq!(searched(&[50, 60, 40], 4, 5), (0, vec![0, 2, MARK, MARK], vec![50, 40, MARK, MARK, MARK]));
    }

    #[test]
    fn either_buffer_too_short_is_a_12() {
        for (rows, records) in [(3, 2), (3, 0), (2, 3), (2, 2)] {
            assert_eq!(searched(&[50, 60, 40], rows, records), (12, vec![MARK; rows], vec![MARK; records]));
        }
    }

    #[test]
    fn a_refusal_of_the_numbers_leaves_both_buffers() {
        for (record_numbers, wanted) in [(&[50, 60, 50][..], 14), (&[50, 60], 6), (&[50, 60, 40, 30], 6)] {
            assert_eq!(searched(record_numbers, 3, 3), (wanted, vec![MARK; 3], vec![MARK; 3]));
            // both come before the second buffer's 12
            assert_eq!(searched(record_numbers, 3, 2), (wanted, vec![MARK; 3], vec![MARK; 2]));
        }
    }

    /// The number of a call of several haplotypes, the second refused for a size, over the same rows; and what the buffers hold then, cut to these lengths.
    fn searched_all(count: usize, rows: usize, records: usize, reports: usize) -> (u32, Left) {
        let settings = Settings { k: 1, minkfreq: 1, maxpaths: 10, ..Settings::default() };
        let mut table = Table::new(1);
        for (at, letters) in [b"AG", b"CT"].into_iter().enumerate() {
            table.add(at as u64, at as u64, 2, letters, false).expect("few letters");
        }
        let haplotypes: Vec<_> = [2, 131_073, 2][..count]
            .iter()
            .map(|&size| {
                let mut haplotype = Haplotype::new(1);
                haplotype.add(size, b"CT", false).expect("few letters");
                haplotype
            })
            .collect();
        let mut room = Room::new();
        room.grow(&settings, table.len());
        let mut left = Left { rows: vec![MARK; rows], records: vec![MARK; records], reports: vec![MARK; reports] };
        let number = search_all(&settings, &table, &Stretches::of(&haplotypes, settings.letters), &mut room, &mut left);
        (number, left)
    }

    #[test]
    fn each_haplotype_has_its_own_stretch() {
        let (number, left) = searched_all(3, 7, 8, 25);
        assert_eq!(number, 0);
        assert_eq!(left.rows, [1, MARK, MARK, MARK, 1, MARK, MARK]);
        assert_eq!(left.records, [1, MARK, MARK, MARK, 1, MARK, MARK, MARK]);
        assert_eq!(left.reports[8..16], [9, 0, 0, 0, 0, 0, 0, 0]);
        assert_eq!((left.reports[0..3].to_vec(), left.reports[16..19].to_vec(), left.reports[24]), (vec![0, 1, 1], vec![0, 1, 1], MARK));
    }

    #[test]
    fn a_refusal_of_the_whole_call_leaves_every_buffer() {
        for (rows, records, reports) in [(5, 6, 24), (6, 5, 24), (6, 6, 23)] {
            let (number, left) = searched_all(3, rows, records, reports);
            assert_eq!((number, left.rows, left.records, left.reports), (12, vec![MARK; rows], vec![MARK; records], vec![MARK; reports]));
        }
        // with one haplotype its own refusals too
        let settings = Settings { k: 0, ..Settings::default() };
        let mut left = Left { rows: vec![MARK; 2], records: vec![MARK; 2], reports: vec![MARK; 8] };
        let number = search_all(&settings, &Table::new(1), &Stretches::of(&[Haplotype::new(1)], 0), &mut Room::new(), &mut left);
        assert_eq!((number, left.rows, left.records, left.reports), (1, vec![MARK; 2], vec![MARK; 2], vec![MARK; 8]));
    }

    #[test]
    fn ends_that_do_not_fit_are_a_6_of_the_whole_call() {
        let settings = Settings { k: 1, minkfreq: 1, maxpaths: 10, ..Settings::default() };
        let mut table = Table::new(1);
        table.add(0, 0, 2, b"AG", false).expect("few letters");
        let mut room = Room::new();
        room.grow(&settings, 1);
        let whole = || Stretches { sizes: vec![2, 2], features: vec![1, 1, 0, 0, 0, 0, 1, 1], part_ends: vec![1, 2], feature_ends: vec![4, 8] };
        let mut number = |parts: Stretches| search_all(&settings, &table, &parts, &mut room, &mut Left::new(1, 2, MARK));
        assert_eq!(number(whole()), 0);
        for wrong in [
            Stretches { part_ends: vec![2, 1], ..whole() },
            Stretches { part_ends: vec![1, 1], ..whole() },
            Stretches { part_ends: vec![1, 3], ..whole() },
            Stretches { feature_ends: vec![8, 4], ..whole() },
            Stretches { feature_ends: vec![4, 9], ..whole() },
            Stretches { feature_ends: vec![8], ..whole() },
        ] {
            assert_eq!(number(wrong), 6);
        }
        // a stretch of features that is not its parts' is that haplotype's own 6
        let mut left = Left::new(1, 2, MARK);
        assert_eq!(search_all(&settings, &table, &Stretches { feature_ends: vec![3, 8], ..whole() }, &mut room, &mut left), 0);
        assert_eq!((left.reports[0], left.reports[8]), (6, 6));
    }
}
