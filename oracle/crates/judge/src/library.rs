//! The library, linked as an archive (`tools/library`) where the feature `linked` is on.
use crate::answer::Answer;
use crate::call::Call;
use crate::kinds::Counts;
use crate::moving;
use crate::proposal::{Checked, Proposal};
use crate::random::Random;
use crate::several::{Seen, Several};

pub struct Said {
    pub answer: Answer,
    /// the answer buffer past its rows
    pub rest_unchanged: bool,
    pub queue_unchanged: bool,
    /// the second buffer, whole
    pub record_buffer: Vec<u32>,
}

/// What a call for several haplotypes left.
pub struct SaidOfSeveral {
    pub seen: Seen,
    pub queue_unchanged: bool,
    /// the words before and behind each lent buffer
    pub guards_unchanged: bool,
}

#[cfg(not(feature = "linked"))]
pub fn several(_several: &Several) -> Result<SaidOfSeveral, String> {
    Err("the library is not linked".to_string())
}

#[cfg(not(feature = "linked"))]
pub fn answer(_call: &Call) -> Result<Said, String> {
    Err("the library is not linked".to_string())
}

#[cfg(not(feature = "linked"))]
pub fn program_text(_bytes: &[u8]) -> Result<String, String> {
    Err("the library is not linked".to_string())
}

#[cfg(not(feature = "linked"))]
pub fn move_job(_asked: &moving::Asked) -> Result<moving::Seen, String> {
    Err("the library is not linked".to_string())
}

#[cfg(not(feature = "linked"))]
pub fn check_path(_call: &Call, _proposal: &Proposal) -> Result<Checked, String> {
    Err("the library is not linked".to_string())
}

#[cfg(not(feature = "linked"))]
pub fn smaller_call(_r: &mut Random, _counts: &mut Counts) -> Result<(), String> {
    Err("the library is not linked".to_string())
}

#[cfg(not(feature = "linked"))]
pub fn counts_alike(_text: &[u8], _k: u8, _negative: bool, _counts: &mut Counts) -> Result<(), String> {
    Err("the library is not linked".to_string())
}

#[cfg(feature = "linked")]
pub use linked::{answer, check_path, counts_alike, move_job, nd_answer, nd_move_job, program_text, several, smaller_call, Lent};

#[cfg(feature = "linked")]
mod linked {
    use super::*;
    use crate::answer::Target;
    use crate::call::{counted, magnitudes};
    use crate::document::features;
    use crate::meta::{self, Asked};
    use crate::rules::DOCUMENT;
    use crate::{generate, kinds, rust};
    use unchanged::kplib::metrics;

    extern "C" {
        fn nd_apply_haplotype(
            settings: *const [u32; 14],
            starts: *const u64, starts_len: usize, ends: *const u64, ends_len: usize,
            sizes: *const i32, sizes_len: usize, features: *const i32, features_len: usize,
            record_numbers: *const u32, record_numbers_len: usize,
            part_sizes: *const i32, part_sizes_len: usize, part_features: *const i32, part_features_len: usize,
            links: *mut u32, links_len: usize, keys: *mut u64, keys_len: usize, rows: *mut u32, rows_len: usize,
            records: *mut u32, records_len: usize,
            report: *mut [u32; 7],
        ) -> u32;
        fn nd_apply_haplotypes(
            settings: *const [u32; 14],
            starts: *const u64, starts_len: usize, ends: *const u64, ends_len: usize,
            sizes: *const i32, sizes_len: usize, features: *const i32, features_len: usize,
            record_numbers: *const u32, record_numbers_len: usize,
            part_ends: *const u64, part_ends_len: usize, feature_ends: *const u64, feature_ends_len: usize,
            part_sizes: *const i32, part_sizes_len: usize, part_features: *const i32, part_features_len: usize,
            links: *mut u32, links_len: usize, keys: *mut u64, keys_len: usize, rows: *mut u32, rows_len: usize,
            records: *mut u32, records_len: usize, reports: *mut u32, reports_len: usize,
        ) -> u32;
        fn nd_check_path(
            settings: *const [u32; 14],
            starts: *const u64, starts_len: usize, ends: *const u64, ends_len: usize,
            sizes: *const i32, sizes_len: usize, features: *const i32, features_len: usize,
            part_sizes: *const i32, part_sizes_len: usize, part_features: *const i32, part_features_len: usize,
            rows: *const u32, rows_len: usize, positions: *const u32, positions_len: usize, score: f32, yes: *mut u32,
        ) -> u32;
        pub fn nd_answer(job: *const u8, job_len: usize, text: *mut [u8; 8192]) -> u32;
        pub fn nd_move_job(job: *const u8, job_len: usize, edition: u32, out: *mut u8, out_len: usize, written: *mut u64) -> u32;
        fn nd_count_chains(starts: *const u64, starts_len: usize, ends: *const u64, ends_len: usize, full: bool, cap: u32, count: *mut u32) -> u32;
        fn nd_seq_to_kmer(text: *const u8, text_len: usize, k: u8, negative: bool, letters: u8, row: *mut i32, row_len: usize) -> u32;
        fn nd_seqsim(a: *const i32, a_len: usize, b: *const i32, b_len: usize, minkfreq: u32, place: *mut f32) -> u32;
        fn nd_sizesim(a: u64, b: u64, place: *mut f32) -> u32;
        fn nd_meta_new(index: u64, samples: u64, meta: *mut [u64; 28]) -> u32;
        fn nd_meta_blank(samples: u64, meta: *mut [u64; 28]) -> u32;
        fn nd_meta_combine(left: *mut [u64; 28], right: *const [u64; 28]) -> u32;
    }

    const MARK: u32 = 0xdead_0001;
    const MARK_KEY: u64 = 0xdead_0002_0000_0003;

    /// The answer in a refusal's number, the fronts of the buffers and the words of the report after the first.
    fn answer_of(refusal: u32, rows: &[u32], records: &[u32], [target, score, sizesim, seqsim, scored, complete]: [u32; 6]) -> Answer {
        Answer {
            refusal,
            rows: rows.to_vec(),
            records: records.to_vec(),
            target: match target {
                0 => Target::Nothing,
                1 => Target::Whole,
                more => Target::Partial(more - 1),
            },
            score,
            sizesim,
            seqsim,
            scored,
            complete: complete == 1,
        }
    }

    /// The buffers hold marks before the call, the second what the call says, so that what was left alone is seen.
    pub fn answer(call: &Call) -> Result<Said, String> {
        let mut links = vec![MARK; call.queue_room];
        let mut keys = vec![MARK_KEY; call.queue_room + 1];
        let mut rows = vec![MARK; call.answer_room];
        let mut record_buffer = call.record_buffer.clone();
        let mut report = [MARK; 7];
        // SAFETY: every pointer comes with its slice's length, and no two overlap.
        let refusal = unsafe {
            nd_apply_haplotype(
                &call.settings.words(),
                call.starts.as_ptr(), call.starts.len(), call.ends.as_ptr(), call.ends.len(),
                call.sizes.as_ptr(), call.sizes.len(), call.features.as_ptr(), call.features.len(),
                call.numbers.as_ptr(), call.numbers.len(),
                call.part_sizes.as_ptr(), call.part_sizes.len(), call.part_features.as_ptr(), call.part_features.len(),
                links.as_mut_ptr(), links.len(), keys.as_mut_ptr(), keys.len(), rows.as_mut_ptr(), rows.len(),
                record_buffer.as_mut_ptr(), record_buffer.len(),
                &mut report,
            )
        };
        let [row_count, words @ ..] = report;
        let count = row_count as usize;
        let least = rows.len().min(record_buffer.len());
        if count > least {
            return Err(format!("{count} rows in buffers of {least}"));
        }
        Ok(Said {
            answer: answer_of(refusal, &rows[..count], &record_buffer[..count], words),
            rest_unchanged: rows[count..].iter().all(|&x| x == MARK),
            queue_unchanged: links.iter().all(|&x| x == MARK) && keys.iter().all(|&x| x == MARK_KEY),
            record_buffer,
        })
    }

    /// A buffer between words that nobody lends.
    pub struct Lent<T> {
        words: Vec<T>,
        guard: T,
    }

    impl<T: Copy + PartialEq> Lent<T> {
        const GUARDS: usize = 16;

        pub fn new(lent: &[T], guard: T) -> Lent<T> {
            let guards = [guard; 16];
            Lent { words: [&guards, lent, &guards].concat(), guard }
        }

        pub fn place(&mut self) -> *mut T {
            self.words[Self::GUARDS..].as_mut_ptr()
        }

        pub fn lent(&self) -> &[T] {
            &self.words[Self::GUARDS..self.words.len() - Self::GUARDS]
        }

        pub fn is_guarded(&self) -> bool {
            let (before, behind) = (&self.words[..Self::GUARDS], &self.words[self.words.len() - Self::GUARDS..]);
            before.iter().chain(behind).all(|word| *word == self.guard)
        }
    }

    /// The queue holds marks before the call, the other buffers what the call says.
    pub fn several(several: &Several) -> Result<SaidOfSeveral, String> {
        let call = &several.call;
        let (links, keys) = (vec![MARK; call.queue_room], vec![MARK_KEY; call.queue_room + 1]);
        let (mut links, mut keys) = (Lent::new(&links, MARK), Lent::new(&keys, MARK_KEY));
        let [mut rows, mut records, mut reports] = [&several.row_buffer, &call.record_buffer, &several.reports].map(|words| Lent::new(words, MARK));
        // SAFETY: every pointer comes with its slice's length, and no two overlap.
        let returned = unsafe {
            nd_apply_haplotypes(
                &call.settings.words(),
                call.starts.as_ptr(), call.starts.len(), call.ends.as_ptr(), call.ends.len(),
                call.sizes.as_ptr(), call.sizes.len(), call.features.as_ptr(), call.features.len(),
                call.numbers.as_ptr(), call.numbers.len(),
                several.part_ends.as_ptr(), several.part_ends.len(), several.feature_ends.as_ptr(), several.feature_ends.len(),
                call.part_sizes.as_ptr(), call.part_sizes.len(), call.part_features.as_ptr(), call.part_features.len(),
                links.place(), links.lent().len(), keys.place(), keys.lent().len(), rows.place(), rows.lent().len(),
                records.place(), records.lent().len(), reports.place(), reports.lent().len(),
            )
        };
        let guards = [links.is_guarded(), keys.is_guarded(), rows.is_guarded(), records.is_guarded(), reports.is_guarded()];
        Ok(SaidOfSeveral {
            queue_unchanged: links.lent().iter().all(|&x| x == MARK) && keys.lent().iter().all(|&x| x == MARK_KEY),
            guards_unchanged: !guards.contains(&false),
            seen: Seen { returned, rows: rows.lent().to_vec(), records: records.lent().to_vec(), reports: reports.lent().to_vec() },
        })
    }

    /// What the program would print for these bytes, by the library. The text's room holds marks before the call, so that its rest is seen to be left alone.
    pub fn program_text(bytes: &[u8]) -> Result<String, String> {
        const ROOM: usize = 8192;
        let mut text = Lent::new(&[MARK as u8; ROOM], MARK_KEY as u8);
        // SAFETY: the job comes with its length, and the text has its fixed one.
        let length = unsafe { nd_answer(bytes.as_ptr(), bytes.len(), text.place().cast()) } as usize;
        if length > ROOM {
            return Err(format!("{length} bytes of text"));
        }
        if !text.is_guarded() || text.lent()[length..].iter().any(|&byte| byte != MARK as u8) {
            return Err("a byte behind the text changed".to_string());
        }
        Ok(String::from_utf8_lossy(&text.lent()[..length]).into_owned())
    }

    pub fn move_job(asked: &moving::Asked) -> Result<moving::Seen, String> {
        let mut lent = Lent::new(&asked.lent, MARK_KEY as u8);
        let mut written = MARK_KEY;
        let room = lent.lent().len();
        // SAFETY: every pointer comes with its slice's length, and no two overlap.
        let refusal = unsafe { nd_move_job(asked.bytes.as_ptr(), asked.bytes.len(), asked.edition, lent.place(), room, &mut written) };
        if !lent.is_guarded() {
            return Err("a byte beside the lent room changed".to_string());
        }
        Ok(moving::Seen { refusal, written, lent: lent.lent().to_vec() })
    }

    /// The number that the check returns, and its word.
    pub fn check_path(call: &Call, proposal: &Proposal) -> Result<Checked, String> {
        let mut yes = MARK;
        // SAFETY: every pointer comes with its slice's length.
        let number = unsafe {
            nd_check_path(
                &call.settings.words(),
                call.starts.as_ptr(), call.starts.len(), call.ends.as_ptr(), call.ends.len(),
                call.sizes.as_ptr(), call.sizes.len(), call.features.as_ptr(), call.features.len(),
                call.part_sizes.as_ptr(), call.part_sizes.len(), call.part_features.as_ptr(), call.part_features.len(),
                proposal.rows.as_ptr(), proposal.rows.len(), proposal.positions.as_ptr(), proposal.positions.len(), proposal.score, &mut yes,
            )
        };
        if yes > 1 {
            return Err(format!("the word for yes or no is {yes}"));
        }
        Ok((number, yes == 1))
    }

    /// One call of the counter, seqsim, sizesim, the chain count or those of a haplotype's data, compared with the Rust's; refusals by the documents.
    pub fn smaller_call(r: &mut Random, counts: &mut Counts) -> Result<(), String> {
        match r.below(5) {
            0 => counter(r, counts),
            1 => rows(r, counts),
            2 => sizes(r, counts),
            3 => data(r, counts),
            _ => chain_count(r, counts),
        }
    }

    fn data(r: &mut Random, counts: &mut Counts) -> Result<(), String> {
        let asked = meta::asked(r);
        let must = asked.said(&DOCUMENT);
        let rust = asked.by_the_rust();
        let mut words = [r.next(); 28];
        // SAFETY: every pointer is to 28 words.
        let said = match &asked {
            Asked::New(index, samples) => unsafe { nd_meta_new(*index, *samples, &mut words) },
            Asked::Blank(samples) => unsafe { nd_meta_blank(*samples, &mut words) },
            Asked::Combine(left, right) => {
                words = *left;
                unsafe { nd_meta_combine(&mut words, right) }
            }
        };
        kinds::add(counts, format!("data: refusal {}{}", must.0, if rust.is_some() { ", asked of the Rust" } else { "" }));
        if rust.is_some_and(|rust| (0, rust) != must) {
            return Err(format!("of {asked:?} the Rust says {rust:?}, the second reading {must:?}"));
        }
        if (said, words) == must {
            return Ok(());
        }
        Err(format!("{asked:?}: must be {must:?}, is {said} {words:?}"))
    }

    /// The refusals of the chain count: the cap, then the table's bounds.
    fn bounds_refusal(table: &Call, cap: u32) -> u32 {
        let holds = |&number: &u32| match number {
            3 => cap > 4_096,
            6 => table.ends.len() != table.starts.len(),
            _ => table.is_refused_by(&DOCUMENT, number),
        };
        (3..=8).find(holds).unwrap_or(0)
    }

    fn chain_count(r: &mut Random, counts: &mut Counts) -> Result<(), String> {
        let mut job = generate::job(r, generate::LIBRARY);
        job.settings.k = 1;
        let call = Call::of_job(&job);
        let (mut starts, mut ends) = (call.starts.clone(), call.ends.clone());
        let cap = r.pick(&[0u32, 1, 2, 7, 4_095, 4_096, 4_096, 4_096, 4_097]);
        match r.below(30) {
            0 => starts.clear(),
            1 => ends.push(u64::MAX),
            2 => starts[0] = ends[0].saturating_add(1),
            3 => starts.rotate_left(1),
            4 => (starts, ends) = ((0..65).collect(), (0..65).collect()),
            _ => {}
        }
        let table = Call { starts: starts.clone(), ends: ends.clone(), ..call.clone() };
        let must = bounds_refusal(&table, cap);
        let chains = if must == 0 { rust::chains(&table, cap.into()) as u32 } else { 0 };
        let mut count = u32::MAX;
        // SAFETY: both pointers come with their lengths.
        let said = unsafe { nd_count_chains(starts.as_ptr(), starts.len(), ends.as_ptr(), ends.len(), call.settings.full, cap, &mut count) };
        kinds::add(counts, format!("chain count: refusal {must}"));
        if must == 0 && chains == cap {
            kinds::add(counts, "chain count: at its cap");
        }
        if said == must && count == chains {
            return Ok(());
        }
        Err(format!("chains of {starts:?} {ends:?} full {} cap {cap}: must be {must} {chains}, is {said} {count}", call.settings.full))
    }

    const UNCOUNTED: i32 = 77;

    /// The library's count into a row of so many entries, none of them 0 before the call.
    fn library_counts(text: &[u8], k: u8, negative: bool, letters: u8, room: usize) -> (u32, Vec<i32>) {
        let mut row = vec![UNCOUNTED; room];
        // SAFETY: both pointers come with their lengths.
        let said = unsafe { nd_seq_to_kmer(text.as_ptr(), text.len(), k, negative, letters, row.as_mut_ptr(), row.len()) };
        (said, row)
    }

    /// One text counted with letters 0 as the Rust counts it, with 1 as the second program does; document.rs must count both alike.
    pub fn counts_alike(text: &[u8], k: u8, negative: bool, counts: &mut Counts) -> Result<(), String> {
        for letters in [0u8, 1] {
            let must = counted(letters.into(), k, text, negative);
            let (said, row) = library_counts(text, k, negative, letters, must.len());
            let document = features(&DOCUMENT, letters.into(), k, text, negative);
            if (said, &row) != (0, &must) || document != must {
                let shown = text.iter().take(80).copied().collect::<Vec<u8>>();
                let differs = |is: &[i32]| is.iter().zip(&must).position(|(is, must)| is != must).map(|at| (at, is[at], must[at]));
                let words = format!("counting {} ({} letters) at k {k}, negative {negative}, letters {letters}", shown.escape_ascii(), text.len());
                return Err(format!("{words}: returned {said}; first entry, is, must be: {:?}, and of document.rs {:?}", differs(&row), differs(&document)));
            }
        }
        kinds::of_text(counts, text, k);
        Ok(())
    }

    fn counter(r: &mut Random, counts: &mut Counts) -> Result<(), String> {
        let k = if r.chance(5) { r.pick(&[0u8, 7, 255]) } else { 1 + r.below(6) as u8 };
        let length = if r.chance(1) { r.pick(&[131_071usize, 131_072, 131_073]) } else { r.below(60) as usize };
        let text = generate::text(r, length);
        let negative = r.chance(50);
        let letters = if r.chance(5) { r.pick(&[2u8, 3, 128, 255]) } else { r.below(2) as u8 };
        let entries = 4usize.pow(k.clamp(1, 6).into());
        let room = if r.chance(5) { r.pick(&[0, entries - 1, entries + 1]) } else { entries };
        let (said, row) = library_counts(&text, k, negative, letters, room);
        let must = match (k, letters, room == entries, length) {
            (0 | 7..=255, _, _, _) => 1,
            (_, 2..=255, _, _) => 3,
            (_, _, false, _) => 6,
            (_, _, _, 131_073..) => 13,
            _ => 0,
        };
        let wanted: Vec<i32> = match must {
            0 => counted(letters.into(), k, &text, negative),
            _ => vec![UNCOUNTED; room],
        };
        kinds::add(counts, format!("counter: refusal {must:02}"));
        kinds::add(counts, format!("counter: letters {}", if letters > 1 { "over 1".to_string() } else { letters.to_string() }));
        if said == must && row == wanted {
            return Ok(());
        }
        Err(format!("counting {} at k {k}, letters {letters}: must be {must} {wanted:?}, is {said} {row:?}", text.escape_ascii()))
    }

    fn rows(r: &mut Random, counts: &mut Counts) -> Result<(), String> {
        let entries = r.pick(&[0u64, 1, 3, 4, 16, 64]) as usize;
        let top = r.pick(&[1i64, 3, 100, 600_000, 8_388_608]);
        let mut one = |n: usize| -> Vec<i32> { (0..n).map(|_| if r.chance(40) { r.within(-top, top) as i32 } else { 0 }).collect() };
        let (a, b) = (one(entries), one(entries));
        let b = if r.chance(20) { a.clone() } else { b };
        let b = if r.chance(5) { [b, vec![0]].concat() } else { b };
        let minkfreq = r.pick(&[0u32, 1, 2, 3, 200, 16_777_216, 16_777_217]);
        let heavy = |row: &[i32]| magnitudes(row) > 8_388_608;
        let must = if minkfreq > 16_777_216 {
            3
        } else if a.len() != b.len() {
            6
        } else if heavy(&a) || heavy(&b) {
            10
        } else {
            0
        };
        let like = if must == 0 { metrics::seqsim(&rust::floats(&a), &rust::floats(&b), minkfreq as f32) } else { 0.0 };
        let mut place = f32::NAN;
        // SAFETY: both pointers come with their lengths.
        let said = unsafe { nd_seqsim(a.as_ptr(), a.len(), b.as_ptr(), b.len(), minkfreq, &mut place) };
        kinds::add(counts, format!("seqsim: refusal {must}"));
        if said == must && place.to_bits() == like.to_bits() {
            return Ok(());
        }
        Err(format!("seqsim of {a:?} and {b:?} at {minkfreq}: must be {must} {like:?}, is {said} {place:?}"))
    }

    fn sizes(r: &mut Random, counts: &mut Counts) -> Result<(), String> {
        let mut one = || match r.below(4) {
            0 => r.below(5),
            1 => r.pick(&[8_388_607, 8_388_608, 8_388_609, u64::MAX]),
            _ => r.below(8_388_609),
        };
        let (a, b) = (one(), one());
        let must = if a > 8_388_608 || b > 8_388_608 { 9 } else { 0 };
        let like = if must == 0 { metrics::sizesim(a, b) } else { 0.0 };
        let mut place = f32::NAN;
        // SAFETY: the place is lent for the call.
        let said = unsafe { nd_sizesim(a, b, &mut place) };
        kinds::add(counts, format!("sizesim: refusal {must}"));
        if said == must && place.to_bits() == like.to_bits() {
            return Ok(());
        }
        Err(format!("sizesim of {a} and {b}: must be {must} {like:?}, is {said} {place:?}"))
    }
}
