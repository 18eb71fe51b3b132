//! One input put to the archive's two calls that take a job's bytes, `nd_answer` and `nd_move_job`, and all that is seen of them held to the second reading.
use crate::page::Page;
use judge::document::program_text;
use judge::library::{nd_answer, nd_move_job, Lent};
use judge::mistakes::MISTAKES;
use judge::moving::{self, records, Asked, Seen};
use judge::random::Random;
use judge::rules::{Rules, DOCUMENT};

/// `nd_answer`'s text.
const TEXT: usize = 8192;

/// What can be planted beside the mistakes of the second reading: a guard byte written, and the job's length told one too many.
const WRITE_BEHIND: &str = "a byte written behind the text";
const READ_BEHIND: &str = "a byte read behind the job";

pub struct Checker {
    planted: Planted,
    page: Page,
}

#[derive(Clone, Copy)]
struct Planted {
    rules: &'static Rules,
    writes_behind: bool,
    reads_behind: bool,
}

/// A seed for what an input leaves open, from the input alone: the same input is always asked in the same way.
fn seed_of(job: &[u8]) -> u64 {
    job.iter().fold(0xcbf2_9ce4_8422_2325, |hash, &byte| (hash ^ u64::from(byte)).wrapping_mul(0x100_0000_01b3))
}

fn drawn(r: &mut Random, length: usize) -> Vec<u8> {
    let words = length.div_ceil(8);
    let mut bytes: Vec<u8> = (0..words).flat_map(|_| r.next().to_le_bytes()).collect();
    bytes.truncate(length);
    bytes
}

/// The edition asked for, and a room that is just enough, one byte short, or anything near.
fn move_of(r: &mut Random, job: &[u8]) -> Asked {
    let numbers = records(job).iter().filter(|record| matches!(record[0], 0x02 | 0x12)).count();
    let goes_back = job.first() == Some(&0x11);
    let other = if goes_back { 1 } else { 2 };
    let need = if goes_back { job.len().saturating_sub(1 + 4 * numbers) } else { job.len() + 1 + 4 * numbers };
    let less = r.below(need as u64 + 1) as usize;
    let room = r.pick(&[need, need, need, need.saturating_sub(1), need + 1, need + 40, less]);
    let edition = if r.chance(85) { other } else { r.pick(&[0, 1, 2, 3, 257, u32::MAX]) };
    Asked { bytes: job.to_vec(), edition, lent: drawn(r, room) }
}

impl Checker {
    /// With nothing planted, or with the mistake of these words.
    pub fn new(planted: Option<&str>) -> Checker {
        let mistake = |words: &str| MISTAKES.iter().find(|mistake| mistake.words == words).map(|mistake| &mistake.rules);
        let unknown = |words: &str| panic!("no mistake is called {words:?}; judge/src/mistakes.rs has them, and there are {WRITE_BEHIND:?} and {READ_BEHIND:?}");
        let rules = match planted {
            None | Some(WRITE_BEHIND | READ_BEHIND) => &DOCUMENT,
            Some(words) => mistake(words).unwrap_or_else(|| unknown(words)),
        };
        let planted = Planted { rules, writes_behind: planted == Some(WRITE_BEHIND), reads_behind: planted == Some(READ_BEHIND) };
        Checker { planted, page: Page::new() }
    }

    pub fn check(&mut self, job: &[u8]) -> Result<(), String> {
        let r = &mut Random::new(seed_of(job));
        let planted = self.planted;
        let laid = self.page.lay(job, r.chance(80));
        answers_alike(&planted, r, laid)?;
        moves_alike(planted.rules, r, laid)
    }
}

/// The text's room, whole, must be the text and behind it what was there before.
fn answers_alike(planted: &Planted, r: &mut Random, job: &[u8]) -> Result<(), String> {
    let text = program_text(planted.rules, job);
    let before = drawn(r, TEXT);
    let mut lent = Lent::new(&before, r.next() as u8);
    // SAFETY: the job comes with its length unless a longer one is planted, and the text has its fixed one; the byte that is planted is a guard's.
    let length = unsafe {
        let length = nd_answer(job.as_ptr(), job.len() + usize::from(planted.reads_behind), lent.place().cast());
        if planted.writes_behind {
            *lent.place().add(TEXT) ^= 1;
        }
        length as usize
    };
    if !lent.is_guarded() {
        return Err("nd_answer: a byte beside the text's room changed".to_string());
    }
    if length != text.len() || lent.lent() != [text.as_bytes(), &before[text.len()..]].concat() {
        let said = String::from_utf8_lossy(&lent.lent()[..length.min(TEXT)]);
        return Err(format!("nd_answer must say these {} bytes\n{text}and leave the room behind them as it was; it says {length}\n{said}", text.len()));
    }
    Ok(())
}

fn moves_alike(rules: &Rules, r: &mut Random, job: &[u8]) -> Result<(), String> {
    const UNWRITTEN: u64 = 0xdead_0002_0000_0003;
    let asked = move_of(r, job);
    let mut lent = Lent::new(&asked.lent, r.next() as u8);
    let mut written = UNWRITTEN;
    // SAFETY: every pointer comes with its slice's length, and no two overlap.
    let refusal = unsafe { nd_move_job(job.as_ptr(), job.len(), asked.edition, lent.place(), asked.lent.len(), &mut written) };
    if !lent.is_guarded() {
        return Err("nd_move_job: a byte beside the lent room changed".to_string());
    }
    let (must, said) = (moving::moved(rules, &asked), Seen { refusal, written, lent: lent.lent().to_vec() });
    if said != must {
        let words = |seen: &Seen| format!("{}, {} bytes written", seen.refusal, seen.written);
        let place = said.lent.iter().zip(&must.lent).position(|(one, other)| one != other);
        let unlike = place.map_or(String::new(), |at| format!(", and byte {at} of what is lent is unlike"));
        let (edition, room) = (asked.edition, asked.lent.len());
        return Err(format!("nd_move_job to edition {edition} with room for {room}: must be {}; is {}{unlike}", words(&must), words(&said)));
    }
    Ok(())
}
