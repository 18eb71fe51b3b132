//! Moving a job from one edition to the other (document 02, P7): by the judge, who reads the job and writes it anew, and by the document once more,
//! record by record over the bytes, which is where mistakes are planted.
use crate::call::Call;
use crate::job::{self, record_length, shape, Edition, Job, LETTERS_AT, NUMBER_AT};
use crate::program;
use crate::rules::{Rules, DOCUMENT};

/// A call of the mover.
#[derive(Clone, Debug)]
pub struct Asked {
    pub bytes: Vec<u8>,
    /// the edition asked for
    pub edition: u32,
    /// what is lent for the job that is written, as it is before the call
    pub lent: Vec<u8>,
}

/// All that anyone outside sees of it.
#[derive(Clone, Debug, PartialEq, Eq)]
pub struct Seen {
    pub refusal: u32,
    pub written: u64,
    pub lent: Vec<u8>,
}

/// The same job in the other edition; what that has no place for is let go.
pub fn other_edition(job: &Job) -> Job {
    let mut moved = job.clone();
    moved.edition = if job.edition == Edition::One { Edition::Two } else { Edition::One };
    moved.settings.letters = 0;
    moved.variants.iter_mut().zip(0..).for_each(|(variant, row)| variant.number = row);
    moved
}

fn of_job(asked: &Asked) -> Result<Vec<u8>, u32> {
    let job = job::read(&DOCUMENT, &asked.bytes)?;
    let moves = matches!((job.edition, asked.edition), (Edition::One, 2) | (Edition::Two, 1));
    let rows: Vec<u32> = (0..).take(job.variants.len()).collect();
    let moved = other_edition(&job).bytes();
    match (moves, job.numbers() == rows, job.settings.letters) {
        (false, _, _) => Err(22),
        (_, false, _) => Err(28),
        (_, _, 1) => Err(29),
        _ if moved.len() > asked.lent.len() => Err(30),
        _ => Ok(moved),
    }
}

/// The judge's answer.
pub fn judged(asked: &Asked) -> Seen {
    let mut lent = asked.lent.clone();
    match of_job(asked) {
        Err(refusal) => Seen { refusal, written: 0, lent },
        Ok(moved) => {
            lent[..moved.len()].copy_from_slice(&moved);
            Seen { refusal: 0, written: moved.len() as u64, lent }
        }
    }
}

/// The records of some bytes, as far as they are whole.
pub fn records(bytes: &[u8]) -> Vec<&[u8]> {
    let (mut found, mut left) = (vec![], bytes);
    while let Some(length) = left.first().filter(|&&kind| shape(kind).is_some()).map(|&kind| record_length(kind)) {
        let Some((record, behind)) = left.split_at_checked(length) else { break };
        found.push(record);
        left = behind;
    }
    found
}

/// The bytes in hand, whatever they are, record by record.
struct Mover<'a> {
    rules: &'a Rules,
    asked: &'a Asked,
    /// 1 or 2; 0 where the first record is no settings
    own: u32,
    letters: u8,
    numbers: Vec<u32>,
    moved: Vec<u8>,
}

impl<'a> Mover<'a> {
    fn new(rules: &'a Rules, asked: &'a Asked) -> Mover<'a> {
        let own = match asked.bytes.first() {
            Some(0x01) => 1,
            Some(0x11) => 2,
            _ => 0,
        };
        let mut mover = Mover { rules, asked, own, letters: 0, numbers: vec![], moved: vec![] };
        records(&asked.bytes).into_iter().for_each(|record| mover.take(record));
        mover
    }

    fn take(&mut self, record: &[u8]) {
        let (kind, body) = (record[0], &record[1..]);
        let to_two = self.asked.edition >= 2;
        let shared = match kind {
            0x01 | 0x11 => self.rules.shared_bytes(&body[..LETTERS_AT]),
            0x02 | 0x12 => self.rules.shared_bytes(&body[..NUMBER_AT]),
            _ => return self.moved.extend_from_slice(record),
        };
        let is_settings = kind & 0x0f == 0x01;
        self.moved.push(kind & 0x0f | if to_two { 0x10 } else { 0 });
        self.moved.extend(shared);
        let row = self.numbers.len();
        match (is_settings, body.len() > if is_settings { LETTERS_AT } else { NUMBER_AT }) {
            (true, held) => self.letters = if held { body[LETTERS_AT] } else { 0 },
            (false, held) => self.numbers.push(if held { u32::from_le_bytes(body[NUMBER_AT..].try_into().unwrap()) } else { row as u32 }),
        }
        match (to_two, is_settings) {
            (true, true) => self.moved.push(self.rules.moved_letters()),
            (true, false) => self.moved.extend(self.rules.moved_number(row).to_le_bytes()),
            _ => {}
        }
    }

    /// Document 01's refusals of a search, or the program's, which play no part here.
    fn is_refused_by_search(&self, number: u32) -> bool {
        match (number, job::read(self.rules, &self.asked.bytes)) {
            (26, _) => program::admitted(self.rules, &self.asked.bytes).is_err_and(|refusal| refusal == 26),
            (_, Ok(job)) => Call::of_job(&job).refusal(self.rules) == number,
            _ => false,
        }
    }

    /// The number where a refusal of this kind applies; 20 stands for the form's first fault.
    fn refusal(&self, kind: u32) -> Option<u32> {
        let rules = self.rules;
        let too = || rules.move_asks_too().iter().copied().find(|&number| self.is_refused_by_search(number));
        let given = match kind {
            20 => return job::read(rules, &self.asked.bytes).err().or_else(too),
            22 => rules.move_is_none(self.own, self.asked.edition),
            28 => self.numbers.iter().enumerate().any(|(row, &number)| rules.number_would_be_lost(number, row)),
            29 => rules.reading_would_be_lost(self.letters),
            _ => rules.room_is_little(self.asked.lent.len(), self.moved.len()),
        };
        given.then_some(kind)
    }
}

/// The document's answer.
pub fn moved(rules: &Rules, asked: &Asked) -> Seen {
    let mover = Mover::new(rules, asked);
    let refusal = rules.move_refusals().iter().find_map(|&kind| mover.refusal(kind)).unwrap_or(0);
    let fits = &mover.moved[..mover.moved.len().min(asked.lent.len())];
    Seen {
        refusal,
        written: rules.written(mover.moved.len(), refusal != 0),
        lent: rules.lent_after(&asked.lent, fits, refusal != 0),
    }
}
