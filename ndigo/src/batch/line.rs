//! From a table to its lines: one a haplotype, and one for a table that is refused or cannot be read as a whole.
use super::earlier::Earlier;
use super::source::{Content, Ended, Table};
use super::tally::{Status, Tally};
use crate::answer::{left_out, listed_names, parted_by_commas};
use crate::asked::{read, sort_rows, table_line};
use crate::deeper::{self, CELLS};
use crate::fault::Failure;
use crate::model::Sheet;
use crate::refusals::{self, Refusal};
use crate::search::{self, Own};
use crate::sheet::marked;
use crate::{float, job, warnings};
use ndigomarr::Target;
use sha2::{Digest, Sha256};
use std::io::Read;
use std::time::Duration;

pub const HEADINGS: [&str; 26] = [
    "file", "job", "haplotype", "number", "of", "status", "refused", "words", "names", "records", "score", "sizesim", "seqsim", "left_out", "scored", "complete", "warnings",
    "made_from", CELLS[0], CELLS[1], CELLS[2], CELLS[3], CELLS[4], CELLS[5], CELLS[6], CELLS[7],
];
pub const FILE: usize = 0;
pub const JOB: usize = 1;
pub const NUMBER: usize = 3;
pub const OF: usize = 4;
pub const STATUS: usize = 5;
pub const COMPLETE: usize = 15;
pub const MADE_FROM: usize = 17;
pub const DEEPER: usize = 18;

/// What parts several reasons, or several warnings, in one cell.
const BETWEEN: &str = " | ";

/// A table's lines as they are written, and what they count.
#[derive(Debug, Default)]
pub struct Lines {
    pub bytes: Vec<u8>,
    pub tally: Tally,
}

/// What a line says beside where it comes from.
struct Said {
    haplotype: String,
    status: Status,
    refused: String,
    words: String,
    /// From the names to `complete`; empty where there is no answer.
    answer: Vec<String>,
    /// What a deeper look came to; empty where there was none.
    deeper: Vec<String>,
}

impl Said {
    fn without_answer(status: Status, haplotype: &str, refused: Option<u32>, words: String) -> Self {
        let refused = refused.map_or(String::new(), |number| number.to_string());
        Self { haplotype: haplotype.into(), status, refused, words, answer: vec![String::new(); 8], deeper: vec![String::new(); CELLS.len()] }
    }

    fn refused(haplotype: &str, reasons: &[Refusal], whole: &str) -> Self {
        let words: Vec<String> = reasons.iter().map(|reason| reason.told_of(whole)).collect();
        Self::without_answer(Status::Refused, haplotype, reasons.first().map(|reason| reason.number), joined(&words))
    }

    /// Of a haplotype in a sheet of its own.
    fn of(own: &Sheet, answer: &Own, whole: &str, deeper: Option<Duration>) -> Self {
        let haplotype = own.haplotype().unwrap_or_default();
        let answer = match answer {
            Ok(answer) => answer,
            Err(reasons) => return Self::refused(haplotype, reasons, whole),
        };
        let status = if answer.target == Target::Nothing { Status::Nothing } else { Status::Answered };
        let mut cells = vec![listed_names(own, answer), parted_by_commas(answer.records.iter())];
        cells.extend([answer.score, answer.sizesim, answer.seqsim].map(|value| float::text(value.to_bits())));
        cells.push(left_out(answer).map_or(String::new(), |parts| parts.to_string()));
        cells.extend([answer.scored.to_string(), if answer.complete { "yes" } else { "no" }.into()]);
        let looked = deeper.map(|time| deeper::look(own, answer, time, &mut |_| {}));
        let deeper = looked.map_or(vec![String::new(); CELLS.len()], |looked| deeper::cells(own, &looked));
        Self { haplotype: haplotype.into(), status, refused: String::new(), words: String::new(), answer: cells, deeper }
    }
}

fn joined<T: ToString>(words: &[T]) -> String {
    words.iter().map(T::to_string).collect::<Vec<_>>().join(BETWEEN)
}

/// A line for each haplotype; one for a sheet that is refused as a whole, under no haplotype's name. `whole` is what a reason without a line is said of.
fn said_of(sheet: &Sheet, whole: &str, deeper: Option<Duration>) -> Vec<Said> {
    match search::answers(sheet) {
        Ok(answers) => answers.iter().zip(sheet.each()).map(|(answer, own)| Said::of(&own, answer, whole, deeper)).collect(),
        Err(reasons) => vec![Said::refused("", &reasons, whole)],
    }
}

fn unread(number: Option<u32>, words: String) -> Vec<Said> {
    vec![Said::without_answer(Status::Unread, "", number, words)]
}

fn remarks(notes: &[String], sheet: &Sheet) -> String {
    let notes = notes.iter().map(|note| format!("note: {note}"));
    joined(&notes.chain(warnings::of_rows(sheet).iter().map(|warning| warning.to_string())).collect::<Vec<_>>())
}

fn of_sheet(data: &[u8], how: How) -> (Vec<Said>, String) {
    if data.starts_with(&table_line(&HEADINGS)) {
        return (unread(None, "this is the output of ndigo batch; leave it out".into()), String::new());
    }
    match read(data, how.sort) {
        Ok((sheet, notes)) => (said_of(&sheet, "the whole sheet", how.deeper), remarks(&notes, &sheet)),
        Err(failure) => {
            // every job ends with a zero byte, and no text without a mark holds one
            let or_job = if data.contains(&0) && !marked(data) { "; or, if it is a job, its first byte must be 1, or 17 in edition 2: make it again with `ndigo job SHEET`" } else { "" };
            (unread(None, joined(&failure.reasons()) + or_job), String::new())
        }
    }
}

fn of_job(bytes: &[u8], begins: u64, ended: Ended, how: How) -> (Vec<Said>, String) {
    let instead = match ended {
        Ended::ByItself => "make the job again with `ndigo job SHEET`",
        Ended::Lost | Ended::TooLong => "where the next job would begin cannot be told, so nothing behind it was read: make the file again from whole jobs",
    };
    if ended == Ended::TooLong {
        return (unread(None, format!("the job that begins at byte {begins} has {} bytes and no end yet, more than any that can be answered; {instead}", bytes.len())), String::new());
    }
    match job::read(bytes) {
        Ok(mut sheet) => {
            let notes: Vec<String> = how.sort.then(|| sort_rows(&mut sheet)).into_iter().collect();
            (said_of(&sheet, "the whole job", how.deeper), remarks(&notes, &sheet))
        }
        Err(fault) => {
            let place = begins + fault.place as u64;
            let words = format!("refused {}: {}: the record at byte {place} of the file, in the job that begins at byte {begins}; {instead}", fault.number, refusals::words(fault.number));
            (unread(Some(fault.number), words), String::new())
        }
    }
}

/// The way in which lines are made.
#[derive(Clone, Copy, Debug)]
pub struct How {
    pub sort: bool,
    /// How long to look deeper where a search stopped early.
    pub deeper: Option<Duration>,
}

/// Makes lines, or takes them from an earlier run that made them of the same bytes, in the same way.
pub struct Maker {
    how: How,
    earlier: Earlier,
    /// Of this very program: another edition may answer otherwise.
    program: [u8; 32],
}

impl Maker {
    pub fn new(how: How, earlier: Earlier) -> Self {
        let program = std::env::current_exe().and_then(std::fs::read).unwrap_or_else(|_| env!("CARGO_PKG_VERSION").into());
        Self { how, earlier, program: Sha256::digest(program).into() }
    }

    /// Changes with the table's bytes, with the program and with what it was asked.
    fn made_from(&self, data: &[u8]) -> String {
        let deeper = self.how.deeper.map_or(vec![], |time| [&b"deeper"[..], &time.as_nanos().to_le_bytes()].concat());
        let all = Sha256::new().chain_update(self.program).chain_update([u8::from(self.how.sort)]).chain_update(deeper).chain_update(data).finalize();
        all[..8].iter().map(|byte| format!("{byte:02x}")).collect()
    }

    pub fn lines(&self, table: Table) -> Lines {
        let Table { file, job, content } = table;
        let job = job.map_or(String::new(), |number| number.to_string());
        let data = match content {
            Content::Unread(words) => Err(words),
            Content::Job { bytes, begins, ended } => Ok((bytes, Some((begins, ended)))),
            Content::Sheet(mut sheet) => {
                let mut data = Vec::new();
                sheet.read_to_end(&mut data).map(|_| (data, None)).map_err(|fault| Failure::Unreadable(fault).to_string())
            }
        };
        let (data, in_archive) = match data {
            // tried again by every run
            Err(words) => return written(&file, &job, &(unread(None, words), String::new()), ""),
            Ok(data) => data,
        };
        let made_from = self.made_from(&data);
        let earlier = self.earlier.lines(&file, &job, &made_from);
        // what is wrong with a job is told by its place in the file, which may be another now
        if let Some(lines) = earlier.filter(|lines| in_archive.is_none() || !lines.tally.any_unread()) {
            return lines;
        }
        let said = match in_archive {
            Some((begins, ended)) => of_job(&data, begins, ended, self.how),
            None => of_sheet(&data, self.how),
        };
        written(&file, &job, &said, &made_from)
    }
}

fn written(file: &str, job: &str, (said, warnings): &(Vec<Said>, String), made_from: &str) -> Lines {
    let mut lines = Lines { bytes: vec![], tally: Tally::of_table(false) };
    for (number, line) in said.iter().enumerate() {
        let mut cells = vec![file.to_string(), job.into(), line.haplotype.clone(), number.to_string(), said.len().to_string()];
        cells.extend([line.status.word().into(), line.refused.clone(), line.words.clone()]);
        cells.extend(line.answer.iter().cloned());
        cells.extend([warnings.clone(), made_from.into()]);
        cells.extend(line.deeper.iter().cloned());
        lines.tally.count(line.status, cells[COMPLETE] == "yes", cells[DEEPER].as_bytes());
        lines.bytes.extend(table_line(&cells));
    }
    lines
}
