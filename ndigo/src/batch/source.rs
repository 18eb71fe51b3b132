//! The tables of all files, one after the other. A sheet is one table, a file of jobs has as many as jobs stand in it.
use crate::fault::{instead_of, Failure};
use crate::job::{self, Edition};
use std::fs::File;
use std::io::{BufRead, BufReader, Read, Seek};
use std::iter::Peekable;

type Bytes = BufReader<Box<dyn Read + Send>>;

/// What is to be answered.
pub struct Table {
    pub file: String,
    /// The number of a job in its file, from 0; none of a sheet.
    pub job: Option<u64>,
    pub content: Content,
}

pub enum Content {
    /// Read by the worker that answers it.
    Sheet(Bytes),
    /// A job's bytes, and where they begin in the file.
    Job { bytes: Vec<u8>, begins: u64, ended: Ended },
    Unread(String),
}

/// Whether the next job of the file can be found.
#[derive(Clone, Copy, Debug, PartialEq, Eq)]
pub enum Ended {
    ByItself,
    /// An unknown kind, or no end: nothing says where the next would begin.
    Lost,
    /// Longer than any job that could be answered.
    TooLong,
}

/// The longest job that the library takes has 64 variants and 16 times 64 parts, each of 131,072 letters: 152 million bytes.
const LONGEST: usize = 160_000_000;

struct Archive {
    file: String,
    bytes: Bytes,
    length: Option<u64>,
    place: u64,
    jobs: u64,
    lost: bool,
}

impl Archive {
    /// Up to the record that ends the job, by the kinds alone: what else may be wrong with it is told where it is read.
    fn cut(&mut self) -> std::io::Result<(Vec<u8>, Ended)> {
        let mut job = Vec::new();
        loop {
            let begins = job.len();
            self.bytes.by_ref().take(1).read_to_end(&mut job)?;
            let Some(length) = job.get(begins).and_then(|&kind| job::length_of(kind)) else { return Ok((job, Ended::Lost)) };
            self.bytes.by_ref().take(length as u64 - 1).read_to_end(&mut job)?;
            if job.len() < begins + length {
                return Ok((job, Ended::Lost));
            }
            if job[begins] == job::END {
                return Ok((job, Ended::ByItself));
            }
            if job.len() > LONGEST {
                return Ok((job, Ended::TooLong));
            }
        }
    }

    fn next(&mut self) -> Option<Table> {
        if self.lost {
            return None;
        }
        let more = self.bytes.fill_buf().map(|rest| !rest.is_empty());
        let content = match more.and_then(|more| if more { self.cut().map(Some) } else { Ok(None) }) {
            Ok(None) => return None,
            Ok(Some((bytes, ended))) => {
                let begins = self.place;
                self.place += bytes.len() as u64;
                self.lost = ended != Ended::ByItself;
                Content::Job { bytes, begins, ended }
            }
            Err(fault) => {
                self.lost = true;
                Content::Unread(Failure::Unreadable(fault).to_string())
            }
        };
        self.jobs += 1;
        Some(Table { file: self.file.clone(), job: Some(self.jobs - 1), content })
    }

    /// How many jobs are still to come if they are as long as those before.
    fn to_come(&self) -> Option<u64> {
        let rest = self.length?.saturating_sub(self.place);
        // bytes times jobs may be more than 64 bits hold
        let to_come = u128::from(rest) * u128::from(self.jobs) / u128::from(self.place.max(1));
        Some(if self.lost { 0 } else { u64::try_from(to_come).unwrap_or(u64::MAX) })
    }
}

/// Names of files, each with what is wrong with the name itself.
type Names = Box<dyn Iterator<Item = (String, Option<String>)> + Send>;

pub struct Source {
    names: Peekable<Names>,
    /// How many names there are; unknown where names, or who knows how many jobs, come by a pipe.
    named: Option<u64>,
    archive: Option<Archive>,
    opened: u64,
    taken: u64,
}

fn opened(file: &str) -> std::io::Result<(Bytes, Option<u64>)> {
    if file == "-" {
        return Ok((BufReader::new(Box::new(std::io::stdin())), None));
    }
    let file = File::open(file)?;
    let length = file.metadata().ok().filter(|about| about.is_file()).map(|about| about.len());
    Ok((BufReader::new(Box::new(file)), length))
}

/// The names of a list, one a line; empty lines are passed over.
fn listed(list: &str, lines: impl BufRead + Send + 'static) -> Names {
    let list = crate::work::shown_name(list).to_string();
    let named = move |(place, line): (usize, std::io::Result<Vec<u8>>)| {
        let place = place + 1;
        let line = match line {
            Ok(line) => line,
            Err(fault) => return Some((list.clone(), Some(format!("line {place} and what follows cannot be read ({fault})")))),
        };
        let line = line.strip_suffix(b"\r").unwrap_or(&line);
        match std::str::from_utf8(line) {
            Ok("") => None,
            Ok(name) => Some((name.to_string(), None)),
            Err(_) => {
                let words = format!("the name on line {place} of {list} is not UTF-8; give the file a name in UTF-8, and write that there");
                Some((String::from_utf8_lossy(line).into_owned(), Some(words)))
            }
        }
    };
    // a fault of the disk comes again and again: the first is told
    let mut whole = true;
    let lines = lines.split(b'\n').take_while(move |line| std::mem::replace(&mut whole, line.is_ok()));
    Box::new(lines.enumerate().filter_map(named))
}

fn names_of(list: &str) -> std::io::Result<(Names, Option<u64>)> {
    if list == "-" {
        return Ok((listed(list, BufReader::new(std::io::stdin())), None));
    }
    let mut file = File::open(list)?;
    let mut count = None;
    if file.metadata()?.is_file() {
        count = Some(listed(list, BufReader::new(file.try_clone()?)).count() as u64);
        file.rewind()?;
    }
    Ok((listed(list, BufReader::new(file)), count))
}

impl Source {
    pub fn of(files: &[String], list: Option<&str>) -> Result<Self, String> {
        let inputs = files.iter().map(String::as_str).chain(list);
        if inputs.filter(|file| *file == "-").count() > 1 {
            return Err("standard input (-) can be read once only".into());
        }
        let (listed, count): (Names, Option<u64>) = match list {
            Some(list) => names_of(list).map_err(|fault| format!("{list}: the list cannot be read ({fault}){}", instead_of(&fault)))?,
            None => (Box::new(std::iter::empty()), Some(0)),
        };
        let by_pipe = files.iter().any(|file| file == "-");
        let named = count.filter(|_| !by_pipe).map(|count| count + files.len() as u64);
        let names: Names = Box::new(files.to_vec().into_iter().map(|file| (file, None)).chain(listed));
        let mut names = names.peekable();
        if names.peek().is_none() {
            return Err(format!("{}: the list names no file; write their names there, one a line", crate::work::shown_name(list.unwrap_or("-"))));
        }
        Ok(Self { names, named, archive: None, opened: 0, taken: 0 })
    }

    pub fn next(&mut self) -> Option<Table> {
        let table = loop {
            if let Some(table) = self.archive.as_mut().and_then(Archive::next) {
                break table;
            }
            self.archive = None;
            let (file, wrong) = self.names.next()?;
            self.opened += 1;
            if let Some(words) = wrong {
                break Table { file, job: None, content: Content::Unread(words) };
            }
            let begun = opened(&file).and_then(|(mut bytes, length)| Ok((bytes.fill_buf()?.first().copied(), bytes, length)));
            let file = crate::work::shown_name(&file).to_string();
            match begun {
                Err(fault) => break Table { file, job: None, content: Content::Unread(Failure::Unreadable(fault).to_string()) },
                // no text begins as a job does
                Ok((Some(first), bytes, length)) if Edition::begun_by(first).is_some() => self.archive = Some(Archive { file, bytes, length, place: 0, jobs: 0, lost: false }),
                Ok((_, bytes, _)) => break Table { file, job: None, content: Content::Sheet(bytes) },
            }
        };
        self.taken += 1;
        Some(table)
    }

    pub fn taken(&self) -> u64 {
        self.taken
    }

    /// How many tables there will be in all, as far as can be told: a file that was not opened yet counts as one.
    pub fn expected(&self) -> Option<u64> {
        let unopened = self.named?.saturating_sub(self.opened);
        let to_come = self.archive.as_ref().map_or(Some(0), Archive::to_come)?;
        Some(self.taken.saturating_add(to_come).saturating_add(unopened))
    }
}
