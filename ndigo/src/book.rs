//! Settings with versions in a file: saved from a sheet, listed with what changed, saved again, and named for an answer.
use crate::asked;
use crate::commands::BookCommand;
use crate::fault::Failure;
use crate::model::{Settings, Sheet, SETTINGS};
use crate::refusals;
use crate::work::{put_all, read, say, shown_name};
use fs2::FileExt as _;
use ndigomarr::{Book, Refusal};
use std::fs::{File, OpenOptions};
use std::io::Write;
use std::path::{Path, PathBuf};

/// The settings of a version of a book.
pub struct Version {
    settings: Settings,
    /// `version 3 of sea.book`.
    words: String,
}

impl Version {
    /// What `sea.book:3` names.
    pub fn asked(asked: &str) -> Result<Self, Failure> {
        let instead = "write the book, a colon and the version, such as sea.book:3";
        let (name, version) = asked.rsplit_once(':').ok_or_else(|| Failure::Input(format!("no version stands behind the book; {instead}")))?;
        if name.is_empty() {
            return Err(Failure::Input(format!("no book stands before the version; {instead}")));
        }
        let book = opened(Path::new(name))?;
        let settings = settings_of(&book, number_of(&book, version)?)?;
        let words = format!("version {version} of {name}");
        Ok(Self { settings: Settings { version: Some(words.clone()), ..settings }, words })
    }

    /// Puts its settings in the place of the sheet's own; the notes that say so.
    pub fn hand_to(&self, sheet: &mut Sheet) -> Vec<String> {
        let own = std::mem::replace(&mut sheet.settings, self.settings.clone());
        let unused = (0..SETTINGS.len()).filter_map(|place| {
            let line = own.lines[place].filter(|_| own.words[place] != self.settings.words[place])?;
            let (named, taken) = (own.text(place), self.settings.text(place));
            Some(format!("line {line}: {} {named} of the sheet is not used, {} has {taken}", SETTINGS[place].name, self.words))
        });
        std::iter::once(format!("the settings are {}", self.words)).chain(unused).collect()
    }
}

/// A version as it is written: a number, and one that is there.
fn number_of(book: &Book, written: &str) -> Result<u32, Failure> {
    let there = match book.len() {
        0 => "the book has no versions yet; save one first".into(),
        1 => "the book has version 1 alone; write 1".into(),
        count => format!("the book has versions 1 to {count}; write one of these"),
    };
    let plain = !written.is_empty() && written.bytes().all(|byte| byte.is_ascii_digit());
    let number = written.parse().ok().filter(|_| plain).ok_or_else(|| Failure::Input(format!("\"{written}\" is no version: {there}")))?;
    match book.read(number) {
        Ok(_) => Ok(number),
        Err(refusal) => Err(Failure::Input(format!("{refusal}: {written}; {there}"))),
    }
}

fn settings_of(book: &Book, version: u32) -> Result<Settings, Failure> {
    book.read(version).map(|settings| Settings::of_library(&settings)).map_err(|refusal| Failure::Input(refusal.to_string()))
}

/// The book that a file's bytes hold.
fn book_of(bytes: &[u8]) -> Result<Book, Failure> {
    Book::of_bytes(bytes).map_err(|refusal| Failure::Input(format!("{refusal}; name a file that ndigo book save has written")))
}

fn opened(path: &Path) -> Result<Book, Failure> {
    book_of(&std::fs::read(path).map_err(Failure::Unreadable)?)
}

fn beside(path: &Path, ending: &str) -> PathBuf {
    let mut name = path.as_os_str().to_os_string();
    name.push(ending);
    name.into()
}

/// Changes the book of a file, which is written whole or not at all: the new book appears by a rename. Whoever else changes it
/// waits: the lock is a file of its own, since the book's own name goes over to another file.
fn changed(path: &Path, begin: bool, change: impl FnOnce(&mut Book) -> Result<u32, Failure>) -> Result<(Book, u32), Failure> {
    // the file itself where the name is a link
    let path = &std::fs::canonicalize(path).unwrap_or_else(|_| path.into());
    if !begin {
        std::fs::metadata(path).map_err(Failure::Unreadable)?;
    }
    let lock = OpenOptions::new().write(true).create(true).truncate(false).open(beside(path, ".lock")).map_err(Failure::Unwritable)?;
    lock.lock_exclusive().map_err(Failure::Unwritable)?;
    let mut book = match std::fs::read(path) {
        Err(fault) if begin && fault.kind() == std::io::ErrorKind::NotFound => Book::new(),
        bytes => book_of(&bytes.map_err(Failure::Unreadable)?)?,
    };
    let version = change(&mut book)?;
    let new = beside(path, ".new");
    let written = File::create(&new).and_then(|mut file| file.write_all(book.bytes()).and_then(|()| file.sync_all()));
    written.and_then(|()| std::fs::rename(&new, path)).map_err(|fault| {
        // what is left of it would only be in the way
        let _ = std::fs::remove_file(&new);
        Failure::Unwritable(fault)
    })?;
    Ok((book, version))
}

/// What changed from one version to the next, setting by setting.
fn changes(before: &Settings, after: &Settings) -> Vec<String> {
    let differ = (0..SETTINGS.len()).filter(|&place| before.words[place] != after.words[place]);
    differ.map(|place| format!("{} from {} to {}", SETTINGS[place].name, before.text(place), after.text(place))).collect()
}

/// A version in one line: the first with all its settings, any other with what changed.
fn line(book: &Book, version: u32) -> Result<String, Failure> {
    let own = settings_of(book, version)?;
    if version == 1 {
        let all = SETTINGS.iter().enumerate().map(|(place, setting)| format!("{} {}", setting.name, own.text(place)));
        return Ok(all.collect::<Vec<_>>().join(", "));
    }
    let changes = changes(&settings_of(book, version - 1)?, &own);
    if changes.is_empty() {
        return Ok(format!("nothing changed from version {}", version - 1));
    }
    let bytes = book.read_bytes(version);
    let same = (1..version - 1).rev().find(|&earlier| book.read_bytes(earlier) == bytes);
    Ok(changes.join(", ") + &same.map_or(String::new(), |earlier| format!(" (the same as version {earlier})")))
}

fn listed(book: &Book) -> Result<String, Failure> {
    if book.is_empty() {
        return Ok("no versions yet\n".into());
    }
    (1..=book.len() as u32).map(|version| Ok(format!("version {version:3}  {}\n", line(book, version)?))).collect()
}

/// Why settings cannot be saved, in the sheet's words where a setting is to blame.
fn refused(sheet: &Sheet, refusal: Refusal) -> Vec<String> {
    match refusal.number() {
        1..=3 => refusals::of_settings(sheet).iter().map(|reason| reason.to_string()).collect(),
        24 => refusals::bad_letters(sheet, 24).iter().map(|reason| reason.to_string()).collect(),
        _ => vec![format!("{refusal}; begin another book")],
    }
}

/// Settings that were refused, and the words that say why.
enum Ended {
    Refused(Vec<String>),
    Failed(String, Failure),
}

fn save(path: &Path, file: &str) -> Result<String, Ended> {
    let of_sheet = |failure| Ended::Failed(shown_name(file).into(), failure);
    let name = path.display().to_string();
    let (sheet, notes) = read(file).and_then(|data| asked::read(&data, false)).map_err(of_sheet)?;
    let mut reasons = vec![];
    let saved = changed(path, true, |book| {
        book.save(&sheet.settings.to_library()).map_err(|refusal| {
            reasons = refused(&sheet, refusal);
            Failure::Input(refusal.to_string())
        })
    });
    notes.iter().for_each(|note| say(&format!("{}: note: {note}", shown_name(file))));
    match saved {
        Ok((book, version)) => line(&book, version).map(|line| format!("saved as version {version} of {name}: {line}\n")).map_err(|failure| Ended::Failed(name, failure)),
        Err(_) if !reasons.is_empty() => Err(Ended::Refused(reasons.iter().map(|reason| format!("{}: {reason}", shown_name(file))).collect())),
        Err(failure) => Err(Ended::Failed(name, failure)),
    }
}

fn restore(path: &Path, written: &str) -> Result<String, Failure> {
    let (book, version) = changed(path, false, |book| {
        let number = number_of(book, written)?;
        book.restore(number).map_err(|refusal| Failure::Input(format!("{refusal}; begin another book")))
    })?;
    Ok(format!("version {written} saved again as version {version} of {}: {}\n", path.display(), line(&book, version)?))
}

/// Does what is asked, and gives the status.
pub fn status(asked: &BookCommand) -> u8 {
    let (path, done) = match asked {
        BookCommand::Save { book, sheet } => (book, save(book, sheet)),
        BookCommand::List { book } => (book, opened(book).and_then(|book| listed(&book)).map_err(|failure| Ended::Failed(String::new(), failure))),
        BookCommand::Restore { book, version } => (book, restore(book, version).map_err(|failure| Ended::Failed(String::new(), failure))),
    };
    match done {
        Ok(text) => put_all(text.as_bytes()),
        Err(Ended::Refused(reasons)) => {
            reasons.iter().for_each(|reason| say(reason));
            1
        }
        Err(Ended::Failed(name, failure)) => {
            let name = if name.is_empty() { path.display().to_string() } else { name };
            failure.reasons().iter().for_each(|reason| say(&format!("{name}: {reason}")));
            failure.status()
        }
    }
}

#[cfg(test)]
mod tests {
    use super::*;

    #[test]
    fn what_changed_is_told_setting_by_setting() {
        let (before, mut after) = (Settings::default(), Settings::default());
        assert!(changes(&before, &after).is_empty());
        after.words[0] = 5;
        after.words[11] = 0.8f32.to_bits();
        assert_eq!(changes(&before, &after), ["k from 4 to 5", "seqsim from 0.9 to 0.8"]);
    }
}
