//! What is allowed and yet hardly meant: said in `check` and above every answer.
use crate::model::{counted, is_read, Sequence, Sheet, Variant, K, LETTERS, MAXPATHS};
use crate::search::{foretold, Foretold};
use serde::Serialize;

#[derive(Clone, Debug, PartialEq, Eq, Serialize)]
pub struct Warning {
    /// None where no one line did it.
    pub line: Option<usize>,
    pub words: String,
}

impl std::fmt::Display for Warning {
    fn fmt(&self, out: &mut std::fmt::Formatter<'_>) -> std::fmt::Result {
        match self.line {
            Some(line) => write!(out, "line {line}: {}", self.words),
            None => write!(out, "{}", self.words),
        }
    }
}

fn on_line(line: usize, words: String) -> Warning {
    Warning { line: (line > 0).then_some(line), words }
}

fn on_sheet(words: impl Into<String>) -> Warning {
    Warning { line: None, words: words.into() }
}

/// What becomes of letters that were not read; of a reading that is refused nothing is said.
fn read_as(s: &Sequence, k: u32, letters: u32) -> String {
    let windows = s.windows(k, 0);
    match letters {
        0 => "; each counts as A, and with letters 1 the windows that hold one are left out".into(),
        1 if (1..=6).contains(&k) && windows > 0 => format!("; with letters 1 the windows that hold one are left out: {} of {windows} are counted", s.windows(k, 1)),
        1 => "; with letters 1 the windows that hold one are left out".into(),
        _ => String::new(),
    }
}

fn strange_letters(s: &Sequence, k: u32, letters: u32) -> Option<Warning> {
    let count = s.unread();
    let place = s.letters.iter().position(|&letter| !is_read(letter))?;
    let first = char::from(s.letters[place]).escape_debug();
    let all = counted(s.letters.len(), "letter");
    let verb = if count == 1 { "is" } else { "are" };
    let words = format!("\"{}\": {count} of {all} {verb} not A, G, C or T, the first is {first} at letter {}", s.name, place + 1);
    Some(on_line(s.line, words + &read_as(s, k, letters)))
}

/// Of a part: a variant without windows is refused.
const NO_WINDOWS: &str = "it has no windows and adds nothing to seqsim, which is 0 where no windows are compared";

fn few_letters(s: &Sequence, k: u32, letters: u32) -> Option<Warning> {
    let count = s.letters.len();
    let words = if count == 0 {
        format!("\"{}\" has no letters: {NO_WINDOWS}", s.name)
    } else if (1..=6).contains(&k) && count < k as usize {
        format!("\"{}\" has {}, fewer than k {k}: {NO_WINDOWS}", s.name, counted(count, "letter"))
    } else if (1..=6).contains(&k) && s.windows(k, letters) == 0 {
        format!("\"{}\" has {} and no window of {k} that letters 1 keeps: {NO_WINDOWS}", s.name, counted(count, "letter"))
    } else {
        return None;
    };
    Some(on_line(s.line, words))
}

fn other_size(s: &Sequence) -> Option<Warning> {
    let count = s.letters.len();
    let unequal = count > 0 && u64::from(s.size.unsigned_abs()) != count as u64;
    unequal.then(|| on_line(s.line, format!("\"{}\" has size {} and {}; they are compared each by itself", s.name, s.size, counted(count, "letter"))))
}

fn span_of_a_deletion(v: &Variant) -> Option<Warning> {
    let span = v.end.checked_sub(v.start).filter(|span| *span > 0)?;
    let size = v.sequence.size;
    (size > 0).then(|| on_line(v.line(), format!(
        "\"{}\" spans {span} ({} to {}) as a deletion does, and its size is above 0: {size}; a deletion is written -{size}, and an insertion has start = end",
        v.name(), v.start, v.end
    )))
}

/// Counted from 1 with the end counted in, a place between two letters has an end one below its start, and a deletion a span one
/// below its size.
fn counted_from_one(variants: &[Variant]) -> Vec<Warning> {
    const HERE: &str = "here starts count from 0 and the end is not counted in: take 1 from every start (docs/COORDINATES.md)";
    let crossed = variants.iter().filter(|v| v.start.checked_sub(1) == Some(v.end));
    let mut found: Vec<Warning> = crossed.map(|v| {
        on_line(v.line(), format!("\"{}\" ends at {}, one below its start {}, as where places count from 1; {HERE}", v.name(), v.end, v.start))
    }).collect();
    let deletions: Vec<&Variant> = variants.iter().filter(|v| v.sequence.size < 0).collect();
    let short = |v: &&Variant| v.end.checked_sub(v.start) == Some(u64::from(v.sequence.size.unsigned_abs()) - 1);
    if !deletions.is_empty() && deletions.iter().all(short) {
        found.push(on_sheet(format!("every deletion spans one less than its size, as where places count from 1; {HERE}")));
    }
    found
}

/// What rows and parts say.
pub fn of_rows(sheet: &Sheet) -> Vec<Warning> {
    let (k, letters) = (sheet.settings.words[K], sheet.settings.words[LETTERS]);
    let mut found: Vec<Warning> = Vec::new();
    for sequence in sheet.sequences() {
        found.extend(strange_letters(sequence, k, letters));
        found.extend(other_size(sequence));
    }
    found.extend(sheet.parts.iter().filter_map(|part| few_letters(part, k, letters)));
    found.extend(sheet.variants.iter().filter_map(span_of_a_deletion));
    found.extend(counted_from_one(&sheet.variants));
    if sheet.parts.is_empty() {
        found.push(on_sheet("the sheet has no parts: there is nothing to explain"));
    } else {
        let without = sheet.each().into_iter().filter(|own| own.parts.is_empty());
        found.extend(without.map(|own| on_sheet(format!("haplotype \"{}\" has no parts: there is nothing to explain", own.haplotype().unwrap_or_default()))));
    }
    // by line, and what is said of the whole sheet last
    found.sort_by_key(|warning| warning.line.unwrap_or(usize::MAX));
    found
}

/// That the search will stop early, where the chain count says so.
pub fn stops_early(sheet: &Sheet) -> Option<Warning> {
    let maxpaths = u64::from(sheet.settings.words[MAXPATHS]);
    let scored = maxpaths + 1;
    let instead = if maxpaths < 4095 { "raise maxpaths, up to 4095, or leave out variants that can be ruled out" } else { "leave out variants that can be ruled out" };
    match foretold(sheet) {
        Foretold::ScoresAll => None,
        Foretold::StopsEarly => Some(on_sheet(format!(
            "the table has more paths than the {scored} that are scored (maxpaths {maxpaths}, and one more): the search will stop early, and better paths may exist; {instead}"
        ))),
        Foretold::Open => Some(on_sheet(format!(
            "the table has {scored} paths or more, and {scored} are scored (maxpaths {maxpaths}, and one more): the search will stop early unless these are all"
        ))),
    }
}

pub fn of(sheet: &Sheet) -> Vec<Warning> {
    let mut found = of_rows(sheet);
    found.extend(stops_early(sheet));
    found
}
