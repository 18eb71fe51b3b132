//! From lines to a sheet: which lines are rows, and what each row adds.
use super::cells::{self, Whole, Wrong};
use super::headings::{nearest, Heading, SECTIONS, SETTING, VARIANT};
use super::split::{self, Delimiter};
use super::Read;
use crate::fault::Fault;
use crate::model::{counted, place_of, Haplotype, Kind, Sequence, Variant, SETTINGS};
use std::collections::HashMap;

/// The reader's state between lines.
#[derive(Default)]
struct Reader {
    read: Read,
    heading: Option<Heading>,
    /// The line of each section's heading row.
    begun: [Option<usize>; 3],
    /// Lines above the first heading row, and columns, that are passed over.
    above: Vec<(usize, String)>,
    columns: Vec<String>,
    /// Cells such as 1,200, as they stand.
    commas: Vec<String>,
    names: [HashMap<String, usize>; 3],
    /// The haplotypes in the order in which they are first named, and the parts with the place of theirs.
    haplotypes: Vec<String>,
    parts: Vec<(usize, Sequence)>,
}

/// One line under a heading.
struct Row<'a> {
    line: usize,
    heading: &'a Heading,
    cells: Vec<String>,
}

impl Row<'_> {
    fn has(&self, heading: &str) -> bool {
        self.heading.column(heading).is_some()
    }

    fn text(&self, heading: &str) -> &str {
        self.heading.column(heading).and_then(|column| self.cells.get(column)).map_or("", String::as_str)
    }

    fn fault(&self, heading: &str, (what, instead): Wrong) -> Fault {
        let column = self.heading.column(heading).map_or(self.cells.len(), |column| column) + 1;
        Fault { line: self.line, column, heading: Some(heading.to_string()), what, instead }
    }
}

pub fn read(lines: &[&str]) -> Read {
    let mut reader = Reader::default();
    for (place, text) in lines.iter().enumerate() {
        reader.line(place + 1, text);
    }
    reader.finish()
}

fn wrong<T>(what: impl Into<String>, instead: impl Into<String>) -> Result<T, Wrong> {
    Err((what.into(), instead.into()))
}

/// A line that begins with # is a remark. Where tabs part the cells it may fill one cell only; elsewhere a remark's own words may
/// look like cells, so only a line with a number where one belongs is taken for a row, and told.
fn row_named_by_a_hash(heading: &Heading, cells: &[String]) -> bool {
    if heading.delimiter == Delimiter::Character('\t') {
        return cells[1..].iter().any(|cell| !cell.is_empty());
    }
    let columns: Vec<usize> = ["start", "end", "size"].iter().filter_map(|name| heading.column(name)).collect();
    let number = |column: &usize| cells.get(*column).is_some_and(|cell| cells::whole(cell, i128::MIN, i128::MAX).is_ok());
    columns.iter().any(number)
}

/// Whether numbers and values stand where the headings want them.
fn fits(heading: &Heading, cells: &[String]) -> bool {
    let good = |name: &str, cell: &String| if name == "value" { !cell.is_empty() } else { cells::whole(cell, i128::MIN, i128::MAX).is_ok() };
    let columns = heading.section().needed.iter().filter(|name| **name != "letters").filter_map(|name| Some((*name, heading.column(name)?)));
    columns.into_iter().all(|(name, column)| cells.get(column).is_some_and(|cell| good(name, cell)))
}

/// Whether a line is a row under this heading beyond doubt: any word could be a setting's value, so a setting's name is asked for.
fn is_row(heading: &Heading, text: &str) -> bool {
    let whole = heading.section().needed.iter().all(|name| heading.column(name).is_some());
    let named = |cells: &[String]| heading.section != SETTING || place_of(&cells[0].to_lowercase()).is_some();
    whole && cells_under(heading, text).is_ok_and(|cells| fits(heading, &cells) && named(&cells))
}

/// Where a run of two blanks parts the cells, a long name may leave one only: then single blanks part them if that fits. Where
/// single blanks do, a remark in the last column may still be of several words.
fn cells_under(heading: &Heading, text: &str) -> Result<Vec<String>, usize> {
    let cells = split::cells(text, heading.delimiter)?;
    let single = match heading.delimiter {
        Delimiter::Blanks(1) => Some(cells.clone()),
        Delimiter::Blanks(_) if !fits(heading, &cells) => Some(split::cells(text, Delimiter::Blanks(1))?).filter(|single| fits(heading, single)),
        _ => None,
    };
    Ok(single.map_or(cells, |mut single| {
        if heading.columns.last() == Some(&Some("remark")) {
            single.truncate(heading.columns.len());
        }
        single
    }))
}

/// In a row of commas with cells too many: the first number that its own comma parted, if joining such numbers makes it fit.
fn parted_number(heading: &Heading, cells: &[String], from: usize) -> Option<(usize, String)> {
    if heading.delimiter != Delimiter::Character(',') || cells.len() <= heading.columns.len() {
        return None;
    }
    let numbers = (from..heading.columns.len()).filter(|&at| matches!(heading.columns[at], Some("start" | "end" | "size" | "record" | "value")));
    numbers.into_iter().find_map(|at| {
        let number = format!("{},{}", cells[at], cells[at + 1]);
        cells::whole(&number, i128::MIN, i128::MAX).ok()?;
        let joined = [&cells[..at], &[number.clone()], &cells[at + 2..]].concat();
        let letters = heading.column("letters").and_then(|column| joined.get(column)).map_or(true, |letters| cells::letters(letters).is_ok());
        let good = joined.len() == heading.columns.len() && letters && fits(heading, &joined);
        (good || parted_number(heading, &joined, at + 1).is_some()).then_some((at, number))
    })
}

impl Reader {
    fn fault(&mut self, line: usize, column: usize, what: impl Into<String>, instead: impl Into<String>) {
        self.read.faults.push(Fault { line, column, heading: None, what: what.into(), instead: instead.into() });
    }

    fn line(&mut self, line: usize, text: &str) {
        if text.chars().all(|letter| letter.is_whitespace() || matches!(letter, ',' | ';' | '"')) {
            return;
        }
        if let Some(heading) = Heading::of(text, line) {
            return self.begin(heading);
        }
        // a row's remark may hold the words of headings
        let row = |reader: &Self| reader.heading.as_ref().is_some_and(|heading| is_row(heading, text));
        if let Some((first, heading)) = Heading::meant(text, line).filter(|_| !row(self)) {
            let instead = format!("write \"{}\" there, and the names below it", heading.section().word);
            self.fault(line, 1, format!("\"{first}\" begins what looks like a heading row"), instead);
            return self.begin(heading);
        }
        match self.heading.take() {
            None if text.trim_start().starts_with('#') => {}
            None => self.above.push((line, text.trim().chars().take(40).collect())),
            Some(heading) => {
                self.under(&heading, line, text);
                self.heading = Some(heading);
            }
        }
    }

    fn begin(&mut self, heading: Heading) {
        let word = heading.section().word;
        if let Some(earlier) = self.begun[heading.section] {
            self.fault(heading.line, 1, format!("the heading \"{word}\" stood on line {earlier} already"), "put its rows under that one");
        } else {
            self.begun[heading.section] = Some(heading.line);
        }
        self.read.sheet.numbered |= heading.column("record").is_some();
        let found = heading.found();
        self.read.faults.extend(found.faults);
        self.columns.extend(found.passed_over);
        self.heading = Some(heading);
    }

    fn under(&mut self, heading: &Heading, line: usize, text: &str) {
        let cells = match cells_under(heading, text) {
            Ok(cells) => cells,
            Err(column) => {
                let what = "a cell begins with a quote and is not closed by one";
                return self.fault(line, column, what, "close it; write a quote inside twice, and no line break");
            }
        };
        if cells[0].starts_with('#') {
            if row_named_by_a_hash(heading, &cells) {
                self.fault(line, 1, format!("the name \"{}\" begins with #", cells[0]), "write another name; a remark fills one cell only");
            }
            return;
        }
        if let Some((column, number)) = parted_number(heading, &cells, 1) {
            let wrong = (format!("\"{number}\" is parted by its own comma"), format!("quote it: \"{number}\""));
            let fault = Row { line, heading, cells }.fault(heading.columns[column].unwrap_or_default(), wrong);
            return self.read.faults.push(fault);
        }
        for (place, cell) in cells.iter().enumerate().skip(heading.columns.len()).filter(|(_, cell)| !cell.is_empty()) {
            self.fault(line, place + 1, format!("no heading stands above this cell, \"{cell}\""), "write one above it, or empty the cell");
        }
        let row = Row { line, heading, cells };
        match heading.section {
            SETTING => self.setting(&row),
            VARIANT => self.variant(&row),
            _ => self.part(&row),
        }
    }

    /// The value, or none with the fault kept.
    fn kept<T>(&mut self, row: &Row, heading: &str, value: Result<T, Wrong>) -> Option<T> {
        value.map_err(|wrong| self.read.faults.push(row.fault(heading, wrong))).ok()
    }

    fn name(&mut self, row: &Row) -> Option<String> {
        let word = row.heading.section().word;
        let name = row.text(word).to_string();
        let earlier = self.names[row.heading.section].get(&name).copied();
        let value = if name.is_empty() {
            wrong("the name is missing", "write one")
        } else if name.chars().any(char::is_control) {
            wrong(format!("the name \"{}\" holds a character that cannot be printed", name.escape_debug()), "write it without")
        } else if let Some(earlier) = earlier {
            wrong(format!("the name \"{name}\" stood on line {earlier} already"), "write another name")
        } else {
            Ok(name.clone())
        };
        self.names[row.heading.section].entry(name).or_insert(row.line);
        self.kept(row, word, value)
    }

    fn whole(&mut self, row: &Row, heading: &str, low: i128, high: i128) -> Option<i128> {
        if !row.has(heading) {
            return None;
        }
        let text = row.text(heading);
        let value = if text.is_empty() { wrong(format!("the {heading} is missing"), format!("write a whole number from {low} to {high}")) } else { cells::whole(text, low, high) };
        let Whole { value, commas } = self.kept(row, heading, value)?;
        if commas {
            self.commas.push(format!("{text} as {value} (line {})", row.line));
        }
        Some(value)
    }

    /// The record number; the outer none is a fault, the inner one a sheet without the column. One that another variant has is left to the
    /// rules, which refuse it.
    fn record(&mut self, row: &Row) -> Option<Option<u32>> {
        if !row.has("record") {
            return Some(None);
        }
        if row.text("record").is_empty() {
            let missing = wrong("the record number is missing", "write one for every variant, or leave the whole column out");
            return self.kept(row, "record", missing);
        }
        Some(Some(self.whole(row, "record", 0, u32::MAX.into())? as u32))
    }

    /// What variants and parts have in common; none where any of it is a fault.
    fn sequence(&mut self, row: &Row, name: Option<String>) -> Option<Sequence> {
        let size = self.whole(row, "size", i32::MIN.into(), i32::MAX.into());
        let letters = self.kept(row, "letters", cells::letters(row.text("letters")));
        let below = size.is_some_and(|size| size < 0);
        let negative = match row.text("negative") {
            "" => Some(below),
            text => self.kept(row, "negative", cells::flag(text)),
        };
        Some(Sequence { name: name?, size: size? as i32, negative: negative?, letters: letters?, line: row.line })
    }

    fn variant(&mut self, row: &Row) {
        let name = self.name(row);
        let record = self.record(row);
        let start = self.whole(row, "start", 0, u64::MAX.into());
        let end = self.whole(row, "end", 0, u64::MAX.into());
        let sequence = self.sequence(row, name);
        if let (Some(record), Some(start), Some(end), Some(sequence)) = (record, start, end, sequence) {
            self.read.sheet.variants.push(Variant { start: start as u64, end: end as u64, record, sequence });
        }
    }

    /// The place of the row's haplotype, 0 on a sheet that names none; none where it is a fault.
    fn haplotype(&mut self, row: &Row) -> Option<usize> {
        if !row.has("haplotype") {
            return Some(0);
        }
        let name = row.text("haplotype");
        if name.is_empty() {
            return self.kept(row, "haplotype", wrong("the haplotype is missing", "write its name for every part, or leave the whole column out"));
        }
        if name.chars().any(char::is_control) {
            let what = format!("the name \"{}\" holds a character that cannot be printed", name.escape_debug());
            return self.kept(row, "haplotype", wrong(what, "write it without"));
        }
        let place = self.haplotypes.iter().position(|known| known == name);
        Some(place.unwrap_or_else(|| {
            self.haplotypes.push(name.to_string());
            self.haplotypes.len() - 1
        }))
    }

    fn part(&mut self, row: &Row) {
        let haplotype = self.haplotype(row);
        // a row that names a haplotype and nothing else is a haplotype of no parts, or says where it stands
        let alone = row.heading.column("haplotype").is_some_and(|column| row.cells.iter().enumerate().all(|(at, cell)| at == column || cell.is_empty()));
        if alone && haplotype.is_some() {
            return;
        }
        let name = self.name(row);
        let part = self.sequence(row, name);
        self.parts.extend(haplotype.zip(part));
    }

    /// The parts one haplotype's behind the other's, each as they stood.
    fn lay_parts(&mut self) {
        self.parts.sort_by_key(|(haplotype, _)| *haplotype);
        for (place, name) in self.haplotypes.iter().enumerate() {
            let end = self.parts.partition_point(|(haplotype, _)| *haplotype <= place);
            self.read.sheet.haplotypes.push(Haplotype { name: name.clone(), end });
        }
        self.read.sheet.parts = self.parts.drain(..).map(|(_, part)| part).collect();
    }

    fn setting(&mut self, row: &Row) {
        let name = row.text("setting").to_lowercase();
        let Some(place) = place_of(&name) else {
            let names = SETTINGS.iter().map(|setting| setting.name);
            let instead = match nearest(&name, names.clone()) {
                Some(near) => format!("is \"{near}\" meant?"),
                None => format!("they are {}", names.collect::<Vec<_>>().join(", ")),
            };
            let unknown: Result<(), Wrong> = wrong(format!("no setting is called \"{name}\""), instead);
            self.kept(row, "setting", unknown);
            return;
        };
        if let Some(earlier) = self.read.sheet.settings.lines[place] {
            let twice: Result<(), Wrong> = wrong(format!("\"{name}\" was set on line {earlier} already"), "keep one of the two lines");
            self.kept(row, "setting", twice);
            return;
        }
        self.read.sheet.settings.lines[place] = Some(row.line);
        if let Some(word) = self.value(row, SETTINGS[place].kind) {
            self.read.sheet.settings.words[place] = word;
        }
    }

    fn value(&mut self, row: &Row, kind: Kind) -> Option<u32> {
        let text = row.text("value");
        if !row.has("value") {
            return None;
        }
        if text.is_empty() {
            let missing = wrong("the value is missing", "write one, or leave the whole line out for the default");
            return self.kept(row, "value", missing);
        }
        match kind {
            Kind::Flag => self.kept(row, "value", cells::flag(text)).map(u32::from),
            Kind::Float => self.kept(row, "value", cells::float(text)),
            Kind::Byte => self.whole(row, "value", 0, 255).map(|value| value as u32),
            Kind::Count => self.whole(row, "value", 0, u32::MAX.into()).map(|value| value as u32),
        }
    }

    fn finish(mut self) -> Read {
        self.lay_parts();
        if self.begun.iter().all(Option::is_none) && self.read.faults.is_empty() {
            self.no_heading();
        } else if let [(first, text), rest @ ..] = &self.above[..] {
            let last = rest.last().map_or(String::new(), |(last, _)| format!(" to {last}"));
            let lines = counted(self.above.len(), "line");
            self.read.notes.push(format!("{lines} above the first heading row passed over: line {first}{last}, \"{text}\""));
        }
        if !self.columns.is_empty() {
            self.read.notes.push(format!("{} not known and passed over: {}", counted(self.columns.len(), "column"), self.columns.join(", ")));
        }
        if let [first, rest @ ..] = &self.commas[..] {
            let more = if rest.is_empty() { String::new() } else { format!(", and {} more", rest.len()) };
            self.read.notes.push(format!("commas taken as parting thousands: {first}{more}"));
        }
        self.read
    }

    fn no_heading(&mut self) {
        let words = SECTIONS.iter().map(|section| format!("\"{}\"", section.word)).collect::<Vec<_>>().join(", ");
        let (line, what) = match self.above.first() {
            Some((line, text)) => (*line, format!("no heading row stands here or below; this is \"{text}\"")),
            None => (1, "the sheet is empty: it has no heading row".into()),
        };
        self.fault(line, 1, what, format!("write a heading row whose first cell is one of {words}, such as: variant start end size letters"));
    }
}
