//! Heading rows: which section they begin, what parts their cells, and which columns are known.
use super::split::{cells, Delimiter, DELIMITERS};
use crate::fault::Fault;

/// A section of a sheet: its word, the columns that must follow it, and those that may.
pub struct Section {
    pub word: &'static str,
    pub needed: &'static [&'static str],
    pub optional: &'static [&'static str],
}

pub const SETTING: usize = 0;
pub const VARIANT: usize = 1;
const PART: usize = 2;

pub const SECTIONS: [Section; 3] = [
    Section { word: "setting", needed: &["value"], optional: &["remark"] },
    Section { word: "variant", needed: &["start", "end", "size", "letters"], optional: &["record", "negative", "remark"] },
    Section { word: "part", needed: &["size", "letters"], optional: &["haplotype", "negative", "remark"] },
];

impl Section {
    pub fn columns(&self) -> impl Iterator<Item = &'static str> {
        self.needed.iter().chain(self.optional).copied()
    }

    /// How much a line looks like this section's heading row; 0 where it does not. Nearly the right word counts most, then the
    /// headings, then that none is missing: a part's headings are a variant's too.
    fn likeness(&self, words: &[String], delimiter: Delimiter) -> usize {
        let known = words.iter().skip(1).filter(|word| self.needed.contains(&word.as_str())).count();
        // so it is with most lines, and comparing their first words with the section's takes long
        if known == 0 {
            return 0;
        }
        let near = nearest(&words[0], std::iter::once(self.word)).is_some();
        let whole = known == self.needed.len();
        // prose may well hold the one or two headings of a part or a setting
        let enough = known >= 2 || (known == 1 && near);
        if enough && ((whole && (near || known > 2)) || no_prose(words, delimiter, known)) { 10 * usize::from(near) + 2 * known + usize::from(whole) } else { 0 }
    }

    fn known(&self, word: &str) -> Option<&'static str> {
        std::iter::once(self.word).chain(self.columns()).find(|known| *known == word)
    }
}

/// Single blanks part the words of a title or a remark too: there half of those after the first must be headings.
fn no_prose(words: &[String], delimiter: Delimiter, known: usize) -> bool {
    let filled = words.iter().skip(1).filter(|word| !word.is_empty()).count();
    delimiter != Delimiter::Blanks(1) || 2 * known >= filled
}

/// Heading rows are words; a longer line holds letters.
const LONGEST: usize = 2000;

/// A heading row as it was read. A column without a heading that we know is none.
#[derive(Clone, Debug)]
pub struct Heading {
    pub section: usize,
    pub delimiter: Delimiter,
    pub line: usize,
    pub columns: Vec<Option<&'static str>>,
    /// The words as they stand there, in small letters.
    words: Vec<String>,
}

/// What a heading row says that is not whole: faults, and the columns that are passed over.
#[derive(Default)]
pub struct Found {
    pub faults: Vec<Fault>,
    pub passed_over: Vec<String>,
}

impl Heading {
    /// A row begins a section where its first cell is the section's word and, if others are filled, one of them is a heading
    /// of that section, or between single blanks half of them, or none is missing: so a line of prose that begins with "part" is
    /// none. The delimiter that tells most headings is the row's.
    pub fn of(line_text: &str, line: usize) -> Option<Self> {
        // most lines are rows, some with very many letters: their first letters tell that they are no heading row
        let front = line_text.trim_start_matches(['"', ' ', '\t']).as_bytes();
        let begins = |section: &Section| front.get(..section.word.len()).is_some_and(|word| word.eq_ignore_ascii_case(section.word.as_bytes()));
        if !SECTIONS.iter().any(begins) {
            return None;
        }
        let mut best: Option<(usize, Self)> = None;
        for delimiter in DELIMITERS {
            let Ok(words) = cells(&line_text.to_lowercase(), delimiter) else { continue };
            let Some(section) = SECTIONS.iter().position(|section| section.word == words[0]) else { continue };
            let heading = Self::with(section, delimiter, line, words);
            let known = heading.columns.iter().flatten().count() - 1;
            let alone = heading.words[1..].iter().all(String::is_empty);
            let whole = heading.section().needed.iter().all(|name| heading.column(name).is_some());
            let told = known > 0 && (whole || no_prose(&heading.words, delimiter, known));
            if (told || alone) && best.as_ref().map_or(true, |(most, _)| known > *most) {
                best = Some((known, heading));
            }
        }
        best.map(|(_, heading)| heading)
    }

    /// A line that has two headings of a section in it, or one and nearly the section's word, was meant as a heading row and must be
    /// neither passed over nor read as a row: what begins it, and the heading row that it would be.
    pub fn meant(line_text: &str, line: usize) -> Option<(String, Self)> {
        if line_text.len() > LONGEST {
            return None;
        }
        for delimiter in DELIMITERS {
            let Ok(mut words) = cells(&line_text.to_lowercase(), delimiter) else { continue };
            let likeness = |section: &usize| SECTIONS[*section].likeness(&words, delimiter);
            let Some(section) = [PART, VARIANT, SETTING].into_iter().filter(|section| likeness(section) > 0).max_by_key(likeness) else { continue };
            let first = std::mem::replace(&mut words[0], SECTIONS[section].word.into());
            return Some((first, Self::with(section, delimiter, line, words)));
        }
        None
    }

    fn with(section: usize, delimiter: Delimiter, line: usize, mut words: Vec<String>) -> Self {
        while words.last().is_some_and(String::is_empty) {
            words.pop();
        }
        let columns = words.iter().map(|word| SECTIONS[section].known(word)).collect();
        Self { section, delimiter, line, columns, words }
    }

    pub fn section(&self) -> &'static Section {
        &SECTIONS[self.section]
    }

    /// The column of this heading, from 0.
    pub fn column(&self, heading: &str) -> Option<usize> {
        self.columns.iter().position(|known| *known == Some(heading))
    }

    fn fault(&self, column: usize, what: String, instead: String) -> Fault {
        Fault { line: self.line, column, heading: None, what, instead }
    }

    /// Repeated and missing headings are faults; unknown ones are passed over.
    pub fn found(&self) -> Found {
        let mut found = Found::default();
        let known = self.section().columns().collect::<Vec<_>>().join(", ");
        for (place, word) in self.words.iter().enumerate().skip(1) {
            let column = place + 1;
            if word.is_empty() {
                continue;
            } else if self.words[..place].contains(word) {
                found.faults.push(self.fault(column, format!("the heading \"{word}\" stands here twice"), "keep one of the two columns".into()));
            } else if self.columns[place].is_none() {
                let hint = nearest(word, self.section().columns()).map_or(String::new(), |near| format!(", is \"{near}\" meant?"));
                found.passed_over.push(format!("\"{word}\" (line {}, column {column}{hint})", self.line));
            }
        }
        for heading in self.section().needed.iter().filter(|heading| self.column(heading).is_none()) {
            let instead = format!("write it above its column; the headings here are {known}");
            found.faults.push(self.fault(self.words.len() + 1, format!("the heading \"{heading}\" is missing"), instead));
        }
        found
    }
}

/// The candidate that differs by the fewest letters, if by at most a third of the word.
pub fn nearest<'a>(word: &str, candidates: impl Iterator<Item = &'a str>) -> Option<&'a str> {
    let most = (word.chars().count() / 3).max(1);
    candidates.map(|candidate| (distance(word, candidate), candidate)).filter(|(apart, _)| *apart <= most).min().map(|(_, near)| near)
}

/// How many letters must be put in, taken out or changed.
fn distance(a: &str, b: &str) -> usize {
    let b: Vec<char> = b.chars().collect();
    let mut row: Vec<usize> = (0..=b.len()).collect();
    for (i, letter) in a.chars().enumerate() {
        let mut corner = row[0];
        row[0] = i + 1;
        for (j, other) in b.iter().enumerate() {
            let changed = corner + usize::from(letter != *other);
            corner = row[j + 1];
            row[j + 1] = changed.min(corner + 1).min(row[j] + 1);
        }
    }
    row[b.len()]
}

#[cfg(test)]
mod tests {
    use super::*;

    #[test]
    fn the_heading_row_tells_the_delimiter() {
        for (text, delimiter) in [
            ("variant\tstart\tend\tsize\tletters", Delimiter::Character('\t')),
            ("Variant,Start,End,size,letters", Delimiter::Character(',')),
            ("variant;start;end;size;letters", Delimiter::Character(';')),
            ("variant  start   end  size  letters", Delimiter::Blanks(2)),
            ("variant start end size letters", Delimiter::Blanks(1)),
        ] {
            let heading = Heading::of(text, 1).unwrap();
            assert_eq!(heading.delimiter, delimiter, "{text}");
            assert!(heading.found().faults.is_empty());
        }
    }

    #[test]
    fn prose_is_no_heading_row() {
        for text in ["part of the survey, by Anna", "", "name\tstart", "variants\tstart", "the variant\tstart", "variant start positions from the survey"] {
            assert!(Heading::of(text, 1).is_none(), "{text}");
        }
    }

    #[test]
    fn near_words() {
        assert_eq!(distance("kitten", "sitting"), 3);
        assert_eq!(nearest("strat", ["start", "end"].into_iter()), None);
        assert_eq!(nearest("maxpath", ["maxpaths", "maxnodes"].into_iter()), Some("maxpaths"));
        assert_eq!(nearest("negativ", ["record", "negative"].into_iter()), Some("negative"));
        assert_eq!(nearest("depth", ["record", "negative", "remark"].into_iter()), None);
    }
}
