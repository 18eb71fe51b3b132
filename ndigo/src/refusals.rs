//! Refusals that can be told before running, each with its line. The library decides; this says why in the sheet's own words.
use crate::job::{Edition, HAPLOTYPES_LIMIT, LETTERS_LIMIT};
use crate::model::{counted, place_of, Sequence, Sheet, Variant, K, LETTERS, SETTINGS};
use std::collections::HashMap;

/// Document 01's table: number, name and words of each refusal, parted by tabs.
const TABLE: &str = include_str!("../../docs/refusals.tsv");
const TABLE_LIMIT: usize = 64;
const SIZE_LIMIT: u32 = 131_072;
const FLOAT_LIMITS: [(&str, f32); 4] = [("sizesim", 1.0), ("seqsim", 1.0), ("fpenalty", 1000.0), ("gpenalty", 1000.0)];
const COUNT_LIMITS: [(&str, u32); 5] =
    [("maxpaths", 4095), ("maxnodes", 65_535), ("fnmax", 65_535), ("pileupmax", 12), ("minkfreq", 16_777_216)];

/// The table's words for a number.
pub fn words(number: u32) -> &'static str {
    let wanted = number.to_string();
    let mut rows = TABLE.lines().map(|line| line.split('\t'));
    rows.find_map(|mut cells| (cells.next()? == wanted).then(|| cells.nth(1))?).unwrap_or("a number that is not in the table of refusals")
}

#[derive(Clone, Debug, PartialEq, Eq)]
pub struct Refusal {
    pub number: u32,
    pub reason: String,
    /// None where no one line did it.
    pub line: Option<usize>,
    /// The haplotype that alone is refused; none where all of the sheet is.
    pub haplotype: Option<String>,
}

impl std::fmt::Display for Refusal {
    fn fmt(&self, out: &mut std::fmt::Formatter<'_>) -> std::fmt::Result {
        out.write_str(&self.told_of("the whole sheet"))
    }
}

impl Refusal {
    /// In words; `whole` is what refuses where no one line and no one haplotype does.
    pub fn told_of(&self, whole: &str) -> String {
        let place = match (self.line, &self.haplotype) {
            (Some(line), None) => format!("line {line}"),
            (None, None) => whole.into(),
            (Some(line), Some(name)) => format!("haplotype \"{name}\": line {line}"),
            (None, Some(name)) => format!("haplotype \"{name}\""),
        };
        let reason = if self.reason.is_empty() { String::new() } else { format!(": {}", self.reason) };
        format!("{place}: refused {}: {}{reason}", self.number, words(self.number))
    }

    /// The same of one haplotype alone.
    pub fn of_haplotype(self, own: &Sheet) -> Self {
        Self { haplotype: own.haplotype().map(str::to_string), ..self }
    }

    /// A refusal of the library's that is not foretold here.
    pub fn of_number(number: u32) -> Self {
        Self { number, reason: String::new(), line: None, haplotype: None }
    }
}

fn at(number: u32, line: usize, reason: String) -> Refusal {
    Refusal { number, reason, line: (line > 0).then_some(line), haplotype: None }
}

/// Sequences that neither the form nor the counter takes.
pub fn long_sequences(sheet: &Sheet) -> Vec<Refusal> {
    let long = sheet.sequences().filter(|sequence| sequence.letters.len() > LETTERS_LIMIT);
    long.map(|s| at(13, s.line, format!("\"{}\" has {} letters, the limit is {LETTERS_LIMIT}", s.name, s.letters.len()))).collect()
}

/// A setting that is refused, with its line where the sheet names it.
fn of_setting(sheet: &Sheet, number: u32, place: usize, limit: &str) -> Refusal {
    let reason = format!("{} is {}, {limit}", SETTINGS[place].name, sheet.settings.text(place));
    Refusal { number, reason, line: sheet.settings.lines[place], haplotype: None }
}

fn bad_k(sheet: &Sheet) -> Vec<Refusal> {
    let good = (1..=6).contains(&sheet.settings.words[K]);
    if good { vec![] } else { vec![of_setting(sheet, 1, K, "it must be 1 to 6")] }
}

/// A reading of letters that there is not: a 3 of the library, and a 24 where the form has it as a flag.
pub fn bad_letters(sheet: &Sheet, number: u32) -> Vec<Refusal> {
    let good = sheet.settings.words[LETTERS] <= 1;
    if good { vec![] } else { vec![of_setting(sheet, number, LETTERS, "it must be 0 or 1")] }
}

/// What the job form cannot say of a sheet, front to back.
pub fn of_form(sheet: &Sheet) -> Vec<Refusal> {
    [bad_letters(sheet, 24), long_sequences(sheet)].concat()
}

/// What is asked before the table, in the library's order. Letters are counted before a search begins, and the counter looks at k, at the
/// reading and at how many they are; where there is nothing to count, the search itself looks at the reading, last of the settings.
fn before_the_table(sheet: &Sheet) -> Vec<Refusal> {
    let letters = bad_letters(sheet, 3);
    let (first, last) = if sheet.sequences().next().is_some() { (letters, vec![]) } else { (vec![], letters) };
    [bad_k(sheet), first, long_sequences(sheet), bad_settings(sheet), last].concat()
}

/// What the settings alone are refused by.
pub fn of_settings(sheet: &Sheet) -> Vec<Refusal> {
    [bad_k(sheet), bad_settings(sheet), bad_letters(sheet, 3)].concat()
}

fn bad_settings(sheet: &Sheet) -> Vec<Refusal> {
    let words = &sheet.settings.words;
    let mut found = Vec::new();
    for (place, limit) in FLOAT_LIMITS.iter().filter_map(|(name, limit)| Some((place_of(name)?, limit))) {
        // a NaN is never between
        if !(0.0..=*limit).contains(&f32::from_bits(words[place])) {
            found.push(of_setting(sheet, 2, place, &format!("it must be 0 to {limit}")));
        }
    }
    for (place, limit) in COUNT_LIMITS.iter().filter_map(|(name, limit)| Some((place_of(name)?, limit))) {
        if words[place] > *limit {
            found.push(of_setting(sheet, 3, place, &format!("the limit is {limit}")));
        }
    }
    found
}

fn over(count: usize, thing: &str, first_over: Option<usize>) -> Option<Refusal> {
    first_over.map(|line| at(5, line, format!("{}, the limit is {TABLE_LIMIT}", counted(count, thing))))
}

/// Another row than the one that is told of; the rows of a job have no lines.
fn with_line(variant: &Variant) -> String {
    let place = if variant.line() > 0 { format!(" on line {}", variant.line()) } else { String::new() };
    format!("\"{}\"{place}", variant.name())
}

/// Each row whose record number an earlier row has. Row numbers are never repeated.
fn repeated_numbers(variants: &[Variant]) -> Vec<Refusal> {
    let mut first: HashMap<u32, &Variant> = HashMap::new();
    let mut found = Vec::new();
    for (v, number) in variants.iter().filter_map(|v| Some((v, v.record?))) {
        if let Some(earlier) = first.get(&number) {
            let reason = format!("\"{}\" has record {number}, and so has {}; write a number that no other variant has", v.name(), with_line(earlier));
            found.push(at(14, v.line(), reason));
        } else {
            first.insert(number, v);
        }
    }
    found
}

fn bad_table(sheet: &Sheet) -> Vec<Refusal> {
    let mut found = Vec::new();
    if sheet.variants.is_empty() {
        found.push(at(4, 0, "the sheet has no row under the heading variant".into()));
    }
    if sheet.haplotypes.len() > HAPLOTYPES_LIMIT {
        found.push(at(27, 0, format!("{}, the limit is {HAPLOTYPES_LIMIT}", counted(sheet.haplotypes.len(), "haplotype"))));
    }
    found.extend(over(sheet.variants.len(), "variant", sheet.variants.get(TABLE_LIMIT).map(|variant| variant.line())));
    found.extend(over_parts(&sheet.parts));
    for v in sheet.variants.iter().filter(|v| v.start > v.end) {
        found.push(at(7, v.line(), format!("\"{}\" starts at {} and ends at {}", v.name(), v.start, v.end)));
    }
    for pair in sheet.variants.windows(2).filter(|pair| pair[1].start < pair[0].start) {
        let (before, v) = (&pair[0], &pair[1]);
        let reason = format!("\"{}\" starts at {}, but {} starts at {}; sort the rows by start, or call with --sort", v.name(), v.start, with_line(before), before.start);
        found.push(at(8, v.line(), reason));
    }
    found.extend(repeated_numbers(&sheet.variants));
    found.extend(large_sizes(sheet.sequences()));
    let (k, letters) = (sheet.settings.words[K], sheet.settings.words[LETTERS]);
    found.extend(sheet.variants.iter().filter_map(|variant| no_window(variant, k, letters)));
    found
}

/// What k may be where the longest stretch of letters that are counted has this length.
fn smaller_k(longest: usize) -> String {
    match longest {
        0 => String::new(),
        1 => " set k to 1,".into(),
        _ => format!(" set k to {longest} or less,"),
    }
}

/// A variant's row is all zero exactly where no window is counted: each is with one sign. That is where it has fewer letters than k, and with
/// letters 1 where every window holds one that was not read. Of a k or a reading that is refused nothing is said.
fn no_window(variant: &Variant, k: u32, letters: u32) -> Option<Refusal> {
    let sequence = &variant.sequence;
    if !(1..=6).contains(&k) || letters > 1 || sequence.windows(k, letters) > 0 {
        return None;
    }
    let (count, unread) = (sequence.letters.len(), sequence.unread());
    let has = if count == 0 { "no letters".into() } else { counted(count, "letter") };
    let window = counted(k as usize, "letter");
    let k_instead = smaller_k(sequence.stretches(letters).into_iter().max().unwrap_or(0));
    let words = if letters == 0 || unread == 0 {
        format!("\"{}\" has {has} and k is {k}: it has no window of {window}, so nothing can match it; write all its letters,{k_instead}", variant.name())
    } else {
        let counts = if count >= k as usize { " set letters to 0, so that each counts as A," } else { "" };
        let nothing = format!("with letters 1 it has no window of {window}, so nothing can match it");
        format!("\"{}\" has {has}, {unread} of them not A, G, C or T, and k is {k}: {nothing}; write the letters that were read,{k_instead}{counts}", variant.name())
    };
    Some(at(16, variant.line(), format!("{words} or leave the row out")))
}

fn over_parts(parts: &[Sequence]) -> Option<Refusal> {
    over(parts.len(), "part", parts.get(TABLE_LIMIT).map(|part| part.line))
}

fn large_sizes<'a>(sequences: impl Iterator<Item = &'a Sequence>) -> Vec<Refusal> {
    let large = sequences.filter(|sequence| sequence.size.unsigned_abs() > SIZE_LIMIT);
    large.map(|s| at(9, s.line, format!("\"{}\" has size {}, the limit is {SIZE_LIMIT}", s.name, s.size))).collect()
}

/// Why a job is not moved to an edition: it is of that one already, or the first has no place for what it says.
pub fn of_move(job: &Sheet, asked: Edition) -> Vec<Refusal> {
    let edition = asked.number();
    if Edition::of(job) == asked {
        return vec![at(22, 0, format!("it is of edition {edition} already; take it as it is, or write --edition {}", 3 - edition))];
    }
    let instead = "leave the job in edition 2, or make a sheet of it with `ndigo show` and take the column record and the setting letters out";
    let mut found = Vec::new();
    let others: Vec<usize> = (0..job.variants.len()).filter(|&row| job.number(row) != row as u64).collect();
    if let Some(&row) = others.first() {
        let such = if others.len() > 1 { format!(", the first of {} such rows", others.len()) } else { String::new() };
        let lost = "edition 1 has no place for record numbers and takes each row's own number";
        found.push(at(28, 0, format!("row {row} has record {}{such}; {lost}: {instead}", job.number(row))));
    }
    if job.settings.words[LETTERS] == 1 {
        let lost = "edition 1 has no place for letters and counts each letter other than A, G, C and T as A";
        found.push(at(29, 0, format!("windows that hold an unread letter are left out; {lost}: {instead}")));
    }
    found
}

/// All that a sheet can bring on itself, in the order in which the library asks. Not here: 6, 11 and 12 (fitting room is lent), 10 (letters within 13 give rows within 10).
pub fn of(sheet: &Sheet) -> Vec<Refusal> {
    [before_the_table(sheet), bad_table(sheet)].concat()
}

/// With several haplotypes: what refuses the whole sheet. The haplotypes' own sizes and numbers of parts are not asked.
pub fn of_whole(sheet: &Sheet) -> Vec<Refusal> {
    let table = Sheet { haplotypes: sheet.haplotypes.clone(), ..sheet.without_parts() };
    [before_the_table(sheet), bad_table(&table)].concat()
}

/// What refuses one of several haplotypes alone.
pub fn of_parts(own: &Sheet) -> Vec<Refusal> {
    let found = over_parts(&own.parts).into_iter().chain(large_sizes(own.parts.iter()));
    found.map(|refusal| refusal.of_haplotype(own)).collect()
}
