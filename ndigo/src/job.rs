//! The job form of documents 01 and 02, byte for byte, in both editions: written from a sheet and read back. Its limits are the form's, not
//! the program's.
use crate::model::{self, Haplotype, Sequence, Settings, Sheet, Variant};
use crate::refusals::words;

/// The kinds of record. The editions differ in settings and variants alone.
pub const END: u8 = 0x00;
const SETTINGS: u8 = 0x01;
const VARIANT: u8 = 0x02;
const PART: u8 = 0x03;
const LETTERS: u8 = 0x04;
/// Begins the next haplotype (document 02, P1).
const NEXT: u8 = 0x05;
const SETTINGS_2: u8 = 0x11;
const VARIANT_2: u8 = 0x12;
/// How many haplotypes a job may carry.
pub const HAPLOTYPES_LIMIT: usize = 16;

/// How many letters a sequence may have, and how many one record holds.
pub const LETTERS_LIMIT: usize = 131_072;
const HELD: usize = 16;

/// Where the first edition's bodies end; what the second adds stands behind: `letters`, and a variant's record number.
const SETTINGS_BODY: usize = 40;
const VARIANT_BODY: usize = 25;

/// The length of a record of this kind with its byte of kind; none for a kind that there is not.
pub fn length_of(kind: u8) -> Option<usize> {
    let body = match kind {
        END | NEXT => 0,
        SETTINGS => SETTINGS_BODY,
        SETTINGS_2 => SETTINGS_BODY + 1,
        VARIANT => VARIANT_BODY,
        VARIANT_2 => VARIANT_BODY + 4,
        PART => 9,
        LETTERS => HELD,
        _ => return None,
    };
    Some(1 + body)
}

/// The editions of the form (document 02, P7). The second has a place for record numbers and for the setting `letters`.
#[derive(Clone, Copy, Debug, PartialEq, Eq)]
pub enum Edition {
    First,
    Second,
}

impl Edition {
    pub const ALL: [Self; 2] = [Self::First, Self::Second];

    /// The edition of a job whose first byte is this; none where no job begins so.
    pub fn begun_by(kind: u8) -> Option<Self> {
        Self::ALL.into_iter().find(|edition| edition.settings() == kind)
    }

    /// The edition of a sheet's job: the second where the sheet has a column `record` or the setting `letters`. A version of a book may
    /// set letters 1 where the sheet does not.
    pub fn of(sheet: &Sheet) -> Self {
        let settings = &sheet.settings;
        let second = sheet.numbered || settings.lines[model::LETTERS].is_some() || settings.words[model::LETTERS] != 0;
        if second { Self::Second } else { Self::First }
    }

    pub fn number(self) -> u32 {
        match self {
            Self::First => 1,
            Self::Second => 2,
        }
    }

    fn settings(self) -> u8 {
        match self {
            Self::First => SETTINGS,
            Self::Second => SETTINGS_2,
        }
    }

    fn variant(self) -> u8 {
        match self {
            Self::First => VARIANT,
            Self::Second => VARIANT_2,
        }
    }
}

/// How many bytes the job has. Counted and not made, since a sequence over its limit has no job.
pub fn length(sheet: &Sheet) -> usize {
    let edition = Edition::of(sheet);
    let letters: usize = sheet.sequences().map(|sequence| (sequence.letters.len() + HELD - 1) / HELD).sum();
    let (variants, parts, further) = (sheet.variants.len(), sheet.parts.len(), sheet.part_lists().len() - 1);
    let records = [(edition.settings(), 1), (edition.variant(), variants), (PART, parts), (LETTERS, letters), (NEXT, further), (END, 1)];
    records.into_iter().map(|(kind, count)| count * length_of(kind).unwrap_or(0)).sum()
}

/// What variants and parts have in common, and what the second edition has behind it; then the letters.
fn put_sequence(job: &mut Vec<u8>, sequence: &Sequence, behind: &[u8]) {
    job.extend(sequence.size.to_le_bytes());
    job.push(sequence.negative.into());
    job.extend((sequence.letters.len() as u32).to_le_bytes());
    job.extend(behind);
    for held in sequence.letters.chunks(HELD) {
        let mut body = [0; HELD];
        body[..held.len()].copy_from_slice(held);
        job.push(LETTERS);
        job.extend(body);
    }
}

fn put_settings(job: &mut Vec<u8>, settings: &Settings, edition: Edition) {
    let words = &settings.words;
    job.push(edition.settings());
    job.extend(words[..4].iter().map(|&word| word as u8));
    let rest = words[4..model::LETTERS].iter().chain(&words[model::LETTERS + 1..]);
    job.extend(rest.flat_map(|word| word.to_le_bytes()));
    if edition == Edition::Second {
        job.push(words[model::LETTERS] as u8);
    }
}

/// The job's bytes. A sequence over its letter limit has none, nor have letters other than 0 and 1: whoever asks has looked for them.
pub fn written(sheet: &Sheet) -> Vec<u8> {
    let edition = Edition::of(sheet);
    let mut job = Vec::new();
    put_settings(&mut job, &sheet.settings, edition);
    for (row, variant) in sheet.variants.iter().enumerate() {
        job.push(edition.variant());
        job.extend(variant.start.to_le_bytes());
        job.extend(variant.end.to_le_bytes());
        let number = (sheet.number(row) as u32).to_le_bytes();
        put_sequence(&mut job, &variant.sequence, if edition == Edition::Second { &number } else { &[] });
    }
    for (place, parts) in sheet.part_lists().into_iter().enumerate() {
        if place > 0 {
            job.push(NEXT);
        }
        for part in parts {
            job.push(PART);
            put_sequence(&mut job, part, &[]);
        }
    }
    job.push(END);
    job
}

/// The number of the form's first fault, and the byte at which the faulty record begins.
#[derive(Clone, Copy, Debug, PartialEq, Eq)]
pub struct FormFault {
    pub number: u32,
    pub place: usize,
}

impl std::fmt::Display for FormFault {
    fn fmt(&self, out: &mut std::fmt::Formatter<'_>) -> std::fmt::Result {
        write!(out, "refused {}: {}: ", self.number, words(self.number))?;
        if self.number == 25 { write!(out, "from byte {} on", self.place) } else { write!(out, "the record at byte {}", self.place) }
    }
}

/// Takes records off the front. Within a record the faults come in document 01's order.
struct Reader<'a> {
    data: &'a [u8],
    place: usize,
    record: usize,
}

impl<'a> Reader<'a> {
    fn fault<T>(&self, number: u32) -> Result<T, FormFault> {
        Err(FormFault { number, place: self.record })
    }

    /// The next record's kind and body: 20 comes before 21, and 21 before 22.
    fn take(&mut self, allowed: &[u8]) -> Result<(u8, &'a [u8]), FormFault> {
        self.record = self.place;
        let rest = &self.data[self.place..];
        let Some(&kind) = rest.first() else { return self.fault(21) };
        let Some(length) = length_of(kind) else { return self.fault(20) };
        if rest.len() < length {
            return self.fault(21);
        }
        if !allowed.contains(&kind) {
            return self.fault(22);
        }
        self.place += length;
        Ok((kind, &rest[1..length]))
    }

    fn flag(&self, byte: u8) -> Result<bool, FormFault> {
        if byte > 1 { self.fault(24) } else { Ok(byte == 1) }
    }

    /// The first record decides the edition.
    fn settings(&mut self) -> Result<(Edition, Settings), FormFault> {
        let (kind, body) = self.take(&Edition::ALL.map(Edition::settings))?;
        let (first, letters) = body.split_at(SETTINGS_BODY);
        for &byte in first[1..4].iter().chain(letters) {
            self.flag(byte)?;
        }
        let mut words = [0; 14];
        for (word, &byte) in words.iter_mut().zip(&first[..4]) {
            *word = byte.into();
        }
        let places = (4..model::LETTERS).chain(model::LETTERS + 1..words.len());
        for (place, bytes) in places.zip(first[4..].chunks_exact(4)) {
            words[place] = number(bytes) as u32;
        }
        // the first edition reads as letters 0
        words[model::LETTERS] = number(letters) as u32;
        Ok((if kind == SETTINGS { Edition::First } else { Edition::Second }, Settings::of_words(words)))
    }

    /// The variant of this row, which has a record number in the second edition.
    fn variant(&mut self, body: &[u8], row: usize) -> Result<Variant, FormFault> {
        let (first, record) = body.split_at(VARIANT_BODY);
        let sequence = self.sequence(&first[16..], format!("row-{row}"))?;
        let record = (!record.is_empty()).then(|| number(record) as u32);
        Ok(Variant { start: number(&first[..8]), end: number(&first[8..16]), record, sequence })
    }

    /// The end of a variant's or a part's body, and the letters that it owes: just enough records, zeros after the last letter.
    fn sequence(&mut self, body: &[u8], name: String) -> Result<Sequence, FormFault> {
        let size = number(&body[..4]) as u32 as i32;
        let negative = self.flag(body[4])?;
        let count = number(&body[5..]) as usize;
        if count > LETTERS_LIMIT {
            return self.fault(13);
        }
        let mut letters = Vec::with_capacity(count);
        while letters.len() < count {
            letters.extend_from_slice(self.take(&[LETTERS])?.1);
            if letters.iter().skip(count).any(|&byte| byte != 0) {
                return self.fault(23);
            }
        }
        letters.truncate(count);
        Ok(Sequence { name, size, negative, letters, line: 0 })
    }
}

/// A number from its bytes, the lowest first; no byte is 0.
fn number(bytes: &[u8]) -> u64 {
    bytes.iter().rev().fold(0, |number, &byte| number << 8 | u64::from(byte))
}

/// The haplotypes of a job that has several, by where each but the last ends and how many parts there are.
fn haplotypes(mut ends: Vec<usize>, parts: usize) -> Vec<Haplotype> {
    if !ends.is_empty() {
        ends.push(parts);
    }
    ends.into_iter().enumerate().map(|(place, end)| Haplotype { name: format!("hap-{place}"), end }).collect()
}

/// The job that the bytes hold. It has no names: its rows, parts and, where there are several, haplotypes are named by their places. One of
/// the first edition has no record numbers.
pub fn read(data: &[u8]) -> Result<Sheet, FormFault> {
    let mut reader = Reader { data, place: 0, record: 0 };
    let (edition, settings) = reader.settings()?;
    let mut sheet = Sheet { settings, numbered: edition == Edition::Second, ..Sheet::default() };
    // where each haplotype but the last ends
    let mut ends: Vec<usize> = Vec::new();
    let records = [edition.variant(), PART, NEXT, END];
    loop {
        // no variant stands behind a part or a further haplotype
        let allowed = if sheet.parts.is_empty() && ends.is_empty() { &records[..] } else { &records[1..] };
        match reader.take(allowed)? {
            (VARIANT | VARIANT_2, body) => {
                let variant = reader.variant(body, sheet.variants.len())?;
                sheet.variants.push(variant);
            }
            (PART, body) => {
                let part = reader.sequence(body, format!("part-{}", sheet.parts.len()))?;
                sheet.parts.push(part);
            }
            (NEXT, _) if ends.len() + 1 == HAPLOTYPES_LIMIT => return reader.fault(27),
            (NEXT, _) => ends.push(sheet.parts.len()),
            _ if reader.place < data.len() => return Err(FormFault { number: 25, place: reader.place }),
            _ => {
                sheet.haplotypes = haplotypes(ends, sheet.parts.len());
                return Ok(sheet);
            }
        }
    }
}
