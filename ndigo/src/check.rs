//! All that can be told of a sheet before running: faults, refusals, warnings and notes.
use crate::fault::Fault;
use crate::job::{self, Edition};
use crate::model::counted;
use crate::refusals::{self, Refusal};
use crate::search;
use crate::sheet::Read;
use crate::warnings::{self, Warning};
use serde::Serialize;

pub const TABLE_HEADINGS: [&str; 6] = ["file", "kind", "line", "column", "number", "words"];

pub struct Checked<'a> {
    pub read: &'a Read,
    pub refusals: Vec<Refusal>,
    pub warnings: Vec<Warning>,
}

impl<'a> Checked<'a> {
    /// A sheet with faults is not whole, so nothing more is said of it.
    pub fn of(read: &'a Read) -> Self {
        let whole = read.faults.is_empty();
        Self {
            read,
            refusals: if whole { search::refused(&read.sheet) } else { vec![] },
            warnings: if whole { warnings::of(&read.sheet) } else { vec![] },
        }
    }

    pub fn status(&self) -> u8 {
        if !self.read.faults.is_empty() { 2 } else { u8::from(!self.refusals.is_empty()) }
    }

    pub fn text(&self) -> String {
        let mut lines: Vec<String> = self.read.notes.iter().map(|note| format!("note    {note}")).collect();
        lines.extend(self.warnings.iter().map(|warning| format!("warning {warning}")));
        lines.extend(self.refusals.iter().map(Refusal::to_string));
        lines.push(self.last_line());
        lines.join("\n") + "\n"
    }

    /// None where the sheet is not whole.
    fn job_bytes(&self) -> Option<usize> {
        self.read.faults.is_empty().then(|| job::length(&self.read.sheet))
    }

    fn job_words(&self) -> String {
        let sheet = &self.read.sheet;
        let edition = match Edition::of(sheet) {
            Edition::First => "",
            Edition::Second => " in edition 2",
        };
        format!("a job of {} bytes{edition}", job::length(sheet))
    }

    fn last_line(&self) -> String {
        let sheet = &self.read.sheet;
        match self.refusals.first() {
            None => {
                let named = if sheet.haplotypes.is_empty() { String::new() } else { format!("{}, ", counted(sheet.haplotypes.len(), "haplotype")) };
                let (variants, parts) = (counted(sheet.variants.len(), "variant"), counted(sheet.parts.len(), "part"));
                format!("nothing to refuse: {variants}, {named}{parts}, {}", self.job_words())
            }
            Some(first) if first.haplotype.is_some() => format!("{} to refuse some of the haplotypes; the library gives each its first", counted(self.refusals.len(), "reason")),
            Some(first) => format!("{} to refuse; the library gives the first: refused {}", counted(self.refusals.len(), "reason"), first.number),
        }
    }

    /// One row for each thing that is told.
    pub fn table_rows(&self, file: &str) -> Vec<Vec<String>> {
        let row = |kind: &str, line: Option<usize>, column: Option<usize>, number: Option<u32>, words: String| {
            let told = |value: Option<String>| value.unwrap_or_default();
            vec![file.to_string(), kind.into(), told(line.map(|n| n.to_string())), told(column.map(|n| n.to_string())), told(number.map(|n| n.to_string())), words]
        };
        let mut rows: Vec<Vec<String>> = Vec::new();
        rows.extend(self.read.notes.iter().map(|note| row("note", None, None, None, note.clone())));
        rows.extend(self.read.faults.iter().map(|f| row("fault", Some(f.line), Some(f.column), None, format!("{}; {}", f.what, f.instead))));
        rows.extend(self.warnings.iter().map(|w| row("warning", w.line, None, None, w.words.clone())));
        rows.extend(self.refusals.iter().map(|r| row("refusal", r.line, None, Some(r.number), r.haplotype.as_ref().map_or(String::new(), |name| format!("haplotype \"{name}\": ")) + &r.reason)));
        rows
    }

    pub fn document(&self, file: &str) -> String {
        let sheet = &self.read.sheet;
        let document = Document {
            file,
            status: self.status(),
            variants: sheet.variants.len(),
            parts: sheet.parts.len(),
            haplotypes: sheet.haplotypes.iter().map(|haplotype| haplotype.name.as_str()).collect(),
            job_bytes: self.job_bytes(),
            faults: self.read.faults.iter().map(FaultFields::of).collect(),
            refusals: self.refusals.iter().map(RefusalFields::of).collect(),
            warnings: &self.warnings,
            notes: &self.read.notes,
        };
        serde_json::to_string(&document).map_or_else(|fault| format!("{{\"error\":\"{fault}\"}}\n"), |text| text + "\n")
    }
}

#[derive(Serialize)]
struct FaultFields<'a> {
    line: usize,
    column: usize,
    heading: Option<&'a str>,
    what: &'a str,
    instead: &'a str,
}

impl<'a> FaultFields<'a> {
    fn of(fault: &'a Fault) -> Self {
        Self { line: fault.line, column: fault.column, heading: fault.heading.as_deref(), what: &fault.what, instead: &fault.instead }
    }
}

#[derive(Serialize)]
struct RefusalFields<'a> {
    number: u32,
    line: Option<usize>,
    haplotype: Option<&'a str>,
    words: &'static str,
    reason: &'a str,
}

impl<'a> RefusalFields<'a> {
    fn of(refusal: &'a Refusal) -> Self {
        Self { number: refusal.number, line: refusal.line, haplotype: refusal.haplotype.as_deref(), words: refusals::words(refusal.number), reason: &refusal.reason }
    }
}

#[derive(Serialize)]
struct Document<'a> {
    file: &'a str,
    status: u8,
    variants: usize,
    parts: usize,
    haplotypes: Vec<&'a str>,
    job_bytes: Option<usize>,
    faults: Vec<FaultFields<'a>>,
    refusals: Vec<RefusalFields<'a>>,
    warnings: &'a [Warning],
    notes: &'a [String],
}
