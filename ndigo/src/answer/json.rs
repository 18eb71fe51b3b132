//! An answer as one JSON object on one line. The fields are stable: new ones may come.
use super::{left_out, target_word};
use crate::model::Sheet;
use crate::refusals::Refusal;
use crate::search::{used_parts, without_thresholds, Own};
use ndigomarr::{Answer, Target};
use serde::Serialize;

/// Decimal and bits: the decimal is the shortest that reads back as the bits.
#[derive(Serialize)]
struct Float {
    decimal: f32,
    bits: String,
}

#[derive(Serialize)]
struct Row<'a> {
    name: &'a str,
    row: usize,
    record: u32,
    start: u64,
    end: u64,
    size: i32,
    line: usize,
}

#[derive(Serialize)]
struct Found<'a> {
    path: Vec<Row<'a>>,
    score: Float,
    sizesim: Float,
    seqsim: Float,
    target: &'static str,
    left_out: Option<u32>,
    used_parts: Option<Vec<&'a str>>,
    scored: u32,
    complete: bool,
}

#[derive(Serialize)]
struct Document<'a> {
    file: &'a str,
    refused: Option<u32>,
    reasons: Vec<String>,
    answer: Option<Found<'a>>,
    /// The best path with both thresholds at 0, where nothing was found.
    without_thresholds: Option<Found<'a>>,
    /// Null where the sheet names none.
    haplotype: Option<&'a str>,
    /// Which version of which book they are; left out where they are the sheet's own.
    #[serde(skip_serializing_if = "Option::is_none")]
    settings: Option<&'a str>,
}

fn float(value: f32) -> Float {
    Float { decimal: value, bits: format!("{:08x}", value.to_bits()) }
}

fn found<'a>(sheet: &'a Sheet, answer: &Answer) -> Found<'a> {
    let rows = answer.rows.iter().zip(&answer.records);
    let path = rows.map(|(&row, &record)| {
        let v = &sheet.variants[row];
        Row { name: v.name(), row, record, start: v.start, end: v.end, size: v.sequence.size, line: v.line() }
    });
    let used = used_parts(sheet, answer).map(|used| used.iter().map(|&part| sheet.parts[part].name.as_str()).collect());
    Found {
        path: path.collect(),
        score: float(answer.score),
        sizesim: float(answer.sizesim),
        seqsim: float(answer.seqsim),
        target: target_word(answer),
        left_out: left_out(answer),
        used_parts: used,
        scored: answer.scored,
        complete: answer.complete,
    }
}

/// Of a haplotype in a sheet of its own.
pub fn document(file: &str, sheet: &Sheet, answer: &Own) -> String {
    let nothing = answer.as_ref().is_ok_and(|answer| answer.target == Target::Nothing);
    let free = if nothing { without_thresholds(sheet) } else { None };
    let reasons = answer.as_ref().err().map_or(&[][..], |reasons| &reasons[..]);
    let document = Document {
        file,
        refused: reasons.first().map(|reason| reason.number),
        reasons: reasons.iter().map(Refusal::to_string).collect(),
        answer: answer.as_ref().ok().map(|answer| found(sheet, answer)),
        without_thresholds: free.map(|free| found(sheet, &free)),
        haplotype: sheet.haplotype(),
        settings: sheet.settings.version.as_deref(),
    };
    serde_json::to_string(&document).map_or_else(|fault| format!("{{\"error\":\"{fault}\"}}\n"), |text| text + "\n")
}
