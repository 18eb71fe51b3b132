//! An answer as one tab-separated row. The headings are stable: new ones go to the end.
use super::{left_out, target_word};
use crate::float;
use crate::model::Sheet;
use crate::search::Own;
use ndigomarr::Answer;

pub const TABLE_HEADINGS: [&str; 16] = [
    "file", "refused", "names", "rows", "records", "score", "score_bits", "sizesim", "sizesim_bits", "seqsim", "seqsim_bits", "target", "left_out", "scored",
    "complete", "haplotype",
];

/// Parted by commas.
pub fn parted_by_commas<T: ToString>(values: impl Iterator<Item = T>) -> String {
    values.map(|value| value.to_string()).collect::<Vec<_>>().join(",")
}

/// A name as a cell of the comma-separated list: one that holds a comma or a quote is quoted.
fn listed(name: &str) -> String {
    if name.contains([',', '"']) { format!("\"{}\"", name.replace('"', "\"\"")) } else { name.to_string() }
}

/// The names of the answer's rows, parted by commas.
pub fn listed_names(sheet: &Sheet, answer: &Answer) -> String {
    parted_by_commas(answer.rows.iter().map(|&row| listed(sheet.variants[row].name())))
}

fn both(value: f32) -> [String; 2] {
    [float::text(value.to_bits()), format!("{:08x}", value.to_bits())]
}

/// The headings of a call that names a version: one more, which tells it.
pub fn table_headings(versioned: bool) -> Vec<&'static str> {
    let version = if versioned { Some("settings") } else { None };
    TABLE_HEADINGS.into_iter().chain(version).collect()
}

/// The cells under the headings, of a haplotype in a sheet of its own.
pub fn table_row(file: &str, sheet: &Sheet, answer: &Own) -> Vec<String> {
    let mut cells = answer_cells(file, sheet, answer);
    cells.extend(sheet.settings.version.clone());
    cells
}

/// A refusal fills the first two and the haplotype only.
fn answer_cells(file: &str, sheet: &Sheet, answer: &Own) -> Vec<String> {
    let answer = match answer {
        Ok(answer) => answer,
        Err(reasons) => {
            let mut cells = vec![String::new(); TABLE_HEADINGS.len()];
            cells[0] = file.into();
            cells[1] = reasons.first().map_or(String::new(), |reason| reason.number.to_string());
            cells[15] = sheet.haplotype().unwrap_or_default().into();
            return cells;
        }
    };
    let mut cells = vec![file.into(), String::new(), listed_names(sheet, answer), parted_by_commas(answer.rows.iter()), parted_by_commas(answer.records.iter())];
    cells.extend([answer.score, answer.sizesim, answer.seqsim].into_iter().flat_map(both));
    cells.push(target_word(answer).into());
    cells.push(left_out(answer).map_or(String::new(), |parts| parts.to_string()));
    cells.extend([answer.scored.to_string(), if answer.complete { "yes" } else { "no" }.into(), sheet.haplotype().unwrap_or_default().into()]);
    cells
}
