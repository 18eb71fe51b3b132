//! From a sheet's values to its text. Reading it again gives the same values.
use super::cells::letters_text;
use crate::job::Edition;
use crate::model::{Sequence, Sheet, LETTERS, SETTINGS};

fn sign_tells(sequence: &Sequence) -> bool {
    sequence.negative == (sequence.size < 0)
}

/// Size, letters, and the column `negative` only where a sign does not tell it.
fn tail(sequence: &Sequence, unusual: bool) -> Vec<String> {
    let mut cells = vec![sequence.size.to_string(), letters_text(&sequence.letters)];
    if unusual {
        cells.push(if sequence.negative { "yes" } else { "no" }.into());
    }
    cells
}

fn headings(words: &[&str], unusual: bool) -> Vec<String> {
    let extra: &[&str] = if unusual { &["negative"] } else { &[] };
    words.iter().chain(extra).map(|word| (*word).to_string()).collect()
}

fn variant_rows(sheet: &Sheet) -> Vec<Vec<String>> {
    let unusual = !sheet.variants.iter().all(|variant| sign_tells(&variant.sequence));
    let words: &[&str] = if sheet.numbered { &["variant", "record", "start", "end", "size", "letters"] } else { &["variant", "start", "end", "size", "letters"] };
    let mut rows = vec![headings(words, unusual)];
    for (row, variant) in sheet.variants.iter().enumerate() {
        let mut cells = vec![variant.name().to_string()];
        cells.extend(sheet.numbered.then(|| sheet.number(row).to_string()));
        cells.extend([variant.start.to_string(), variant.end.to_string()]);
        cells.extend(tail(&variant.sequence, unusual));
        rows.push(cells);
    }
    rows
}

fn part_rows(sheet: &Sheet) -> Vec<Vec<String>> {
    let unusual = !sheet.parts.iter().all(sign_tells);
    let named = !sheet.haplotypes.is_empty();
    let mut rows = vec![headings(if named { &["part", "haplotype", "size", "letters"] } else { &["part", "size", "letters"] }, unusual)];
    for (place, parts) in sheet.part_lists().into_iter().enumerate() {
        let name = sheet.haplotypes.get(place).map(|haplotype| haplotype.name.clone());
        if let Some(name) = name.clone().filter(|_| parts.is_empty()) {
            rows.push(vec![String::new(), name]);
        }
        for part in parts {
            let mut cells = vec![part.name.clone()];
            cells.extend(name.clone());
            cells.extend(tail(part, unusual));
            rows.push(cells);
        }
    }
    rows
}

/// All settings; `letters` only where the job has a place for it, since naming it asks for one that has.
fn setting_rows(sheet: &Sheet) -> Vec<Vec<String>> {
    let mut rows = vec![headings(&["setting", "value", "remark"], false)];
    let second = Edition::of(sheet) == Edition::Second;
    for (place, setting) in SETTINGS.iter().enumerate().filter(|(place, _)| second || *place != LETTERS) {
        let remark = format!("default {}; {}", setting.default, setting.meaning);
        rows.push(vec![setting.name.into(), sheet.settings.text(place), remark]);
    }
    rows
}

/// A name that begins with a quote, or holds a tab, is quoted.
pub fn cell(text: &str) -> String {
    if text.starts_with('"') || text.contains('\t') { format!("\"{}\"", text.replace('"', "\"\"")) } else { text.into() }
}

/// The sheet's text, tab-separated: settings, variants, parts.
pub fn written(sheet: &Sheet) -> String {
    let sections = [setting_rows(sheet), variant_rows(sheet), part_rows(sheet)];
    let texts = sections.map(|rows| {
        rows.iter().map(|cells| cells.iter().map(|text| cell(text)).collect::<Vec<_>>().join("\t") + "\n").collect::<String>()
    });
    texts.join("\n")
}
