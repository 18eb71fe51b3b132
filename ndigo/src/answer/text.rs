//! The answer in words.
use crate::float;
use crate::model::{counted, Sheet, MAXPATHS, SEQSIM, SIZESIM};
use crate::refusals::Refusal;
use crate::search::{used_parts, without_thresholds, Own};
use crate::warnings::{self, Warning};
use ndigomarr::{Answer, Target};

pub fn decimal(value: f32) -> String {
    float::text(value.to_bits())
}

/// One line for each row of the path, the names under each other.
fn row_lines(sheet: &Sheet, answer: &Answer) -> Vec<String> {
    let names = answer.rows.iter().map(|&row| sheet.variants[row].name().chars().count());
    let width = names.max().unwrap_or(0);
    let digits = answer.records.iter().map(|record| record.to_string().len()).max().unwrap_or(0);
    answer.rows.iter().zip(&answer.records).map(|(&row, record)| {
        let v = &sheet.variants[row];
        let shown = if sheet.numbered { format!("  record {record:digits$}") } else { String::new() };
        let place = if sheet.numbered { String::new() } else { format!(", row {row} from 0") };
        format!("  {:width$}{shown}  {} to {}, size {} (line {} of the sheet{place})", v.name(), v.start, v.end, v.sequence.size, v.line())
    }).collect()
}

pub fn path_lines(sheet: &Sheet, answer: &Answer) -> Vec<String> {
    if answer.target == Target::Nothing {
        let of = if answer.complete { "" } else { " of those scored" };
        return vec![format!("none: no path{of} passed the thresholds with a score above 0")];
    }
    if answer.rows.is_empty() {
        return vec!["the empty one: no row is needed to explain the parts".into()];
    }
    let mut lines = vec![format!("{} of {}, in this order:", answer.rows.len(), counted(sheet.variants.len(), "row"))];
    lines.extend(row_lines(sheet, answer));
    lines
}

fn parts_words(sheet: &Sheet, answer: &Answer) -> String {
    parts_words_of(sheet, answer, || used_parts(sheet, answer))
}

/// The same where it may be known which parts were used.
pub fn parts_words_of(sheet: &Sheet, answer: &Answer, used: impl FnOnce() -> Option<Vec<usize>>) -> String {
    let count = sheet.parts.len();
    let left_out = match answer.target {
        Target::Nothing => return "none was matched".into(),
        Target::Whole if count == 0 => return "the haplotype has none".into(),
        Target::Whole if count == 1 => return "the one part was used, none was left out".into(),
        Target::Whole => return format!("all {count} were used, none was left out"),
        Target::Partial(left_out) => left_out as usize,
    };
    let verb = if left_out == 1 { "was" } else { "were" };
    let which = used().map_or(String::new(), |used| {
        let names = sheet.parts.iter().enumerate().filter(|(part, _)| !used.contains(part)).map(|(_, part)| part.name.as_str());
        format!(": {}", names.collect::<Vec<_>>().join(", "))
    });
    format!("{left_out} {verb} left out of {count}{which}")
}

fn search_words(sheet: &Sheet, answer: &Answer) -> String {
    if sheet.one_to_one() {
        let rows = counted(sheet.variants.len(), "row");
        return format!("one-to-one: each of {rows} was tried alone, and the two ends of the graph, {} in all; paths of several rows were not tried", answer.scored);
    }
    let scored = format!("{} {}", counted(answer.scored as usize, "path"), if answer.scored == 1 { "was" } else { "were" });
    if answer.complete {
        return format!("{scored} scored, and that is all of them: no path of this table scores higher");
    }
    format!("{scored} scored and then the search STOPPED EARLY (maxpaths {}, and one more); there are others, and BETTER ONES MAY EXIST", sheet.settings.words[MAXPATHS])
}

fn tie_words(sheet: &Sheet) -> String {
    let which = if sheet.one_to_one() { "rows that score the same, the last on the sheet" } else { "paths that score the same, the one scored last" };
    format!("of {which} is the answer; others may be just as good")
}

fn beside_threshold(name: &str, value: f32, threshold: u32) -> String {
    let passes = if value < f32::from_bits(threshold) { "below" } else { "not below" };
    format!("its {name} is {}, {passes} the threshold {}", decimal(value), float::text(threshold))
}

/// Why no path scores above 0, whatever the thresholds.
fn no_path(sheet: &Sheet, answer: &Answer) -> String {
    let settings = sheet.settings.to_library();
    let other = "the signs of the sizes differ, or the penalties take all";
    if sheet.parts.is_empty() && settings.pileupmax > 0 {
        let which = if sheet.haplotype().is_some() { "haplotype" } else { "sheet" };
        return format!("the {which} has no parts, so there is no part list that a path could match");
    }
    if sheet.one_to_one() {
        return format!("even with sizesim and seqsim at 0 no row is a candidate: one needs seqsim above 0 and a score above 0, and here the letters share nothing, {other}");
    }
    if settings.squish && (!settings.full || answer.scored == 1) {
        let early = if answer.complete { "" } else { "; the search stopped early" };
        return format!("only the empty path was scored, and with squish it accepts no part list{early}");
    }
    if !settings.full {
        return format!("full is no, so only the empty path exists, and even with sizesim and seqsim at 0 it does not score above 0: {other}");
    }
    if !answer.complete {
        let scored = format!("{} that {} scored", counted(answer.scored as usize, "path"), if answer.scored == 1 { "was" } else { "were" });
        return format!("even with sizesim and seqsim at 0 none of the {scored} is above 0; the search stopped early, and others may be");
    }
    format!("even with sizesim and seqsim at 0 no path scores above 0: {other}")
}

/// Why nothing was found: the best path with both thresholds at 0, beside those that stopped it.
pub fn why(sheet: &Sheet, answer: &Answer) -> Vec<String> {
    let Some(free) = without_thresholds(sheet) else { return vec![no_path(sheet, answer)] };
    let best = if free.complete { "the best path" } else { "the best path of those scored" };
    let mut lines = vec![format!("with sizesim and seqsim at 0 {best} is{}", if free.rows.is_empty() { " the empty one" } else { "" })];
    lines.extend(row_lines(sheet, &free));
    let words = &sheet.settings.words;
    lines.push(format!("{}; {}", beside_threshold("sizesim", free.sizesim, words[SIZESIM]), beside_threshold("seqsim", free.seqsim, words[SEQSIM])));
    lines.push(format!("its score is {}, and of the parts {}", decimal(free.score), parts_words(sheet, &free)));
    lines
}

pub fn titled(title: &str, lines: Vec<String>) -> Lines {
    lines.into_iter().enumerate().map(|(at, words)| (if at == 0 { title.into() } else { String::new() }, words)).collect()
}

/// A title and its words, each line of them.
pub type Lines = Vec<(String, String)>;

pub fn printed(lines: &Lines) -> String {
    lines.iter().map(|(title, words)| format!("{title:8}{words}\n")).collect()
}

/// One haplotype's answer, in a sheet of its own. A search that stopped early is said first; what stands above the path comes then.
fn block(sheet: &Sheet, answer: &Answer, above: Lines) -> String {
    let search = titled("search", vec![search_words(sheet, answer)]);
    let mut lines = if answer.complete { vec![] } else { search.clone() };
    lines.extend(above);
    lines.extend(titled("path", path_lines(sheet, answer)));
    if answer.target == Target::Nothing {
        lines.extend(titled("why", why(sheet, answer)));
    }
    let similar = format!("{} (sizesim {}, seqsim {})", decimal(answer.score), decimal(answer.sizesim), decimal(answer.seqsim));
    lines.extend(titled("score", vec![similar]));
    lines.extend(titled("parts", vec![parts_words(sheet, answer)]));
    if answer.complete {
        lines.extend(search);
    }
    lines.extend(titled("ties", vec![tie_words(sheet)]));
    printed(&lines)
}

/// One answer with notes and warnings above its path; of several each under its haplotype's name, with notes and warnings above all.
pub fn text(sheet: &Sheet, answers: &[Own], notes: &[String]) -> String {
    text_with(sheet, answers, notes, |_, _| String::new())
}

/// The same with more below each answer, told of the haplotype in a sheet of its own.
pub fn text_with(sheet: &Sheet, answers: &[Own], notes: &[String], more: impl Fn(&Sheet, &Answer) -> String) -> String {
    let above = above(notes, &warnings::of_rows(sheet));
    let each = sheet.each();
    if let ([Ok(answer)], [own]) = (answers, &each[..]) {
        return block(own, answer, above) + &more(own, answer);
    }
    let told = answers.iter().zip(&each).map(|(answer, own)| {
        let words = match answer {
            Ok(answer) => block(own, answer, vec![]) + &more(own, answer),
            Err(reasons) => reasons.iter().map(|reason| format!("{reason}\n")).collect(),
        };
        format!("haplotype {}\n{words}", own.haplotype().unwrap_or_default())
    });
    let above = Some(printed(&above)).filter(|above| !above.is_empty());
    above.into_iter().chain(told).collect::<Vec<_>>().join("\n")
}

fn above(notes: &[String], warnings: &[Warning]) -> Lines {
    let notes = notes.iter().map(|note| ("note".to_string(), note.clone()));
    notes.chain(warnings.iter().map(|warning| ("warning".to_string(), warning.to_string()))).collect()
}

/// A refusal: every reason, with notes and warnings above.
pub fn refused(sheet: &Sheet, reasons: &[Refusal], notes: &[String]) -> String {
    let mut text = printed(&above(notes, &warnings::of_rows(sheet)));
    for reason in reasons {
        text += &format!("{reason}\n");
    }
    text
}
