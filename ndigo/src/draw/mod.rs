//! The table and the parts as a picture, with the chosen path marked.
mod names;
mod panels;
mod scale;
mod svg;

use crate::float;
use crate::model::{counted, Sheet};
use crate::refusals::words;
use crate::search::{used_parts, Own};
use ndigomarr::{Answer, Target};

/// What is known of a part after a search.
#[derive(Clone, Copy, Debug, PartialEq, Eq)]
pub enum Use {
    Unknown,
    Used,
    LeftOut,
}

/// What a picture says beside the sheet itself.
pub struct Marks {
    pub title: String,
    pub caption: String,
    pub rows: Vec<usize>,
    pub parts: Vec<Use>,
}

/// The rows of --rows: ascending numbers from 0, or none.
pub fn given_rows(text: &str, length: usize) -> Result<Vec<usize>, String> {
    if text == "none" {
        return Ok(vec![]);
    }
    let rows: Option<Vec<usize>> = text.split(',').map(|number| number.parse().ok().filter(|_| number.bytes().all(|byte| byte.is_ascii_digit()))).collect();
    let Some(rows) = rows else { return Err(format!("--rows takes row numbers such as 0,3 or the word none; this is \"{text}\"")) };
    let rise = rows.windows(2).all(|pair| pair[0] < pair[1]);
    if !rise || rows.last().is_some_and(|last| *last >= length) {
        return Err(format!("--rows must rise, and the sheet's rows are 0 to {}; this is {text}", length.saturating_sub(1)));
    }
    Ok(rows)
}

fn caption(sheet: &Sheet, answer: &Answer) -> String {
    let searched = if sheet.one_to_one() {
        "Each row was tried alone.".into()
    } else if answer.complete {
        format!("All {} were scored.", counted(answer.scored as usize, "path"))
    } else {
        format!("STOPPED EARLY: only {} scored, better ones may exist.", counted(answer.scored as usize, "path"))
    };
    let found = match answer.target {
        Target::Nothing => "No path matched".into(),
        _ if answer.rows.is_empty() => "The empty path is the answer".into(),
        _ => format!("The path has {} of {}", answer.rows.len(), counted(sheet.variants.len(), "row")),
    };
    format!("{found}, score {}. {searched}", float::text(answer.score.to_bits()))
}

fn uses(sheet: &Sheet, answer: &Answer) -> Vec<Use> {
    match used_parts(sheet, answer) {
        Some(used) => (0..sheet.parts.len()).map(|part| if used.contains(&part) { Use::Used } else { Use::LeftOut }).collect(),
        None => vec![Use::Unknown; sheet.parts.len()],
    }
}

/// The picture of one haplotype's answer, or of its refusal.
fn of_one(sheet: &Sheet, title: &str, answer: &Own) -> svg::Picture {
    let title = sheet.haplotype().map_or(title.into(), |name| format!("{title}, haplotype {name}"));
    let marks = match answer {
        Ok(answer) => Marks { title, caption: caption(sheet, answer), rows: answer.rows.clone(), parts: uses(sheet, answer) },
        Err(reasons) => {
            let number = reasons.first().map_or(0, |reason| reason.number);
            let caption = format!("No path: refused {number}, {}.", words(number));
            Marks { title, caption, rows: vec![], parts: vec![Use::Unknown; sheet.parts.len()] }
        }
    };
    panels::picture(sheet, &marks)
}

/// The haplotypes' pictures, each in a sheet of its own, one below the other.
pub fn answered(each: &[Sheet], title: &str, answers: &[Own]) -> String {
    let pictures: Vec<svg::Picture> = each.iter().zip(answers).map(|(own, answer)| of_one(own, title, answer)).collect();
    svg::below_each_other(&pictures)
}

/// The picture with rows marked by hand.
pub fn by_hand(sheet: &Sheet, title: &str, rows: &[usize]) -> String {
    let caption = if rows.is_empty() { "No path is marked." } else { "Rows marked by hand; nothing was searched." };
    let marks = Marks { title: title.into(), caption: caption.into(), rows: rows.to_vec(), parts: vec![Use::Unknown; sheet.parts.len()] };
    panels::picture(sheet, &marks).svg()
}
