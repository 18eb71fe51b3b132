//! A path that someone else proposes: rows, parts and a score as they are written on the command line, and the library's answer in words.
use crate::fault::Failure;
use crate::float::{self, NoFloat};
use crate::model::{counted, Sequence, Sheet, SEQSIM, SIZESIM};
use crate::refusals::Refusal;
use crate::search;
use crate::work::Told;
use ndigomarr::Companions;

/// What was written after `--rows`, `--parts`, `--score` and `--haplotype`.
pub struct Written<'a> {
    pub rows: &'a str,
    pub parts: &'a str,
    pub score: &'a str,
    pub haplotype: Option<&'a str>,
}

/// Names one behind the other, as a reader is told what there is.
fn listed<'a>(names: impl Iterator<Item = &'a str>) -> String {
    let all: Vec<&str> = names.collect();
    let shown = all.iter().take(8).copied().collect::<Vec<_>>().join(", ");
    if all.len() > 8 { format!("{shown}, and {} more", all.len() - 8) } else { shown }
}

/// The place of a name, or of a number from 0 where no name reads so. No two rows, or parts, of a sheet share a name.
fn place(option: &str, word: &str, named: &[&Sequence]) -> Result<usize, Failure> {
    let number = || word.parse().ok().filter(|_| word.bytes().all(|byte| byte.is_ascii_digit()));
    let known = named.iter().position(|one| one.name == word).or_else(number);
    known.ok_or_else(|| {
        let names = if named.is_empty() { "none".into() } else { listed(named.iter().map(|one| one.name.as_str())) };
        Failure::Input(format!("{option}: \"{word}\" is no name on the sheet; write one that is, or its number from 0: the sheet has {names}"))
    })
}

/// Names parted by commas, or the words for none and for all.
fn places(option: &str, text: &str, named: &[&Sequence]) -> Result<Vec<usize>, Failure> {
    match text {
        "none" => Ok(vec![]),
        "all" => Ok((0..named.len()).collect()),
        _ => text.split(',').map(|word| place(option, word.trim(), named)).collect(),
    }
}

fn score(text: &str) -> Result<f32, Failure> {
    let instead = "write a decimal such as 0.975, or its 32 bits such as bits:3f79999a";
    float::bits(text).map(f32::from_bits).map_err(|fault| {
        let what = match fault {
            NoFloat::Form => "is no number",
            NoFloat::TooLarge => "is larger than any 32-bit float",
        };
        Failure::Input(format!("--score: \"{text}\" {what}; {instead}"))
    })
}

/// The haplotype that is asked about, in a sheet of its own.
fn own(sheet: &Sheet, name: Option<&str>) -> Result<Sheet, Failure> {
    let mut each = sheet.each();
    let names = || listed(sheet.haplotypes.iter().map(|haplotype| haplotype.name.as_str()));
    match name {
        None if each.len() == 1 => Ok(each.remove(0)),
        None => Err(Failure::Input(format!("the sheet names several haplotypes: {}; write --haplotype and one of them", names()))),
        Some(_) if sheet.haplotypes.is_empty() => Err(Failure::Input("--haplotype: the sheet names none; leave the word out".into())),
        Some(name) => each.into_iter().find(|own| own.haplotype() == Some(name)).ok_or_else(|| Failure::Input(format!("--haplotype: \"{name}\" is none of the sheet's; write one of {}", names()))),
    }
}

/// Why the rows are no path: the first that is not there, that does not come later than the one before it, or that overlaps an earlier one.
fn row_fault(own: &Sheet, rows: &[usize]) -> Option<String> {
    let shown = |row: usize| format!("\"{}\" (line {})", own.variants[row].name(), own.variants[row].line());
    if let Some(row) = rows.iter().find(|row| **row >= own.variants.len()) {
        return Some(format!("row {row} is not there; the sheet has {}, from 0", counted(own.variants.len(), "row")));
    }
    if !own.settings.to_library().full && !rows.is_empty() {
        return Some("full is no, and then only the empty path stands: write --rows none".into());
    }
    if let Some(pair) = rows.windows(2).find(|pair| pair[0] >= pair[1]) {
        return Some(format!("{} does not stand behind {} on the sheet; write the rows in the sheet's order, each once", shown(pair[1]), shown(pair[0])));
    }
    let apart = |a: usize, b: usize| {
        let mut two = Companions::new();
        let added = [a, b].map(|row| two.add(own.variants[row].start, own.variants[row].end));
        added.iter().any(Result::is_err) || two.together(0, 1).unwrap_or(true)
    };
    let pairs = rows.iter().enumerate().flat_map(|(at, &later)| rows[..at].iter().map(move |&earlier| (earlier, later)));
    let (earlier, later) = pairs.into_iter().find(|&(earlier, later)| !apart(earlier, later))?;
    Some(format!("{} and {} overlap, and no two rows of a path may", shown(earlier), shown(later)))
}

/// Why the parts are none of the lists that a search tries.
fn part_fault(own: &Sheet, parts: &[usize]) -> Option<String> {
    let (settings, count) = (own.settings.to_library(), own.parts.len());
    if let Some(part) = parts.iter().find(|part| **part >= count) {
        return Some(format!("part {part} is not there; the haplotype has {}, from 0", counted(count, "part")));
    }
    if parts.windows(2).any(|pair| pair[0] >= pair[1]) {
        return Some("the parts do not stand in the sheet's order, each once".into());
    }
    let whole = count >= settings.pileupmax as usize;
    let fewest = if whole { count } else { count.saturating_sub(settings.fnmax as usize).max(1) };
    let because = if whole { format!("pileupmax {}", settings.pileupmax) } else { format!("fnmax {}", settings.fnmax) };
    (parts.len() < fewest).then(|| format!("{} of {count} are too few: with {because} a list has at least {fewest}", counted(parts.len(), "part")))
}

/// How alike rows and parts are, beside the thresholds.
fn score_fault(own: &Sheet, rows: &[usize], parts: &[usize]) -> String {
    if own.settings.to_library().squish && rows.is_empty() {
        return "with squish the empty path accepts no part list".into();
    }
    let words = &own.settings.words;
    let Some(alike) = search::alike(own, rows, parts) else { return "that list scored against those rows does not give that score".into() };
    if !alike.signs {
        return "the signs of the sizes of rows and parts differ, so the list is skipped".into();
    }
    let beside = |name: &str, value: f32, threshold: u32| {
        let below = if value < f32::from_bits(threshold) { "below" } else { "not below" };
        format!("{name} is {}, {below} the threshold {}", float::text(value.to_bits()), float::text(threshold))
    };
    let [sizes, letters] = [beside("sizesim", alike.sizesim, words[SIZESIM]), beside("seqsim", alike.seqsim, words[SEQSIM])];
    format!("that list scored against those rows does not give that score above 0, bit for bit: {sizes}; {letters}")
}

fn names<'a>(sequences: impl Iterator<Item = &'a Sequence>) -> String {
    let names: Vec<&str> = sequences.map(|sequence| sequence.name.as_str()).collect();
    if names.is_empty() { "none".into() } else { names.join(", ") }
}

/// The library's answer: a first word, yes or no, and behind a no every reason that can be told.
pub fn told(sheet: &Sheet, written: &Written) -> Result<Told, Failure> {
    let own = own(sheet, written.haplotype)?;
    let variants: Vec<&Sequence> = own.variants.iter().map(|variant| &variant.sequence).collect();
    let rows = places("--rows", written.rows, &variants)?;
    let parts = places("--parts", written.parts, &own.parts.iter().collect::<Vec<_>>())?;
    let score = score(written.score)?;
    let text = match search::check_path(&own, &rows, &parts, score) {
        Err(reasons) => return Ok(Told::text(1, reasons.iter().map(|reason: &Refusal| format!("{reason}\n")).collect())),
        Ok(true) => {
            let used = names(parts.iter().map(|&part| &own.parts[part]));
            format!("yes     rows {} with parts {used} score {}\n", names(rows.iter().map(|&row| variants[row])), float::text(score.to_bits()))
        }
        Ok(false) => {
            let mut reasons: Vec<String> = row_fault(&own, &rows).into_iter().chain(part_fault(&own, &parts)).collect();
            if score.is_nan() || score <= 0.0 {
                reasons.push(format!("a score must be greater than 0; this is {}", float::text(score.to_bits())));
            }
            if reasons.is_empty() {
                reasons.push(score_fault(&own, &rows, &parts));
            }
            reasons.iter().enumerate().map(|(at, reason)| format!("{:8}{reason}\n", if at == 0 { "no" } else { "" })).collect()
        }
    };
    Ok(Told::text(u8::from(text.starts_with("no")), text))
}
