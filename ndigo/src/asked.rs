//! What each command makes of one file.
use crate::answer;
use crate::book::Version;
use crate::check::Checked;
use crate::commands::Form;
use crate::deeper;
use crate::draw;
use crate::fault::Failure;
use crate::job::{self, Edition};
use crate::model::{counted, Sheet, Variant};
use crate::proposal::{self, Written};
use crate::refusals::{self, Refusal};
use crate::search::{self, Own};
use crate::sheet;
use crate::warnings;
use crate::work::{shown_name, Told};
use ::deeper::Step;
use indicatif::ProgressBar;
use ndigomarr::{Answer, Bed, Target};
use std::time::Duration;

/// How a sheet is read: its rows sorted by start, and a version's settings in place of its own.
#[derive(Clone, Copy, Default)]
pub struct How<'a> {
    pub sort: bool,
    pub version: Option<&'a Version>,
}

impl From<bool> for How<'_> {
    fn from(sort: bool) -> Self {
        Self { sort, version: None }
    }
}

/// The sheet and what was noted while it was read; all its faults where it has any.
pub fn read<'a>(data: &[u8], how: impl Into<How<'a>>) -> Result<(Sheet, Vec<String>), Failure> {
    let read = taken(sheet::read(data), how.into());
    if read.faults.is_empty() { Ok((read.sheet, read.notes)) } else { Err(Failure::Sheet { faults: read.faults, notes: read.notes }) }
}

fn taken(mut read: sheet::Read, how: How<'_>) -> sheet::Read {
    if how.sort {
        read.notes.push(sort_rows(&mut read.sheet));
    }
    if let Some(version) = how.version {
        read.notes.extend(version.hand_to(&mut read.sheet));
    }
    read
}

/// Sorts the variants by start; the note that says so.
pub fn sort_rows(sheet: &mut Sheet) -> String {
    match sheet.sort() {
        0 => "the rows stood sorted by start already".into(),
        moved => format!("the rows were sorted by start: {} changed place, and row numbers are those of the sorted table", counted(moved, "row")),
    }
}

/// Cells as one line of tab-separated text.
pub fn table_line(cells: &[impl AsRef<[u8]>]) -> Vec<u8> {
    let mut writer = csv::WriterBuilder::new().delimiter(b'\t').from_writer(vec![]);
    // writing into memory cannot fail
    let _ = writer.write_record(cells);
    writer.into_inner().unwrap_or_default()
}

fn remarks(notes: &[String], warnings: &[warnings::Warning]) -> Vec<String> {
    let notes = notes.iter().map(|note| format!("note: {note}"));
    notes.chain(warnings.iter().map(|warning| format!("warning: {warning}"))).collect()
}

pub fn answer(file: &str, data: &[u8], how: How<'_>, form: Form) -> Result<Told, Failure> {
    let (sheet, notes) = read(data, how)?;
    let answers = search::answers(&sheet);
    let status = status_of(&answers);
    if !form.tsv && !form.json {
        let text = match &answers {
            Ok(answers) => answer::text(&sheet, answers, &notes),
            Err(reasons) => answer::refused(&sheet, reasons, &notes),
        };
        return Ok(Told::text(status, text));
    }
    let mut remarks = remarks(&notes, &warnings::of(&sheet));
    let (each, answers) = match answers {
        Ok(answers) => (sheet.each(), answers),
        // one row for a sheet that is refused as a whole, under no haplotype's name
        Err(reasons) => (vec![sheet.without_parts()], vec![Err(reasons)]),
    };
    let mut out = Vec::new();
    for (own, answer) in each.iter().zip(&answers) {
        remarks.extend(own_remarks(own, answer));
        let file = shown_name(file);
        out.extend(if form.json { answer::document(file, own, answer).into_bytes() } else { table_line(&answer::table_row(file, own, answer)) });
    }
    Ok(Told { out, remarks, status })
}

/// The proved answer and, below it, what a longer look came to.
pub fn deeper(file: &str, data: &[u8], how: How<'_>, time: Duration, bar: &ProgressBar) -> Result<Told, Failure> {
    let (sheet, notes) = read(data, how)?;
    let answers = search::answers(&sheet);
    let look = |own: &Sheet, answer: &Answer| {
        let of = own.haplotype().map_or(String::new(), |name| format!(", haplotype {name}"));
        let mut shown = |step: Step| bar.set_message(format!("; {}{of}: {}", shown_name(file), deeper::progress(step)));
        deeper::below(own, &deeper::look(own, answer, time, &mut shown))
    };
    let text = match &answers {
        Ok(answers) => answer::text_with(&sheet, answers, &notes, look),
        Err(reasons) => answer::refused(&sheet, reasons, &notes),
    };
    Ok(Told::text(status_of(&answers), text))
}

/// 1 where the sheet or any of its haplotypes is refused.
fn status_of(answers: &Result<Vec<Own>, Vec<Refusal>>) -> u8 {
    u8::from(answers.as_ref().map_or(true, |each| each.iter().any(Result::is_err)))
}

/// Why a haplotype is refused, or why nothing was found for it.
fn own_remarks(own: &Sheet, answer: &Own) -> Vec<String> {
    let named = own.haplotype().map_or(String::new(), |name| format!("haplotype \"{name}\": "));
    match answer {
        Err(reasons) => reasons.iter().map(|reason| reason.to_string()).collect(),
        Ok(answer) if answer.target == Target::Nothing => answer::why(own, answer).iter().map(|words| format!("{named}nothing found: {}", words.trim())).collect(),
        Ok(_) => vec![],
    }
}

pub fn check(file: &str, data: &[u8], how: How<'_>, form: Form) -> Result<Told, Failure> {
    let read = taken(sheet::read(data), how);
    let checked = Checked::of(&read);
    let file = shown_name(file);
    if form.json {
        return Ok(Told::text(checked.status(), checked.document(file)));
    }
    if form.tsv {
        let out = checked.table_rows(file).iter().flat_map(|cells| table_line(cells)).collect();
        return Ok(Told { out, remarks: vec![], status: checked.status() });
    }
    if !read.faults.is_empty() {
        return Err(Failure::Sheet { faults: read.faults, notes: read.notes });
    }
    Ok(Told::text(checked.status(), checked.text()))
}

/// Somebody else's path; notes and warnings go to standard error.
pub fn check_path(data: &[u8], how: How<'_>, written: &Written) -> Result<Told, Failure> {
    let (sheet, notes) = read(data, how)?;
    let told = proposal::told(&sheet, written)?;
    Ok(Told { remarks: remarks(&notes, &[]), ..told })
}

/// The job form takes sheets that the rules refuse, but not letters other than 0 and 1, nor a sequence over its limit.
pub fn job(data: &[u8], how: How<'_>) -> Result<Told, Failure> {
    let (sheet, notes) = read(data, how)?;
    let unsaid = refusals::of_form(&sheet);
    if !unsaid.is_empty() {
        let reasons = unsaid.iter().map(|refusal| refusal.to_string()).collect();
        return Ok(Told { out: vec![], remarks: reasons, status: 1 });
    }
    Ok(Told { out: job::written(&sheet), remarks: remarks(&notes, &[]), status: 0 })
}

pub fn show(data: &[u8]) -> Result<Told, Failure> {
    let sheet = job::read(data).map_err(|fault| Failure::Input(fault.to_string()))?;
    Ok(Told::text(0, sheet::written(&sheet)))
}

/// The job in the edition asked for, by the library. What ndigo's own reading of the job adds are the words for a refusal.
pub fn move_job(data: &[u8], edition: Edition) -> Result<Told, Failure> {
    let refusal = match ndigomarr::move_job(data, edition.number()) {
        Ok(out) => return Ok(Told { out, ..Told::default() }),
        Err(refusal) => refusal,
    };
    let sheet = job::read(data).map_err(|fault| Failure::Input(fault.to_string()))?;
    let reasons = search::with_first(refusal, refusals::of_move(&sheet, edition));
    Ok(Told { out: vec![], remarks: reasons.iter().map(|reason| reason.told_of("the whole job")).collect(), status: 1 })
}

/// The rows of the answer as BED; a sheet that the rules refuse has none.
pub fn bed(data: &[u8], how: How<'_>, name: &str) -> Result<Told, Failure> {
    let (sheet, notes) = read(data, how)?;
    if sheet.part_lists().len() > 1 {
        return Err(Failure::Input("the sheet names several haplotypes, and BED has no column that could tell them apart; leave the parts of one".into()));
    }
    let mut remarks = remarks(&notes, &warnings::of(&sheet));
    match search::answers(&sheet).and_then(|mut answers| answers.remove(0)) {
        Err(reasons) => {
            remarks.extend(reasons.iter().map(|reason| reason.to_string()));
            Ok(Told { out: vec![], remarks, status: 1 })
        }
        Ok(answer) => {
            let bounds = |of: fn(&Variant) -> u64| sheet.variants.iter().map(of).collect();
            let bed = Bed { name: name.into(), starts: bounds(|variant| variant.start), ends: bounds(|variant| variant.end) };
            let rows: Vec<u32> = answer.rows.iter().map(|&row| row as u32).collect();
            let out = bed.write(&rows).map_err(|refusal| Failure::Input(refusal.to_string()))?;
            if answer.target == Target::Nothing {
                remarks.extend(answer::why(&sheet, &answer).iter().map(|words| format!("nothing found: {}", words.trim())));
            }
            Ok(Told { out, remarks, status: 0 })
        }
    }
}

/// The rows of BED as variants, each named by the name and its row.
pub fn from_bed(data: &[u8]) -> Result<Told, Failure> {
    let bed = Bed::read(data).map_err(|refusal| Failure::Input(refusal.to_string()))?;
    let name = String::from_utf8_lossy(&bed.name);
    let rows = bed.starts.iter().zip(&bed.ends).enumerate().map(|(row, (start, end))| format!("{}\t{start}\t{end}\n", sheet::cell(&format!("{name}-{row}"))));
    Ok(Told::text(0, format!("variant\tstart\tend\n{}", rows.collect::<String>())))
}

/// A refused sheet is drawn too, and the status says that it was refused.
pub fn draw(file: &str, data: &[u8], how: How<'_>, rows: Option<&str>) -> Result<Told, Failure> {
    let (sheet, notes) = read(data, how)?;
    let title = std::path::Path::new(shown_name(file)).file_name().map_or(file.into(), |name| name.to_string_lossy().into_owned());
    if let Some(rows) = rows {
        let rows = draw::given_rows(rows, sheet.variants.len()).map_err(Failure::Input)?;
        let told = Told::text(0, draw::by_hand(&sheet, &title, &rows));
        return Ok(Told { remarks: remarks(&notes, &[]), ..told });
    }
    let answers = search::answers(&sheet);
    let status = status_of(&answers);
    let mut remarks = remarks(&notes, &warnings::of(&sheet));
    let each = sheet.each();
    let answers = answers.unwrap_or_else(|reasons| vec![Err(reasons); each.len()]);
    let mut told: Vec<String> = answers.iter().flat_map(|answer| answer.as_ref().err()).flatten().map(|reason| reason.to_string()).collect();
    // a refusal of the whole sheet is told once
    told.dedup();
    remarks.extend(told);
    Ok(Told { out: draw::answered(&each, &title, &answers).into_bytes(), remarks, status })
}
