//! The commands over their files: read, worked side by side, written in the order of the files.
use crate::closed;
use crate::fault::Failure;
use indicatif::{ProgressBar, ProgressDrawTarget, ProgressState, ProgressStyle};
use rayon::prelude::*;
use std::collections::HashSet;
use std::io::{Read, Write};
use std::path::{Path, PathBuf};
use std::sync::mpsc;
use std::time::Duration;

/// What a file's work came to. Nothing is written before all of it is known.
#[derive(Debug, Default)]
pub struct Told {
    pub out: Vec<u8>,
    /// Lines for standard error, without the file's name.
    pub remarks: Vec<String>,
    pub status: u8,
}

impl Told {
    pub fn text(status: u8, text: String) -> Self {
        Self { out: text.into_bytes(), status, ..Self::default() }
    }
}

impl From<Failure> for Told {
    fn from(failure: Failure) -> Self {
        Self { out: vec![], remarks: failure.reasons(), status: failure.status() }
    }
}

/// Where the results go.
pub enum Sink {
    /// All to standard output, after these first bytes; `titled` puts each file's name above its text where there are several.
    Output { first: Vec<u8>, titled: bool },
    /// One file, or files in a folder under their own names with this ending; `new` overwrites none.
    Files { folder: Option<PathBuf>, ending: &'static str, new: bool },
}

impl Sink {
    /// What is made from a sheet, and can be made again.
    pub fn files(folder: Option<PathBuf>, ending: &'static str) -> Self {
        Self::Files { folder, ending, new: false }
    }

    /// Sheets, and jobs of the same names as those they are made from: each may be somebody's work.
    pub fn new_files(folder: Option<PathBuf>, ending: &'static str) -> Self {
        Self::Files { folder, ending, new: true }
    }
}

/// How many files are worked on before the first of them is written.
const AT_ONCE: usize = 256;

pub fn shown_name(file: &str) -> &str {
    if file == "-" { "standard input" } else { file }
}

pub fn read(file: &str) -> Result<Vec<u8>, Failure> {
    if file != "-" {
        return std::fs::read(file).map_err(Failure::Unreadable);
    }
    let mut data = Vec::new();
    std::io::stdin().lock().read_to_end(&mut data).map_err(Failure::Unreadable)?;
    Ok(data)
}

/// Says on standard error what cannot be said elsewhere. If that is closed too there is nobody to tell.
pub fn say(words: &str) {
    let _ = writeln!(std::io::stderr().lock(), "{words}");
}

/// Writes to standard output and sees it through.
pub fn put(bytes: &[u8]) -> Result<(), Failure> {
    if closed::output_was_closed() {
        return Err(Failure::Unwritable(std::io::Error::other("it is closed")));
    }
    let mut out = std::io::stdout().lock();
    out.write_all(bytes).and_then(|()| out.flush()).map_err(Failure::Unwritable)
}

/// The status of a call that only writes this.
pub fn put_all(bytes: &[u8]) -> u8 {
    put(bytes).map_or_else(|failure| { say(&format!("standard output: {failure}")); failure.status() }, |()| 0)
}

/// Why these files cannot be asked for together.
fn objection(files: &[String], sink: &Sink) -> Option<String> {
    if files.iter().filter(|file| *file == "-").count() > 1 {
        return Some("standard input (-) can be read once only".into());
    }
    match sink {
        Sink::Files { folder: None, ending, .. } if files.len() > 1 => {
            Some(format!("several .{ending} files cannot be told apart on standard output; name a folder with --into"))
        }
        Sink::Files { folder: Some(folder), ending, .. } => {
            let mut seen = HashSet::new();
            let twice = files.iter().map(|file| target(folder, file, ending)).find(|path| !seen.insert(path.clone()));
            twice.map(|path| format!("two files would be written as {}; ask for them one at a time", path.display()))
        }
        _ => None,
    }
}

fn target(folder: &Path, file: &str, ending: &str) -> PathBuf {
    let stem = if file == "-" { "standard-input".as_ref() } else { Path::new(file).file_stem().unwrap_or(file.as_ref()) };
    let mut name = stem.to_os_string();
    name.push(".");
    name.push(ending);
    folder.join(name)
}

fn write(file: &str, told: &Told, sink: &Sink, several: bool) -> Result<(), (String, Failure)> {
    match sink {
        Sink::Files { folder: Some(folder), ending, new } if !told.out.is_empty() => {
            let path = target(folder, file, ending);
            let mut how = std::fs::OpenOptions::new();
            let how = if *new { how.write(true).create_new(true) } else { how.write(true).create(true).truncate(true) };
            let written = std::fs::create_dir_all(folder).and_then(|()| how.open(&path)?.write_all(&told.out));
            written.map_err(|fault| (path.display().to_string(), Failure::Unwritable(fault)))
        }
        Sink::Files { folder: Some(_), .. } => Ok(()),
        sink => {
            let titled = several && !told.out.is_empty() && matches!(sink, Sink::Output { titled: true, .. });
            let title = if titled { format!("== {}\n", shown_name(file)) } else { String::new() };
            let end: &[u8] = if titled { b"\n" } else { b"" };
            put(&[title.as_bytes(), &told.out[..], end].concat()).map_err(|failure| ("standard output".to_string(), failure))
        }
    }
}

/// Shows how far it is, on a terminal, once it has taken a second.
pub fn watched<T>(count: usize, template: &str, work: impl FnOnce(&ProgressBar) -> T) -> T {
    let bar = ProgressBar::with_draw_target(Some(count as u64), ProgressDrawTarget::hidden());
    if let Ok(style) = ProgressStyle::with_template(template) {
        // the bar's own rate has four places behind the point
        let rate = |state: &ProgressState, out: &mut dyn std::fmt::Write| {
            let _ = write!(out, "{:.0} a second", state.per_sec());
        };
        bar.set_style(style.with_key("rate", rate));
    }
    let (done, waits) = mpsc::channel::<()>();
    std::thread::scope(|scope| {
        let shown = bar.clone();
        scope.spawn(move || {
            if waits.recv_timeout(Duration::from_secs(1)) == Err(mpsc::RecvTimeoutError::Timeout) {
                shown.set_draw_target(ProgressDrawTarget::stderr());
                shown.enable_steady_tick(Duration::from_millis(100));
                let _ = waits.recv();
            }
            shown.finish_and_clear();
        });
        let value = work(&bar);
        drop(done);
        value
    })
}

/// Runs the work over the files and gives the worst status. Where writing fails, nothing more is written.
pub fn run(files: &[String], sink: &Sink, work: impl Fn(&str, &[u8]) -> Told + Sync) -> u8 {
    run_shown(files, sink, |file, data, _| work(file, data))
}

/// The same for work that shows by itself how far it is, as the bar's message.
pub fn run_shown(files: &[String], sink: &Sink, work: impl Fn(&str, &[u8], &ProgressBar) -> Told + Sync) -> u8 {
    if let Some(words) = objection(files, sink) {
        say(&format!("ndigo: {words}"));
        return 2;
    }
    let first = match sink {
        Sink::Output { first, .. } => put_all(first),
        Sink::Files { .. } => 0,
    };
    if first > 0 {
        return first;
    }
    watched(files.len(), "{spinner} {pos} of {len} files, {elapsed}{msg}", |bar| {
        let one = |file: &String| read(file).map_or_else(Told::from, |data| work(file, &data, bar));
        let mut status = 0;
        for some in files.chunks(AT_ONCE) {
            let each = |file: &String| { let told = one(file); bar.inc(1); told };
            let told: Vec<Told> = if some.len() == 1 { some.iter().map(each).collect() } else { some.par_iter().map(each).collect() };
            for (file, told) in some.iter().zip(told) {
                status = status.max(told.status);
                let written = bar.suspend(|| {
                    told.remarks.iter().for_each(|words| say(&format!("{}: {words}", shown_name(file))));
                    write(file, &told, sink, files.len() > 1)
                });
                if let Err((name, failure)) = written {
                    bar.suspend(|| say(&format!("{name}: {failure}")));
                    return failure.status();
                }
            }
        }
        status
    })
}
