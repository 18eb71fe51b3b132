//! ndigo's command line. Statuses: 0 done, 1 refused by the rules or a no, 2 cannot be read, 3 cannot be written.
use indicatif::ProgressBar;
use ndigo::asked::{self, table_line, How};
use ndigo::book::{self, Version};
use ndigo::commands::{grammar, parsed, Cli, Command, Form, Sheets};
use ndigo::fault::Failure;
use ndigo::proposal::Written;
use ndigo::work::{put_all, run, run_shown, say, Sink, Told};
use ndigo::{answer, batch, check};
use std::process::ExitCode;

fn output(form: Form, headings: &[&str]) -> Sink {
    let first = if form.tsv { table_line(headings) } else { vec![] };
    Sink::Output { first, titled: !form.tsv && !form.json }
}

/// The work over the sheets, each read as is asked for. A version is looked for once, before the first of them.
fn over(sheets: &Sheets, sink: &Sink, work: impl Fn(&str, &[u8], How<'_>) -> Result<Told, Failure> + Sync) -> u8 {
    over_shown(sheets, sink, |file, data, how, _| work(file, data, how))
}

/// The same for work that shows by itself how far it is.
fn over_shown(sheets: &Sheets, sink: &Sink, work: impl Fn(&str, &[u8], How<'_>, &ProgressBar) -> Result<Told, Failure> + Sync) -> u8 {
    let version = match sheets.settings.as_deref().map(Version::asked).transpose() {
        Ok(version) => version,
        Err(failure) => {
            say(&format!("--settings {}: {failure}", sheets.settings.as_deref().unwrap_or_default()));
            return failure.status();
        }
    };
    let how = How { sort: sheets.sort, version: version.as_ref() };
    run_shown(&sheets.files, sink, |file, data, bar| work(file, data, how, bar).unwrap_or_else(Told::from))
}

fn status(cli: Cli) -> u8 {
    match cli.command {
        Command::Answer { sheets, form } => over(&sheets, &output(form, &answer::table_headings(sheets.settings.is_some())), |file, data, how| {
            asked::answer(file, data, how, form)
        }),
        Command::Check { sheets, form } => over(&sheets, &output(form, &check::TABLE_HEADINGS), |file, data, how| asked::check(file, data, how, form)),
        Command::CheckPath { sheets, rows, parts, score, haplotype } => {
            let written = Written { rows: &rows, parts: &parts, score: &score, haplotype: haplotype.as_deref() };
            let sink = Sink::Output { first: vec![], titled: true };
            over(&sheets, &sink, |_, data, how| asked::check_path(data, how, &written))
        }
        Command::Draw { sheets, rows, into } => {
            let sink = Sink::files(into.into, "svg");
            over(&sheets, &sink, |file, data, how| asked::draw(file, data, how, rows.as_deref()))
        }
        Command::Deeper { sheets, time } => over_shown(&sheets, &Sink::Output { first: vec![], titled: true }, |file, data, how, bar| {
            asked::deeper(file, data, how, time.seconds, bar)
        }),
        Command::Batch { files, list, out, jobs, sort, deeper, time } => {
            let deeper = deeper.then_some(time.seconds);
            batch::run(&batch::Asked { files, list, out, jobs: jobs.map(usize::from), sort, deeper })
        }
        Command::Job { sheets, into } => {
            let sink = Sink::files(into.into, "job");
            over(&sheets, &sink, |_, data, how| asked::job(data, how))
        }
        Command::Show { files, into } => {
            let sink = Sink::new_files(into.into, "tsv");
            run(&files, &sink, |_, data| asked::show(data).unwrap_or_else(Told::from))
        }
        Command::Move { files, edition, into } => {
            let sink = Sink::new_files(into.into, "job");
            run(&files, &sink, |_, data| asked::move_job(data, edition).unwrap_or_else(Told::from))
        }
        Command::Bed { sheets, name, into } => {
            let sink = Sink::files(into.into, "bed");
            over(&sheets, &sink, |_, data, how| asked::bed(data, how, &name))
        }
        Command::FromBed { files, into } => {
            let sink = Sink::new_files(into.into, "tsv");
            run(&files, &sink, |_, data| asked::from_bed(data).unwrap_or_else(Told::from))
        }
        Command::Book { asked } => book::status(&asked),
        Command::Completions { shell } => {
            let mut script = Vec::new();
            clap_complete::generate(shell, &mut grammar(), "ndigo", &mut script);
            put_all(&script)
        }
    }
}

fn main() -> ExitCode {
    let status = match parsed(std::env::args_os()) {
        Ok(cli) => status(cli),
        // help and version are asked for, and a disk may be full for them too
        Err(told) if !told.use_stderr() => put_all(told.render().to_string().as_bytes()),
        Err(told) => {
            say(told.render().to_string().trim_end());
            2
        }
    };
    ExitCode::from(status)
}
