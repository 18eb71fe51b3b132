//! The command line: what may be asked, and its help.
use crate::job::Edition;
use crate::model::SETTINGS;
use clap::{Args, CommandFactory, FromArgMatches, Parser, Subcommand};
use clap_complete::Shell;
use std::path::PathBuf;
use std::time::Duration;

#[derive(Debug, Parser)]
#[command(name = "ndigo", version, about = "Which variants of a station sheet, taken together, explain the parts of a haplotype")]
pub struct Cli {
    #[command(subcommand)]
    pub command: Command,
}

#[derive(Debug, Subcommand)]
pub enum Command {
    /// The best path, in the names of the sheet
    #[command(after_long_help = READING)]
    Answer {
        #[command(flatten)]
        sheets: Sheets,
        #[command(flatten)]
        form: Form,
    },
    /// Every fault, refusal and warning that can be told before running
    #[command(mut_arg("tsv", |form| form.help("Tab-separated, one heading row for all sheets; faults, refusals and warnings are rows")))]
    #[command(mut_arg("json", |form| form.help("One JSON object on a line for each sheet; faults, refusals and warnings are fields")))]
    Check {
        #[command(flatten)]
        sheets: Sheets,
        #[command(flatten)]
        form: Form,
    },
    /// Whether a path that someone else found is a good one: yes, or no and why
    CheckPath {
        #[command(flatten)]
        sheets: Sheets,
        /// The path's rows by their names, such as A,C, or by their numbers from 0; none for the empty path
        #[arg(long, value_name = "ROWS", allow_hyphen_values = true)]
        rows: String,
        /// The parts it matches by their names, or by their numbers from 0; all for the whole haplotype
        #[arg(long, value_name = "PARTS", allow_hyphen_values = true)]
        parts: String,
        /// Its score as a decimal, or as its 32 bits: bits:3f800000
        #[arg(long, value_name = "SCORE", allow_hyphen_values = true)]
        score: String,
        /// Which haplotype, where the sheet names several
        #[arg(long, value_name = "NAME")]
        haplotype: Option<String>,
    },
    /// The table and the parts as a picture (SVG), with the chosen path marked
    #[command(after_long_help = READING)]
    Draw {
        #[command(flatten)]
        sheets: Sheets,
        /// Mark these rows (from 0), such as 0,3, or none, and search nothing
        #[arg(long, value_name = "ROWS", allow_hyphen_values = true)]
        rows: Option<String>,
        #[command(flatten)]
        into: Into,
    },
    /// The best path, and a longer look for a better one, by a search that is not proved; what it finds is put to a check that is
    #[command(after_long_help = READING)]
    Deeper {
        #[command(flatten)]
        sheets: Sheets,
        #[command(flatten)]
        time: Time,
    },
    /// Many sheets or jobs into one table: a line a haplotype, on all cores; stopped and started again it does what is missing
    #[command(mut_arg("seconds", |seconds| seconds.requires("deeper")), after_long_help = READING)]
    Batch {
        /// Sheets, jobs, or files of jobs one behind the other; - is standard input
        #[arg(required_unless_present = "list", value_name = "FILE")]
        files: Vec<String>,
        /// Names more of them, one a line; - is standard input
        #[arg(long, value_name = "LIST")]
        list: Option<String>,
        /// The table, tab-separated. It appears when it is whole; until then its lines stand in TABLE.unfinished
        #[arg(long, value_name = "TABLE")]
        out: PathBuf,
        /// How many are worked on at a time; left out, one a core
        #[arg(long, value_name = "N", value_parser = clap::value_parser!(u16).range(1..=1024))]
        jobs: Option<u16>,
        /// Sort the variants of each sheet or job by start first
        #[arg(long)]
        sort: bool,
        /// Where a search stopped early look for a better path, as `ndigo deeper` does
        #[arg(long)]
        deeper: bool,
        #[command(flatten)]
        time: Time,
    },
    /// The sheet as job bytes, the form that the program ndigomarr reads: in edition 2 where the sheet has a column 'record' or the setting
    /// 'letters', or --settings brings letters 1, else in edition 1
    Job {
        #[command(flatten)]
        sheets: Sheets,
        #[command(flatten)]
        into: Into,
    },
    /// A job of either edition as a sheet; making it again gives the same bytes
    Show {
        /// Jobs; - is standard input
        #[arg(required = true, value_name = "JOB")]
        files: Vec<String>,
        #[command(flatten)]
        into: Into,
    },
    /// A job in the other edition of its form, where nothing is lost; moving it back gives the same bytes
    Move {
        /// Jobs; - is standard input
        #[arg(required = true, value_name = "JOB")]
        files: Vec<String>,
        /// 2 has a place for record numbers and letters; 1 has none, so each record must be its row's number, and letters 0
        #[arg(long, value_name = "1|2", value_parser = edition)]
        edition: Edition,
        #[command(flatten)]
        into: Into,
    },
    /// The answer's rows as BED, under one name
    #[command(after_long_help = READING)]
    Bed {
        #[command(flatten)]
        sheets: Sheets,
        /// What stands in the first column: 1 to 32 printable bytes of ASCII, no blank among them
        #[arg(long, value_name = "NAME")]
        name: String,
        #[command(flatten)]
        into: Into,
    },
    /// BED (name, start and end) as the variants of a sheet, to which size and letters are added
    FromBed {
        /// BED files; - is standard input
        #[arg(required = true, value_name = "BED")]
        files: Vec<String>,
        #[command(flatten)]
        into: Into,
    },
    /// Settings with versions in a file: which map used which
    Book {
        #[command(subcommand)]
        asked: BookCommand,
    },
    /// What a shell needs to complete these commands
    Completions { shell: Shell },
}

#[derive(Debug, Subcommand)]
pub enum BookCommand {
    /// Saves the sheet's settings under the next version; a book that is not there is begun
    Save {
        book: PathBuf,
        /// A sheet; - is standard input
        sheet: String,
    },
    /// Every version, with what changed from the one before
    List { book: PathBuf },
    /// Saves the settings of a version again, under the next
    Restore { book: PathBuf, version: String },
}

#[derive(Debug, Args)]
pub struct Sheets {
    /// Sheets; - is standard input
    #[arg(required = true, value_name = "SHEET")]
    pub files: Vec<String>,
    /// Sort the variants by start first, and say so
    #[arg(long)]
    pub sort: bool,
    /// The settings of a version of a book, such as sea.book:3, in place of the sheet's own; the answer says which
    #[arg(long, value_name = "BOOK:VERSION")]
    pub settings: Option<String>,
}

#[derive(Clone, Copy, Debug, Args)]
pub struct Form {
    /// Tab-separated, one heading row for all sheets; warnings go to standard error, and a sheet with faults gets no row
    #[arg(long, conflicts_with = "json")]
    pub tsv: bool,
    /// One JSON object on a line for each sheet; warnings go to standard error, and a sheet with faults gets no object
    #[arg(long)]
    pub json: bool,
}

#[derive(Clone, Copy, Debug, Args)]
pub struct Time {
    /// How long the deeper search may look, for each haplotype
    #[arg(long, value_name = "SECONDS", default_value = "1", value_parser = seconds)]
    pub seconds: Duration,
}

fn edition(text: &str) -> Result<Edition, String> {
    let asked = Edition::ALL.into_iter().find(|edition| edition.number().to_string() == text);
    asked.ok_or_else(|| "write 1 or 2".into())
}

/// A time to look: above 0, and a day at most.
fn seconds(text: &str) -> Result<Duration, String> {
    let seconds = text.parse().ok().filter(|seconds| *seconds > 0.0 && *seconds <= 86_400.0);
    seconds.map(Duration::from_secs_f64).ok_or_else(|| "write a number of seconds above 0 and up to 86400, such as 0.5 or 60".into())
}

#[derive(Debug, Args)]
pub struct Into {
    /// Write into this folder, each file under its own name; needed where there are several
    #[arg(long, value_name = "FOLDER")]
    pub into: Option<PathBuf>,
}

/// What is misread in an answer, for every command that gives one.
const READING: &str = "\
Three things to know before you read an answer. Rows are row numbers of the table handed over, from 0, not names, and
a copy sorted since has other rows, so join by record number (the column 'record'). The search stops after maxpaths + 1
paths, and the answer says whether those were all ('complete'): if not, better ones may exist. Of two equally good paths
the one scored later wins, which need not be the lower in the table; no answer tells whether others are just as good.
";

const SHEET: &str = "\
A sheet is text, its cells parted by tabs, commas, semicolons or runs of blanks; each heading row tells which.
Three heading rows begin its three sections; each may be left out, and the columns after the first may stand in
any order:

  setting   value                                 one row for each setting that you name
  variant   start   end   size   letters          one row for each variant, sorted by start
  part      size    letters                       one row for each part of the haplotype

The first column holds the name. Starts count from 0 and ends are not counted in. Variants and parts may have a
column 'negative' (yes or no): whether the letters count negative. Left empty or left out, they do exactly when
the size is below 0, so a deletion needs no more than its size. Variants may have a column 'record': the number of
each one's record at the station, 0 to 4294967295, all different. Parts may have a column 'haplotype': the name of
the one that each belongs to, of up to 16; each is answered by itself, and a row that fills this column alone names
one without parts. Every section may have a column 'remark'; other
columns are passed over with a note. A line whose one filled cell begins with # is a remark too. Letters are A to
Z in either case; other bytes are written hex:4e2e. A float is written in decimal, or as its 32 bits: bits:7fc00000.

A sheet's job is of edition 2 of the job form where the sheet has a column 'record' or names the setting 'letters', or
a version of a book (--settings) brings letters 1; else of edition 1, which has a place for neither. 'ndigo move' turns
the one into the other.

Status: 0 done, 1 refused by the rules (of check-path also a no), 2 cannot be read, 3 cannot be written.

The settings, each with the default it has when left out:
";

/// The settings with their defaults, from the one list of them.
fn settings_help() -> String {
    let lines = SETTINGS.iter().map(|setting| format!("  {:10}  {:5}  {}\n", setting.name, setting.default, setting.meaning));
    format!("{READING}\n{SHEET}\n{}", lines.collect::<String>())
}

pub fn grammar() -> clap::Command {
    Cli::command().after_long_help(settings_help()).after_help("'ndigo --help' tells the sheet's form and every setting with its default.")
}

pub fn parsed(arguments: impl IntoIterator<Item = std::ffi::OsString>) -> Result<Cli, clap::Error> {
    Cli::from_arg_matches(&grammar().try_get_matches_from(arguments)?)
}
