//! Why something cannot be read or written, each told in one line.
use thiserror::Error;

/// A fault of a sheet: where it is, what stands there and what to write instead.
#[derive(Clone, Debug, PartialEq, Eq)]
pub struct Fault {
    pub line: usize,
    pub column: usize,
    /// The heading above the cell, where the cell has one.
    pub heading: Option<String>,
    pub what: String,
    pub instead: String,
}

impl std::fmt::Display for Fault {
    fn fmt(&self, out: &mut std::fmt::Formatter<'_>) -> std::fmt::Result {
        write!(out, "line {}, column {}", self.line, self.column)?;
        if let Some(heading) = &self.heading {
            write!(out, " ({heading})")?;
        }
        write!(out, ": {}; {}", self.what, self.instead)
    }
}

/// What a call may end with other than being done. The words do not name the file: whoever prints them does.
#[derive(Debug, Error)]
pub enum Failure {
    #[error("cannot be read ({0}){}", instead_of(.0))]
    Unreadable(std::io::Error),
    #[error("{}", lines(.faults))]
    Sheet { faults: Vec<Fault>, notes: Vec<String> },
    #[error("{0}")]
    Input(String),
    #[error("cannot be written ({0})")]
    Unwritable(std::io::Error),
}

impl Failure {
    /// 2 cannot be read, 3 cannot be written.
    pub fn status(&self) -> u8 {
        match self {
            Self::Unwritable(_) => 3,
            _ => 2,
        }
    }

    /// Each reason by itself, so that each gets the file's name in front.
    pub fn reasons(&self) -> Vec<String> {
        match self {
            // a note may tell why: a heading that is missing may be one that was not known
            Self::Sheet { faults, notes } => notes.iter().map(|note| format!("note: {note}")).chain(faults.iter().map(Fault::to_string)).collect(),
            other => vec![other.to_string()],
        }
    }
}

/// What to name instead of what cannot be read, where the fault tells.
pub fn instead_of(fault: &std::io::Error) -> &'static str {
    match fault.kind() {
        std::io::ErrorKind::NotFound => "; name a file that is there",
        std::io::ErrorKind::IsADirectory => "; name the sheets in it",
        std::io::ErrorKind::PermissionDenied => "; name a file that you may read",
        _ => "",
    }
}

fn lines(faults: &[Fault]) -> String {
    faults.iter().map(Fault::to_string).collect::<Vec<_>>().join("\n")
}
