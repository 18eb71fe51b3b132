//! The output: FILE appears only when it is whole. Until then its lines stand in FILE.unfinished, and those of runs that were
//! stopped in FILE.kept. Each of the three begins with the headings, by which it is known as ours.
use super::earlier::whole_tables;
use super::line::HEADINGS;
use crate::asked::table_line;
use fs2::FileExt as _;
use std::collections::HashSet;
use std::fs::{File, OpenOptions};
use std::io::{BufRead, BufReader, BufWriter, Read, Seek, SeekFrom, Write};
use std::os::unix::fs::{FileExt, MetadataExt};
use std::path::{Path, PathBuf};
use std::time::{Duration, Instant};

/// No line is held back longer than this before it goes to the file.
pub const HELD: Duration = Duration::from_secs(1);

pub struct Output {
    path: PathBuf,
    lines: BufWriter<File>,
    flushed: Instant,
}

fn beside(path: &Path, ending: &str) -> PathBuf {
    let mut name = path.as_os_str().to_os_string();
    name.push(ending);
    name.into()
}

fn unfinished(path: &Path) -> PathBuf {
    beside(path, ".unfinished")
}

fn kept(path: &Path) -> PathBuf {
    beside(path, ".kept")
}

/// The unfinished file, and nobody else's as long as this process runs.
fn claimed(path: &Path) -> std::io::Result<Option<File>> {
    loop {
        let file = OpenOptions::new().read(true).write(true).create(true).open(path)?;
        // a file system that knows no locks refuses in other words: there it goes on without one
        if file.try_lock_exclusive().is_err_and(|fault| fault.raw_os_error() == fs2::lock_contended_error().raw_os_error()) {
            return Ok(None);
        }
        // whoever held it before may just have finished, and given it its other name
        let about = file.metadata()?;
        if std::fs::metadata(path).is_ok_and(|there| (there.dev(), there.ino()) == (about.dev(), about.ino())) {
            return Ok(Some(file));
        }
    }
}

/// Moves the whole tables of a run that was stopped to where they are found again, but for those that stand there already.
fn put_by(stopped: &File, kept: &Path) -> std::io::Result<()> {
    let kept = OpenOptions::new().read(true).write(true).create(true).truncate(false).open(kept)?;
    let (mut held, mut last) = (HashSet::new(), None);
    whole_tables(&kept, |key, begin, end| {
        held.insert(key);
        last = Some((begin, end));
    })?;
    let mut to = BufWriter::new(&kept);
    // written again from its last table on, since a stop may have cut short what stands there
    let (begin, first) = match last {
        Some((begin, end)) => (begin, bytes_between(&kept, begin, end)?),
        None => (0, table_line(&HEADINGS)),
    };
    kept.set_len(begin)?;
    to.seek(SeekFrom::Start(begin))?;
    to.write_all(&first)?;
    let mut moved = Ok(());
    whole_tables(stopped, |key, begin, end| {
        if moved.is_ok() && held.insert(key) {
            moved = bytes_between(stopped, begin, end).and_then(|bytes| to.write_all(&bytes));
        }
    })?;
    moved?;
    to.flush()?;
    kept.sync_all()?;
    stopped.set_len(0)
}

/// A table's lines. A stop may have cut off the end of the last one, and no more.
fn bytes_between(file: &File, begin: u64, end: u64) -> std::io::Result<Vec<u8>> {
    let mut bytes = vec![0; (end - begin) as usize];
    file.read_exact_at(&mut bytes, begin)?;
    if !bytes.ends_with(b"\n") {
        bytes.push(b'\n');
    }
    Ok(bytes)
}

/// The file itself where the name is a link, and only such a name under which a file can appear by a rename.
fn resolved(path: &Path) -> Result<PathBuf, String> {
    if path.as_os_str() == "-" {
        return Err("-: the table appears when it is whole, so it cannot go to standard output; name a file".into());
    }
    let path = match std::fs::canonicalize(path) {
        Ok(there) => there,
        Err(_) if path.is_symlink() => return Err(format!("{}: this is a link to what is not there; name a file", path.display())),
        // what else is wrong is told by whoever makes the file
        Err(_) => path.into(),
    };
    for file in [&path, &unfinished(&path), &kept(&path)] {
        if std::fs::symlink_metadata(file).is_ok_and(|about| !about.is_file()) {
            return Err(format!("{}: this is no ordinary file; the table appears by a rename, so name a file", file.display()));
        }
    }
    Ok(path)
}

/// Whether the file begins as a batch's output does, or is the front of such a beginning, as where a run was stopped at once.
fn is_ours(path: &Path) -> std::io::Result<bool> {
    let file = match File::open(path) {
        Err(fault) if fault.kind() == std::io::ErrorKind::NotFound => return Ok(true),
        file => file?,
    };
    let wanted = table_line(&HEADINGS);
    let mut first = Vec::new();
    BufReader::new(file).take(wanted.len() as u64).read_until(b'\n', &mut first)?;
    Ok(wanted.starts_with(&first))
}

impl Output {
    /// The words say what stands in the way, and what to do.
    pub fn begin(asked: &Path) -> Result<Self, String> {
        let path = &resolved(asked)?;
        let fault = |fault: std::io::Error| format!("{}: cannot be written ({fault}); name a file in a folder that is there and may be written to", path.display());
        let work = unfinished(path);
        for file in [path, &work, &kept(path)] {
            if !is_ours(file).map_err(fault)? {
                return Err(format!("{}: this file is there, and is no output of ndigo batch of this edition; move it away, or name another --out", file.display()));
            }
        }
        let file = claimed(&work).map_err(fault)?;
        let mut file = file.ok_or_else(|| format!("{}: another run is writing this; wait for it, or name another --out", path.display()))?;
        if file.metadata().map_err(fault)?.len() > 0 {
            put_by(&file, &kept(path)).map_err(fault)?;
        }
        file.seek(SeekFrom::Start(0)).and_then(|_| file.write_all(&table_line(&HEADINGS))).map_err(fault)?;
        Ok(Self { path: path.into(), lines: BufWriter::new(file), flushed: Instant::now() })
    }

    /// Where the lines stand until they are all there.
    pub fn unfinished(&self) -> PathBuf {
        unfinished(&self.path)
    }

    /// Where lines of earlier runs may stand.
    pub fn earlier(&self) -> [PathBuf; 2] {
        [kept(&self.path), self.path.clone()]
    }

    pub fn put(&mut self, bytes: &[u8]) -> std::io::Result<()> {
        self.lines.write_all(bytes)
    }

    /// Sends what was held back long enough to the file.
    pub fn settle(&mut self) -> std::io::Result<()> {
        if self.flushed.elapsed() >= HELD {
            self.lines.flush()?;
            self.flushed = Instant::now();
        }
        Ok(())
    }

    /// Gives the file its name, once all of it is on the disk.
    pub fn finish(&mut self) -> std::io::Result<()> {
        self.lines.flush()?;
        self.lines.get_ref().sync_all()?;
        std::fs::rename(self.unfinished(), &self.path)?;
        match std::fs::remove_file(kept(&self.path)) {
            Err(fault) if fault.kind() != std::io::ErrorKind::NotFound => Err(fault),
            _ => Ok(()),
        }
    }
}
