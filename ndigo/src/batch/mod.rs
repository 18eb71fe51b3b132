//! Many tables into one file: worked side by side, written in the order in which they were named, kept from one run to the next.
mod earlier;
mod line;
mod output;
mod source;
mod tally;

use crate::work::{say, watched};
use earlier::Earlier;
use line::{How, Lines, Maker};
use output::{Output, HELD};
use source::{Source, Table};
use std::collections::BTreeMap;
use std::path::PathBuf;
use std::sync::{mpsc, Condvar, Mutex, MutexGuard, PoisonError};
use std::time::Duration;
use tally::Tally;

pub use line::HEADINGS;

/// What a batch is asked for.
#[derive(Debug)]
pub struct Asked {
    pub files: Vec<String>,
    /// Names more files, one a line.
    pub list: Option<String>,
    pub out: PathBuf,
    /// How many tables at a time; one a core where it is not said.
    pub jobs: Option<usize>,
    pub sort: bool,
    /// How long to look deeper where a search stopped early, if that is asked for.
    pub deeper: Option<Duration>,
}

/// How many tables may be begun before the first of them is written: what bounds the memory where one takes long.
const AHEAD: u64 = 4096;

const BAR: &str = "{bar:30} {pos} of {len} tables, {rate}, {eta} left";

/// Where nobody knows how many there will be.
const COUNT: &str = "{spinner} {pos} tables, {rate}, {elapsed}";

/// How far it is.
#[derive(Default)]
struct Progress {
    written: u64,
    /// Nothing more is to be begun.
    stopped: bool,
}

/// The tables that are not begun yet, shared by all workers. The source has a lock of its own: it may wait for a name to come by a pipe.
struct Queue {
    source: Mutex<Source>,
    progress: Mutex<Progress>,
    moved: Condvar,
}

fn locked<T>(lock: &Mutex<T>) -> MutexGuard<'_, T> {
    lock.lock().unwrap_or_else(PoisonError::into_inner)
}

impl Queue {
    /// The next table and its place; none where there is no more.
    fn take(&self) -> Option<(u64, Table, Option<u64>)> {
        let mut source = locked(&self.source);
        let begun = source.taken();
        let ahead = |progress: &mut Progress| !progress.stopped && begun >= progress.written + AHEAD;
        if self.moved.wait_while(locked(&self.progress), ahead).unwrap_or_else(PoisonError::into_inner).stopped {
            return None;
        }
        let table = source.next()?;
        Some((begun, table, source.expected()))
    }

    fn update(&self, change: impl FnOnce(&mut Progress)) {
        change(&mut locked(&self.progress));
        self.moved.notify_all();
    }
}

/// A worker that does not end by itself must not keep the others waiting.
struct Stops<'a>(&'a Queue);

impl Drop for Stops<'_> {
    fn drop(&mut self) {
        if std::thread::panicking() {
            self.0.update(|progress| progress.stopped = true);
        }
    }
}

/// Writes each table's lines as soon as all before it are written.
fn write_in_order(done: mpsc::Receiver<(u64, Lines)>, queue: &Queue, output: &mut Output) -> std::io::Result<Tally> {
    let mut early: BTreeMap<u64, Lines> = BTreeMap::new();
    let mut tally = Tally::default();
    let mut written = 0;
    loop {
        match done.recv_timeout(HELD) {
            Ok((place, lines)) => early.insert(place, lines),
            Err(mpsc::RecvTimeoutError::Timeout) => None,
            Err(mpsc::RecvTimeoutError::Disconnected) => return Ok(tally),
        };
        let before = written;
        while let Some(lines) = early.remove(&written) {
            output.put(&lines.bytes)?;
            tally.add(&lines.tally);
            written += 1;
        }
        output.settle()?;
        if written > before {
            queue.update(|progress| progress.written = written);
        }
    }
}

fn work(queue: &Queue, maker: &Maker, workers: usize, output: &mut Output) -> std::io::Result<Tally> {
    let template = if locked(&queue.source).expected().is_some() { BAR } else { COUNT };
    watched(0, template, |bar| {
        std::thread::scope(|scope| {
            let (told, done) = mpsc::channel();
            for _ in 0..workers {
                let told = told.clone();
                scope.spawn(move || {
                    let _stops = Stops(queue);
                    while let Some((place, table, expected)) = queue.take() {
                        bar.set_length(expected.unwrap_or(0).max(place + 1));
                        let lines = maker.lines(table);
                        bar.inc(1);
                        if told.send((place, lines)).is_err() {
                            break;
                        }
                    }
                });
            }
            drop(told);
            let tally = write_in_order(done, queue, output);
            queue.update(|progress| progress.stopped = true);
            tally
        })
    })
}

/// Answers all tables into the file and gives the worst status.
pub fn run(asked: &Asked) -> u8 {
    let cores = std::thread::available_parallelism().map_or(1, usize::from);
    let workers = asked.jobs.unwrap_or(cores);
    let begun = Source::of(&asked.files, asked.list.as_deref()).map_err(|words| (2, words));
    let begun = begun.and_then(|source| Output::begin(&asked.out).map(|output| (source, output)).map_err(|words| (3, words)));
    let (source, mut output) = match begun {
        Ok(begun) => begun,
        Err((status, words)) => {
            say(&format!("ndigo: {words}"));
            return status;
        }
    };
    let maker = Maker::new(How { sort: asked.sort, deeper: asked.deeper }, Earlier::of(&output));
    let queue = Queue { source: Mutex::new(source), progress: Mutex::default(), moved: Condvar::new() };
    let done = work(&queue, &maker, workers, &mut output).and_then(|tally| output.finish().map(|()| tally));
    match done {
        Ok(tally) => {
            say(&format!("{}: {tally}", asked.out.display()));
            tally.status()
        }
        Err(fault) => {
            let full = matches!(fault.kind(), std::io::ErrorKind::StorageFull | std::io::ErrorKind::QuotaExceeded);
            let instead = if full { "make room there, and start again to go on" } else { "start again to go on, or name another --out" };
            say(&format!("{}: cannot be written ({fault}); what was answered stands in {}: {instead}", asked.out.display(), output.unfinished().display()));
            3
        }
    }
}
