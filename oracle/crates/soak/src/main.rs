//! Damaged jobs and accepted ones by the million, each answer of the library held to the second reading or to the Rust (oracle/README.md, "The soak").
//! `soak --harness COMMAND --listing FILE [--sanitized COMMAND] [--valgrind COMMAND] [--short] [--seed N] [--damaged N] [--accepted N] [--keep FOLDER] [--plant WORDS]`;
//! a command's words are parted by spaces, the listing is `objdump`'s of the harness, differences are kept in the folder, and a planted mistake is named by its words.
mod accepted;
mod asking;
mod blocks;
mod damage;
mod damaged;
mod harness;
mod judging;
mod kept;
mod message;
mod planted;
mod pool;
mod progress;
mod question;
mod records;
mod tally;

use asking::Commands;
use blocks::Blocks;
use damaged::Left;
use judge::rules::{Rules, DOCUMENT};
use judging::By;
use std::fs;
use std::process::ExitCode;
use std::sync::atomic::{AtomicBool, AtomicU64, Ordering};
use std::sync::Mutex;
use std::thread;
use std::time::Instant;
use tally::Tally;

const WORKERS: u64 = 2;
/// How many planted mistakes the sampled jobs must tell apart at least; some show in no job, but in calls alone.
const TOLD_AT_LEAST: usize = 100;
const BLOCK_LIST: &str = "target/soak/blocks";

struct Options {
    commands: Commands,
    listing: String,
    seed: u64,
    damaged: u64,
    accepted: u64,
    keep: String,
    planted: Option<&'static Rules>,
}

fn options() -> Options {
    let mut o = Options { commands: Commands::default(), listing: String::new(), seed: 1, damaged: 10_000_000, accepted: 1_000_000, keep: "target/soak".to_string(), planted: None };
    let mut words = std::env::args().skip(1);
    while let Some(word) = words.next() {
        let mut next = || words.next().unwrap_or_else(|| panic!("a word must follow {word}"));
        let parted = |command: String| command.split(' ').map(str::to_string).collect();
        match word.as_str() {
            "--short" => (o.damaged, o.accepted) = (20_000, 1_000),
            "--harness" => o.commands.plain = parted(next()),
            "--sanitized" => o.commands.sanitized = parted(next()),
            "--valgrind" => o.commands.valgrind = parted(next()),
            "--listing" => o.listing = next(),
            "--seed" => o.seed = number(&word, &next()),
            "--damaged" => o.damaged = number(&word, &next()),
            "--accepted" => o.accepted = number(&word, &next()),
            "--keep" => o.keep = next(),
            "--plant" => o.planted = Some(planted::rules(&next())),
            _ => panic!("unknown word {word}; oracle/README.md has them, under \"The soak\""),
        }
    }
    o
}

fn number(word: &str, given: &str) -> u64 {
    given.parse().unwrap_or_else(|_| panic!("{word} takes a whole number, not {given:?}"))
}

/// What all workers left of one kind of run, and how long it took.
struct Run {
    tally: Tally,
    reached: Vec<bool>,
    sample: Vec<(Vec<u8>, Vec<u8>)>,
    seconds: f64,
}

/// Each worker has a seed, a harness and an equal share of its own.
fn work(name: &str, o: &Options, upto: u64, one: impl Fn(u64, (u64, &AtomicU64)) -> Left + Sync) -> Run {
    let (done, over) = (AtomicU64::new(0), AtomicBool::new(false));
    let begun = Instant::now();
    let all = Mutex::new(Run { tally: Tally::default(), reached: vec![], sample: vec![], seconds: 0.0 });
    let seeds: Vec<u64> = (0..WORKERS).map(|worker| o.seed.wrapping_mul(1_000_003).wrapping_add(worker)).collect();
    println!("{name}: --seed {}, so workers begin with {seeds:?}", o.seed);
    thread::scope(|scope| {
        scope.spawn(|| progress::tell(name, &done, upto, &over));
        let (one, done) = (&one, &done);
        let share = move |worker: u64| (upto * (worker + 1) / WORKERS - upto * worker / WORKERS, done);
        let workers: Vec<_> = (0..).zip(&seeds).map(|(worker, &seed)| scope.spawn(move || one(seed, share(worker)))).collect();
        for worker in workers {
            let left = worker.join().expect("a worker ends");
            all.lock().expect("not poisoned").take_in(left);
        }
        over.store(true, Ordering::Relaxed);
    });
    let mut run = all.into_inner().expect("not poisoned");
    run.seconds = begun.elapsed().as_secs_f64();
    run
}

impl Run {
    fn take_in(&mut self, left: Left) {
        self.tally.merge(left.tally);
        self.sample.extend(left.sample);
        self.reached.resize(left.reached.len(), false);
        self.reached.iter_mut().zip(left.reached).for_each(|(is, more)| *is |= more);
    }
}

fn list_blocks(o: &mut Options) -> Blocks {
    let listing = fs::read_to_string(&o.listing).unwrap_or_else(|error| panic!("{}: {error}; oracle/soak makes it by objdump", o.listing));
    let blocks = Blocks::of(&listing);
    fs::write(BLOCK_LIST, blocks.addresses()).unwrap_or_else(|error| panic!("{BLOCK_LIST}: {error}"));
    o.commands.plain.extend(["--guided".to_string(), BLOCK_LIST.to_string()]);
    blocks
}

fn print_blocks(blocks: &Blocks, damaged: &Run, accepted: &Run) {
    let both: Vec<bool> = damaged.reached.iter().zip(&accepted.reached).map(|(one, other)| *one || *other).collect();
    let count = |reached: &[bool]| reached.iter().filter(|&&is| is).count();
    println!(
        "blocks of the library's code: {} of {} reached by damaged jobs, {} by accepted ones, {} by both together; {} damaged jobs were the first to reach one",
        count(&damaged.reached), blocks.0.len(), count(&accepted.reached), count(&both), damaged.tally.guided
    );
    for (name, missed, of) in blocks.unreached(&both) {
        println!("  {missed:>5} of {of:>5} blocks not reached in {name}");
    }
}

/// Whether the library's own texts tell enough of the planted mistakes from it.
fn planted_are_told(damaged: Run, accepted: Run) -> bool {
    let (told, of) = planted::told_apart(&[damaged.sample, accepted.sample].concat());
    println!("planted mistakes: {told} of {of} told apart by what the library said to the first jobs of each worker; at least {TOLD_AT_LEAST} must be");
    told >= TOLD_AT_LEAST
}

fn main() -> ExitCode {
    let mut o = options();
    let blocks = list_blocks(&mut o);
    for command in [&o.commands.plain, &o.commands.sanitized, &o.commands.valgrind].into_iter().filter(|command| !command.is_empty()) {
        if let Err(words) = planted::harness_is_watched(command) {
            println!("{}: {words}", command.join(" "));
            return ExitCode::FAILURE;
        }
    }
    let by = By::Reading(o.planted.unwrap_or(&DOCUMENT));
    let damaged = work("damaged jobs", &o, o.damaged, |seed, share| damaged::soak(seed, &o.commands, &o.keep, by, share));
    damaged.tally.print("damaged jobs", damaged.seconds);
    damaged.tally.print_damaged();
    let accepted = work("accepted jobs and calls", &o, o.accepted, |seed, share| accepted::soak(seed, &o.commands, &o.keep, share));
    accepted.tally.print("accepted jobs and calls", accepted.seconds);
    print_blocks(&blocks, &damaged, &accepted);
    let differences = damaged.tally.differences + accepted.tally.differences;
    let words = if differences == 0 { "no difference".to_string() } else { format!("{differences} differences") };
    let words = format!("{} damaged and {} accepted: {words}", damaged.tally.asked, accepted.tally.asked);
    let told = o.planted.is_some() || planted_are_told(damaged, accepted);
    println!("{words}");
    ExitCode::from((differences > 0 || !told) as u8)
}
