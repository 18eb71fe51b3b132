//! The differential run: generated jobs put to the program and to the linked library, and every answer compared with
//! the judge's; texts put to the library's counter in both readings of letters; and jobs moved from one edition to the other, there and back. `run [--short] [--no-program] [--no-library] [--seed N]
//! [--inputs N] [--calls N] [--every N]`; `--every` takes each N-th of the jobs that are made exhaustively
use judge::answer::{self, Answer};
use judge::call::Call;
use judge::document::{call_answer, checked, program_answers, record_buffer, several_answers};
use judge::generate;
use judge::job;
use judge::kinds::{self, Counts};
use judge::met::Met;
use judge::random::Random;
use judge::rules::DOCUMENT;
use judge::rust::Judged;
use judge::several::Several;
use judge::{describe, exhaust, library, moving, program, proposal, rust, shrink};
use std::io::{self, Read, Write};
use std::process::{Command, ExitCode, Stdio};
use std::sync::atomic::{AtomicU64, Ordering};
use std::sync::Mutex;
use std::thread;

struct Options {
    program: Option<String>,
    library: bool,
    seed: u64,
    inputs: u64,
    calls: u64,
    exhaust_step: usize,
    /// the longest of the texts of which all are counted, and how many long ones are drawn
    short_texts: u32,
    long_texts: u64,
}

fn options() -> Options {
    let mut o = Options {
        program: Some("target/bin/ndigomarr".to_string()),
        library: true,
        seed: 1,
        inputs: 100_000,
        calls: 5_000,
        exhaust_step: 1,
        short_texts: 7,
        long_texts: 3_000,
    };
    let mut words = std::env::args().skip(1);
    let mut short = false;
    while let Some(word) = words.next() {
        let mut number = || words.next().and_then(|n| n.parse().ok()).expect("a number");
        match word.as_str() {
            "--short" => short = true,
            "--no-program" => o.program = None,
            "--no-library" => o.library = false,
            "--seed" => o.seed = number(),
            "--inputs" => o.inputs = number(),
            "--calls" => o.calls = number(),
            "--every" => o.exhaust_step = number() as usize,
            _ => panic!("unknown word {word}"),
        }
    }
    if short {
        (o.inputs, o.calls, o.exhaust_step) = (o.inputs.min(15_000), o.calls.min(800), o.exhaust_step.max(11));
        (o.short_texts, o.long_texts) = (5, 100);
    }
    o
}

#[derive(Default)]
struct Tally {
    compared: u64,
    differences: u64,
    shown: Vec<String>,
    counts: Counts,
}

impl Tally {
    fn differ(&mut self, words: impl FnOnce() -> String) {
        self.differences += 1;
        if self.shown.len() < 5 {
            self.shown.push(words());
        }
    }

    fn merge(&mut self, other: Tally) {
        self.compared += other.compared;
        self.differences += other.differences;
        self.shown.extend(other.shown);
        kinds::merge(&mut self.counts, other.counts);
    }
}

/// What the program prints for these bytes.
fn printed(program: &str, bytes: &[u8]) -> io::Result<String> {
    let mut child = Command::new(program).stdin(Stdio::piped()).stdout(Stdio::piped()).spawn()?;
    // A program that refuses an input for its length need not read all of it.
    let _ = child.stdin.take().unwrap().write_all(bytes);
    let mut text = String::new();
    child.stdout.take().unwrap().read_to_string(&mut text)?;
    let status = child.wait()?;
    Ok(if status.success() { text } else { format!("{text}{status}\n") })
}

/// An input of either edition, put to the library's own call for a whole job, and each fifth to the program too.
fn compare_edition_two(tally: &mut Tally, number: u64, o: &Options) {
    let bytes = generate::edition_two_input(&mut seeded(o, 7, number));
    let must = program::answers(&bytes);
    kinds::of_edition(&mut tally.counts, &bytes, job::read(&DOCUMENT, &bytes).ok().as_ref(), &must);
    if o.library {
        tally.compared += 1;
        let differs = |one: &[u8]| library::program_text(one) != Ok(program::text(one));
        if differs(&bytes) {
            tally.differ(|| {
                let small = shrink::bytes(bytes.clone(), differs);
                format!("{}\n  must be\n{}  is {:?}", describe::bytes(&small), program::text(&small), library::program_text(&small))
            });
        }
    }
    if number % 5 == 0 || !o.library {
        compare_input(tally, bytes, o);
    } else if program_answers(&DOCUMENT, &bytes, &mut Met::default()) != must {
        tally.differ(|| format!("the second reading says otherwise of {}", describe::bytes(&bytes)));
    }
}

/// A move by the judge, by the document and by the library; and where it is made, the way back, and both jobs' answers.
fn compare_move(tally: &mut Tally, asked: &moving::Asked, o: &Options) {
    let must = moving::judged(asked);
    kinds::of_move(&mut tally.counts, asked, &must);
    let second = moving::moved(&DOCUMENT, asked);
    if second != must {
        tally.differ(|| format!("the second reading says {second:?}, the judge {must:?} of {}", describe::asked_of_mover(asked)));
    }
    if !o.library {
        return;
    }
    tally.compared += 1;
    let said = library::move_job(asked);
    if said.as_ref() != Ok(&must) {
        return tally.differ(|| format!("must be {must:?}\n  is {said:?}\n  of {}", describe::asked_of_mover(asked)));
    }
    if must.refusal == 0 {
        if let Err(words) = library_goes_back(asked, &must) {
            tally.differ(|| format!("{words}: {}", describe::asked_of_mover(asked)));
        }
    }
}

/// "There and back gives the first bytes". "Answers to a job and its moved form are equal, where 26 isn't given to one of them for its length."
fn library_goes_back(asked: &moving::Asked, seen: &moving::Seen) -> Result<(), String> {
    let there = &seen.lent[..seen.written as usize];
    let back = moving::Asked { bytes: there.to_vec(), edition: 3 - asked.edition, lent: vec![0xa5; asked.bytes.len()] };
    let first = moving::Seen { refusal: 0, written: asked.bytes.len() as u64, lent: asked.bytes.clone() };
    let said = library::move_job(&back)?;
    if said != first {
        return Err(format!("the way back gives {said:?}"));
    }
    let (one, other) = (library::program_text(&asked.bytes)?, library::program_text(there)?);
    let too_long = |bytes: &[u8]| bytes.len() > 32_768;
    if one != other && !too_long(&asked.bytes) && !too_long(there) {
        return Err(format!("the job's answer is {one:?}, its moved form's {other:?}"));
    }
    Ok(())
}

fn compare_input(tally: &mut Tally, bytes: Vec<u8>, o: &Options) {
    let judged = program::judged(&bytes);
    let mut met = Met::default();
    let second = program_answers(&DOCUMENT, &bytes, &mut met);
    let job = job::read(&DOCUMENT, &bytes).ok();
    kinds::of_input(&mut tally.counts, job.as_ref(), &judged, &met);
    if let Some(job) = job {
        if job.bytes() != bytes && !job.settings.floats().iter().any(|x| x.is_nan()) {
            tally.differ(|| format!("the writer makes other bytes of {}", describe::job(&job)));
        }
    }
    if second != answers(&judged) {
        tally.differ(|| format!("the second reading says {second:?} of {}", describe::bytes(&bytes)));
    }
    if let Some(program) = &o.program {
        tally.compared += 1;
        let text = printed(program, &bytes).expect("the program runs");
        if text != answer::text(&DOCUMENT, &answers(&judged)) {
            tally.differ(|| {
                let differs = |one: &[u8]| printed(program, one).is_ok_and(|said| said != program::text(one));
                let small = shrink::bytes(bytes, differs);
                let (must, says) = (program::text(&small), printed(program, &small).unwrap_or_default());
                format!("{}\n  must print\n{must}  prints\n{says}", describe::bytes(&small))
            });
        }
    }
}

fn compare_call(tally: &mut Tally, call: &Call, o: &Options) {
    let judged = rust::judged(call);
    let mut met = Met::default();
    let second = call_answer(&DOCUMENT, call, &mut met);
    kinds::of_judged(&mut tally.counts, call, &judged, &met);
    kinds::of_numbers(&mut tally.counts, call, &judged.answer);
    kinds::of_blank_rows(&mut tally.counts, call, &judged.answer);
    kinds::of_reading(&mut tally.counts, call, &judged.answer);
    if second != judged.answer {
        tally.differ(|| format!("the second reading says {second:?} of {}", describe::call(call)));
    }
    if o.library {
        tally.compared += 1;
        if let Err(words) = library_says(call, &judged.answer) {
            tally.differ(|| format!("{words}\n  of {}", describe::call(call)));
        }
    }
}

/// Our own answer with the list that won, which must be a yes, or something near it; by the judge, the second reading and the library.
fn compare_proposal(tally: &mut Tally, call: &Call, r: &mut Random, o: &Options) {
    let answer = rust::judged(call).answer;
    let ours = answer.refusal == 0 && call.searches(&DOCUMENT) && f32::from_bits(answer.score) > 0.0;
    let mut proposals = vec![generate::proposal(r, call, &answer)];
    if ours {
        proposals.extend(proposal::own(call, &answer.rows, answer.score));
    }
    for (at, one) in proposals.iter().enumerate() {
        let must = if at == 1 { (0, true) } else { proposal::judged(call, one) };
        let kind = match must {
            (0, true) if at == 1 => "our own answer".to_string(),
            (0, yes) => if yes { "yes" } else { "no" }.to_string(),
            (number, _) => format!("refusal {number}"),
        };
        kinds::add(&mut tally.counts, format!("proposal: {kind}"));
        let second = checked(&DOCUMENT, call, one);
        if second != must || proposal::judged(call, one) != must {
            tally.differ(|| format!("the second reading says {second:?}, the judge {must:?} of {} for {}", describe::proposal(one), describe::call(call)));
        }
        if o.library {
            tally.compared += 1;
            let said = library::check_path(call, one);
            if said != Ok(must) {
                tally.differ(|| format!("must be {must:?}, is {said:?}\n  of {} for {}", describe::proposal(one), describe::call(call)));
            }
        }
    }
    if ours && proposals.len() < 2 {
        tally.differ(|| format!("no list gives the score of {answer:?} for {}", describe::call(call)));
    }
}

fn answers(judged: &[Judged]) -> Vec<Answer> {
    judged.iter().map(|one| one.answer.clone()).collect()
}

fn compare_several(tally: &mut Tally, several: &Several, o: &Options) {
    let judged = rust::judged_several(several);
    let must = answers(&judged);
    let second = several_answers(&DOCUMENT, several, &mut Met::default());
    kinds::of_several(&mut tally.counts, several, &judged);
    if second != must {
        tally.differ(|| format!("the second reading says {second:?} of {}", describe::several(several)));
    }
    if o.library {
        tally.compared += 1;
        if library_says_of_several(several, &must).is_err() {
            tally.differ(|| {
                let says = |one: &Several| library_says_of_several(one, &answers(&rust::judged_several(one)));
                let small = shrink::several(several.clone(), |one| says(one).is_err());
                format!("{}\n  of {}", says(&small).err().unwrap_or_default(), describe::several(&small))
            });
        }
    }
}

/// The same for several haplotypes: each buffer whole, and the words around each.
fn library_says_of_several(several: &Several, must: &[Answer]) -> Result<(), String> {
    let said = library::several(several)?;
    let seen = several.seen(&DOCUMENT, must);
    if said.seen != seen {
        return Err(format!("must be {seen:?}\n  is      {:?}", said.seen));
    }
    if !said.guards_unchanged {
        return Err("a word beside a lent buffer changed".to_string());
    }
    let searched = several.call.searches(&DOCUMENT) && must.iter().any(|answer| answer.refusal == 0);
    if !searched && !said.queue_unchanged {
        return Err("the queue changed, and no search ran".to_string());
    }
    Ok(())
}

/// The linked library's answer, its rows and records, and what it left alone.
fn library_says(call: &Call, must: &Answer) -> Result<(), String> {
    let said = library::answer(call)?;
    if said.answer != *must {
        return Err(format!("must be {must:?}\n  is      {:?}", said.answer));
    }
    if !said.rest_unchanged {
        return Err("the rest of the answer buffer changed".to_string());
    }
    let second = record_buffer(&DOCUMENT, call, must);
    if said.record_buffer != second {
        return Err(format!("the second buffer must be {second:?}\n  is {:?}", said.record_buffer));
    }
    let searched = must.refusal == 0 && call.searches(&DOCUMENT);
    if !searched && !said.queue_unchanged {
        return Err("the queue changed, and no search ran".to_string());
    }
    Ok(())
}

/// Two workers take numbers from one counter.
fn work(upto: u64, one: impl Fn(&mut Tally, u64) + Sync) -> Tally {
    let next = AtomicU64::new(0);
    let all = Mutex::new(Tally::default());
    let workers = thread::available_parallelism().map_or(2, |n| n.get()).max(2);
    thread::scope(|scope| {
        for _ in 0..workers {
            scope.spawn(|| {
                let mut tally = Tally::default();
                loop {
                    let number = next.fetch_add(1, Ordering::Relaxed);
                    if number >= upto {
                        break;
                    }
                    one(&mut tally, number);
                }
                all.lock().unwrap().merge(tally);
            });
        }
    });
    all.into_inner().unwrap()
}

/// A text at these k and both signs, in both readings.
fn compare_counts(tally: &mut Tally, text: &[u8], ks: impl Iterator<Item = u8>) {
    for (k, negative) in ks.flat_map(|k| [(k, false), (k, true)]) {
        tally.compared += 1;
        if let Err(words) = library::counts_alike(text, k, negative, &mut tally.counts) {
            tally.differ(|| words);
        }
    }
}

/// All texts over these bytes, by their number: those of one letter behind the empty one, and so on.
fn text_of(number: u64) -> Vec<u8> {
    const BYTES: &[u8; 7] = b"ACGTNn-";
    let (mut code, mut text) = (number, vec![]);
    while code > 0 {
        code -= 1;
        text.push(BYTES[(code % 7) as usize]);
        code /= 7;
    }
    text
}

fn all_texts(o: &Options) -> Tally {
    let count = (7u64.pow(o.short_texts + 1) - 1) / 6;
    let texts = work(if o.library { count } else { 0 }, |tally, i| compare_counts(tally, &text_of(i), 1..=3));
    report(&format!("texts of up to {} letters over A C G T N n -, in both readings", o.short_texts), count, &texts);
    texts
}

fn drawn_texts(o: &Options) -> Tally {
    let texts = work(if o.library { o.long_texts } else { 0 }, |tally, i| {
        let r = &mut seeded(o, 6, i);
        let length = match r.below(10) {
            0 => 131_072,
            1..=4 => r.below(131_073),
            _ => r.below(2_000),
        };
        let (text, k) = (generate::text(r, length as usize), 1 + r.below(6) as u8);
        compare_counts(tally, &text, [k].into_iter());
    });
    report("texts of up to 131,072 letters, in both readings", o.long_texts, &texts);
    texts
}

fn report(name: &str, jobs: u64, tally: &Tally) {
    println!("{name}: {jobs} jobs, {} compared, {} differences", tally.compared, tally.differences);
    for (kind, count) in &tally.counts {
        println!("  {count:>8}  {kind}");
    }
    for words in tally.shown.iter().take(5) {
        println!("DIFFERENCE {words}");
    }
}

fn seeded(o: &Options, stream: u64, number: u64) -> Random {
    Random::new(o.seed.wrapping_mul(0x2545_f491_4f6c_dd1d) ^ (stream << 60) ^ number.wrapping_mul(0x9e37_79b9))
}

fn main() -> ExitCode {
    let o = options();
    let short: Vec<Vec<u8>> = exhaust::jobs().step_by(o.exhaust_step).map(|job| job.bytes()).collect();
    let all_short = work(short.len() as u64, |tally, i| compare_input(tally, short[i as usize].clone(), &o));
    report("short jobs, exhaustively", short.len() as u64, &all_short);
    let inputs = work(o.inputs, |tally, i| {
        compare_input(tally, generate::input(&mut seeded(&o, 1, i)), &o);
    });
    report("program size", o.inputs, &inputs);
    let several_inputs = work(o.inputs / 5, |tally, i| {
        compare_input(tally, generate::several_input(&mut seeded(&o, 4, i)), &o);
    });
    report("program size, several haplotypes", o.inputs / 5, &several_inputs);
    let calls = work(o.calls, |tally, i| {
        let budget = if i % 50 == 0 { 100_000_000 } else { 3_000_000 };
        let call = generate::call(&mut seeded(&o, 2, i), budget);
        compare_call(tally, &call, &o);
    });
    report("library size", o.calls, &calls);
    let several_calls = work(o.calls, |tally, i| {
        let (size, budget) = if i % 3 == 0 { (generate::LIBRARY, 1_000_000) } else { (generate::PROGRAM, 100_000) };
        compare_several(tally, &generate::several_call(&mut seeded(&o, 5, i), size, budget), &o);
    });
    report("library, several haplotypes", o.calls, &several_calls);
    let smaller = work(if o.library { o.inputs } else { 0 }, |tally, i| {
        tally.compared += 1;
        if let Err(words) = library::smaller_call(&mut seeded(&o, 3, i), &mut tally.counts) {
            tally.differ(|| words);
        }
    });
    report("smaller calls of the library", smaller.compared, &smaller);
    let (texts, long_texts) = (all_texts(&o), drawn_texts(&o));
    let proposals = work(2 * o.calls, |tally, i| {
        let mut r = seeded(&o, 6, i);
        let call = generate::proposed_call(&mut r, i % 5 == 0);
        compare_proposal(tally, &call, &mut r, &o);
    });
    report("proposed paths", 2 * o.calls, &proposals);
    let editions = work(o.inputs, |tally, i| compare_edition_two(tally, i, &o));
    report("program size, edition 2", o.inputs, &editions);
    let moves = work(o.inputs, |tally, i| compare_move(tally, &generate::move_asked(&mut seeded(&o, 8, i)), &o));
    report("jobs moved to the other edition", o.inputs, &moves);
    let all = [&all_short, &inputs, &several_inputs, &calls, &several_calls, &smaller, &texts, &long_texts, &proposals, &editions, &moves];
    let differences: u64 = all.iter().map(|tally| tally.differences).sum();
    println!(
        "compared {} program-size and {} library-size jobs, {} and {} with several haplotypes, {} smaller calls, {} counts in both readings, {} proposed paths, \
         {} jobs of edition 2 and {} moves: {}",
        all_short.compared + inputs.compared,
        calls.compared,
        several_inputs.compared,
        several_calls.compared,
        smaller.compared,
        texts.compared + long_texts.compared,
        proposals.compared,
        editions.compared,
        moves.compared,
        if differences == 0 { "no difference off the list".to_string() } else { format!("{differences} differences") }
    );
    ExitCode::from((differences > 0) as u8)
}
