//! Seeded jobs that reach what document 01 speaks of: ties, zero and negative sizes, squish, bare graphs, one-to-one,
//! thresholds and penalties at telling values, every kind of refusal, sums at their limits, record numbers of all kinds, rows all zero, and in calls of
//! the library both readings of letters.
use crate::answer::Answer;
use crate::call::{counted, queue_need, Call};
use crate::document::list_score;
use crate::job::{self, record_length, shape, Edition, Job, Part, Settings, Variant, LETTERS_AT};
use crate::moving::{self, other_edition};
use crate::proposal::{self, Proposal};
use crate::random::Random;
use crate::rules::{DOCUMENT, SIZE_LIMIT};
use crate::rust::{chains, part_positions};
use crate::several::Several;

/// How large the jobs may be.
#[derive(Clone, Copy)]
pub struct Size {
    pub variants: u64,
    pub parts: u64,
    pub k: u64,
    pub maxpaths: u32,
    /// most letters of one sequence, now and then
    pub letters: u64,
}

pub const PROGRAM: Size = Size { variants: 16, parts: 8, k: 4, maxpaths: 63, letters: 600 };
pub const LIBRARY: Size = Size { variants: 64, parts: 64, k: 6, maxpaths: 4_095, letters: 3_000 };

fn letter(r: &mut Random, style: u64) -> u8 {
    match style {
        0..=5 => r.pick(b"ACGT"),
        6 => r.pick(b"AG"),
        7 => r.pick(b"ACGTacgt"),
        8 => r.pick(b"ACGTNnacgt-"),
        _ => r.below(256) as u8,
    }
}

/// A text for the counter: of letters that were read, with few, some or many others among them, or stretches of these.
pub fn text(r: &mut Random, length: usize) -> Vec<u8> {
    let others = r.pick(&[0, 1, 10, 50, 95]);
    let stretch = r.pick(&[1, 1, 3, 200]);
    let mut text = vec![];
    while text.len() < length {
        if r.chance(others) {
            let other = if r.chance(70) { r.pick(b"Nn-") } else { r.below(256) as u8 };
            text.resize(text.len() + 1 + r.below(stretch) as usize, other);
        } else {
            text.extend((0..1 + r.below(stretch)).map(|_| r.pick(b"ACGTacgt")));
        }
    }
    text.truncate(length);
    text
}

fn sequence(r: &mut Random, size: Size) -> Vec<u8> {
    let length = match r.below(20) {
        0 => 0,
        1 => r.below(3),
        2 => 16 * r.below(4),
        3 => r.below(size.letters),
        _ => 1 + r.below(12),
    };
    let style = r.below(10);
    (0..length).map(|_| letter(r, style)).collect()
}

fn size_of(r: &mut Random, style: u64, letters: usize) -> i32 {
    let size = match style {
        0 => 1,
        1 => r.within(1, 2),
        2 => r.within(-2, 2),
        3 => r.within(-1, 1),
        4 => r.within(-20, 20),
        5 => r.within(0, 100_000) - 50_000,
        6 => r.pick(&[131_072, -131_072, 131_071, 1, 0]),
        7 => 0,
        _ => letters as i64,
    };
    size as i32
}

fn bounds(r: &mut Random, v: u64) -> Vec<(u64, u64)> {
    let style = r.below(7);
    let spread = 1 + r.below(4 * v + 4);
    let base = if r.chance(3) { u64::MAX - 10_000 } else { r.below(3) };
    let mut list: Vec<(u64, u64)> = (0..v)
        .map(|row| match style {
            0 => (base + 10 * row, base + 10 * row),
            1 => (base + 10 * row, base + 10 * row + 1 + r.below(9)),
            2 => (base + 10 * row, base + 10 * row + 10),
            3 => (base, base + r.below(3)),
            _ => {
                let start = base + r.below(spread);
                (start, start + if r.chance(30) { 0 } else { r.below(spread / 2 + 2) })
            }
        })
        .collect();
    list.sort();
    list
}

struct Pool {
    letters: Vec<Vec<u8>>,
    style: u64,
}

fn event(r: &mut Random, pool: &Pool, size: Size) -> (i32, bool, Vec<u8>) {
    let letters = if r.chance(70) { r.pick(&pool.letters) } else { sequence(r, size) };
    let measure = size_of(r, pool.style, letters.len());
    let negative = if r.chance(85) { measure < 0 } else { r.chance(50) };
    (measure, negative, letters)
}

fn changed(r: &mut Random, letters: &[u8]) -> Vec<u8> {
    let mut letters = letters.to_vec();
    for _ in 0..r.below(3) {
        match r.below(3) {
            0 if !letters.is_empty() => {
                let at = r.below(letters.len() as u64) as usize;
                letters[at] = r.pick(b"ACGT");
            }
            1 if !letters.is_empty() => {
                letters.pop();
            }
            _ => letters.push(r.pick(b"ACGT")),
        }
    }
    letters
}

fn part(r: &mut Random, variants: &[Variant], before: &[Part], pool: &Pool, size: Size) -> Part {
    if !before.is_empty() && r.chance(20) {
        return r.pick(before);
    }
    if r.chance(65) {
        let v = r.pick(variants);
        let letters = if r.chance(70) { v.letters } else { changed(r, &v.letters) };
        let change = if r.chance(80) { 0 } else { r.within(-1, 1) as i32 };
        let limit = SIZE_LIMIT as i32;
        return Part { size: (v.size + change).clamp(-limit, limit), negative: v.negative, letters };
    }
    let (size, negative, letters) = event(r, pool, size);
    Part { size, negative, letters }
}

/// A threshold that some similarity may meet exactly.
fn threshold(r: &mut Random) -> f32 {
    let of = |r: &mut Random| {
        let d = r.within(2, 12);
        (r.within(0, d) as f32, d as f32)
    };
    match r.below(10) {
        0 | 1 => 0.0,
        2 => -0.0,
        3 => 1.0,
        4 => 0.5,
        5 => 0.9,
        6 => {
            let (n, d) = of(r);
            n / d
        }
        7 => {
            let (n, d) = of(r);
            1.0 - n / d
        }
        _ => r.below(500) as f32 / 1000.0,
    }
}

fn penalty(r: &mut Random) -> f32 {
    match r.below(12) {
        0..=3 => 0.0,
        4 => -0.0,
        5 => 0.1,
        6 => 0.02,
        7 => r.pick(&[0.25f32, 0.5, 0.125, 0.75]),
        8 => r.pick(&[1.0f32, 0.3, 1.0 / 3.0]),
        9 => r.pick(&[1e-20f32, 1e-38, 1e-45, 1000.0]),
        _ => r.below(300) as f32 / 1000.0,
    }
}

fn settings(r: &mut Random, v: u64, m: u64, size: Size) -> Settings {
    let most = u64::from(size.maxpaths);
    Settings {
        k: (1 + r.below(size.k)) as u8,
        squish: r.chance(20),
        one_to_one: r.chance(10),
        full: r.chance(90),
        maxpaths: match r.below(6) {
            0 => r.below(4) as u32,
            1 => r.below(v + 2).min(most) as u32,
            2 => r.below(most + 1) as u32,
            _ => size.maxpaths,
        },
        maxnodes: match r.below(12) {
            0 => r.below(v + 1) as u32,
            1 | 2 => v as u32,
            3 => v as u32 + 1,
            _ => 65_535,
        },
        fnmax: match r.below(6) {
            0 => 0,
            1 => 65_535,
            2 => m as u32,
            _ => r.below(4) as u32,
        },
        pileupmax: if r.chance(60) { r.within(6, 12) as u32 } else { r.below(13) as u32 },
        minkfreq: match r.below(8) {
            0 => 0,
            1 => 16_777_216,
            2 | 3 => r.below(6) as u32,
            _ => r.pick(&[1u32, 2]),
        },
        letters: 0,
        sizesim: threshold(r),
        seqsim: threshold(r),
        fpenalty: penalty(r),
        gpenalty: penalty(r),
    }
}

/// The letters with others behind them, where they are fewer than k: a variant has at least one window.
fn at_least(r: &mut Random, k: u8, mut letters: Vec<u8>) -> Vec<u8> {
    while letters.len() < k.into() {
        letters.push(r.pick(b"ACGT"));
    }
    letters
}

/// An accepted job of at most the given size.
pub fn job(r: &mut Random, size: Size) -> Job {
    let v = match r.below(20) {
        0 => size.variants,
        1..=5 => 1 + r.below(size.variants),
        _ => 1 + r.below(6),
    };
    let m = part_count(r, size);
    let pool = Pool {
        letters: (0..1 + r.below(4)).map(|_| sequence(r, size)).collect(),
        style: r.below(12),
    };
    let settings = settings(r, v, m, size);
    let variants: Vec<Variant> = bounds(r, v)
        .into_iter()
        .map(|(start, end)| {
            let (size, negative, letters) = event(r, &pool, size);
            Variant { start, end, size, negative, letters: at_least(r, settings.k, letters), number: 0 }
        })
        .collect();
    let parts = part_list(r, &variants, &pool, m, size);
    let mut job = Job { edition: Edition::One, settings, variants, haplotypes: vec![parts] };
    match r.below(20) {
        0 | 1 => job.haplotypes[0].iter_mut().for_each(|p| p.size = 0),
        2..=8 => loosen(r, &mut job.settings),
        _ => {}
    }
    job
}

fn part_count(r: &mut Random, size: Size) -> u64 {
    match r.below(20) {
        0 => size.parts,
        1..=4 => r.below(size.parts + 1),
        5..=6 => r.below(13).min(size.parts),
        _ => r.below(5),
    }
}

fn part_list(r: &mut Random, variants: &[Variant], pool: &Pool, m: u64, size: Size) -> Vec<Part> {
    let mut parts = if r.chance(40) { parts_of_a_chain(r, variants, m) } else { vec![] };
    while (parts.len() as u64) < m {
        let one = part(r, variants, &parts, pool, size);
        parts.push(one);
    }
    parts
}

/// Some of the rows once more, as parts, in the rows' order or not.
fn parts_of_a_chain(r: &mut Random, variants: &[Variant], m: u64) -> Vec<Part> {
    let mut parts: Vec<Part> = vec![];
    for v in variants {
        if (parts.len() as u64) < m && r.chance(50) {
            parts.push(Part { size: v.size, negative: v.negative, letters: v.letters.clone() });
        }
    }
    if r.chance(30) {
        parts.reverse();
    }
    parts
}

/// Settings under which much is accepted.
fn loosen(r: &mut Random, s: &mut Settings) {
    s.sizesim = r.pick(&[0.0, 0.0, 0.25, 0.5]);
    s.seqsim = r.pick(&[0.0, 0.0, 0.25, 0.5]);
    s.fpenalty = r.pick(&[0.0, 0.1, 0.02, 0.25, 1.0 / 3.0]);
    s.gpenalty = r.pick(&[0.0, 0.1, 0.02, 0.25, 1.0 / 3.0]);
    s.minkfreq = r.pick(&[0, 1, 1, 2]);
    s.fnmax = r.pick(&[1, 2, 3, 65_535]);
}

/// Rows whose sums reach 16,777,216 exactly: every sequence, size and count at its limit.
pub fn job_at_limits(r: &mut Random) -> Job {
    let mut job = job(r, LIBRARY);
    job.settings.k = 1 + r.below(2) as u8;
    job.settings.maxpaths = r.below(200) as u32;
    let limit = SIZE_LIMIT as i32;
    let sign = r.pick(&[1, -1]);
    let letters = vec![r.pick(b"ACGT"); SIZE_LIMIT as usize];
    let (v, m) = if r.chance(60) { (64, 64) } else { (r.within(60, 64), r.within(60, 64)) };
    job.variants = (0..v)
        .map(|row| Variant {
            start: row as u64,
            end: row as u64,
            size: sign * limit,
            negative: r.chance(50),
            letters: letters.clone(),
            number: 0,
        })
        .collect();
    let part = |_| Part { size: sign * limit, negative: r.chance(50), letters: letters.clone() };
    job.haplotypes = vec![(0..m).map(part).collect()];
    job
}

/// How many part lists there are.
fn lists(m: usize, s: &Settings) -> u64 {
    if DOCUMENT.only_the_whole(m, s.pileupmax as usize) {
        return 1;
    }
    let choose = |length: usize| (0..length as u64).fold(1, |c, j| c * (m as u64 - j) / (j + 1));
    DOCUMENT.list_lengths(m, s.fnmax as usize).into_iter().map(choose).sum()
}

/// Entries compared at most, chain by chain and list by list.
pub fn cost(call: &Call) -> u64 {
    if call.refusal(&DOCUMENT) != 0 {
        return 0;
    }
    let limit = u64::from(call.settings.maxpaths) + 1;
    let entries = call.settings.entries() as u64;
    let v = call.starts.len() as u64;
    chains(call, limit) * (lists(call.part_sizes.len(), &call.settings) * entries + 8 * v)
}

/// With letters 1: most variants keep a window.
fn keep_windows(r: &mut Random, job: &mut Job) {
    if r.chance(10) {
        return;
    }
    let k = usize::from(job.settings.k);
    for variant in &mut job.variants {
        let letters = &mut variant.letters;
        if letters.len() >= k && (1..=6).contains(&k) && DOCUMENT.is_blank(&counted(1, job.settings.k, letters, false)) {
            let place = r.pick(&[0, letters.len()]);
            let read: Vec<u8> = (0..k).map(|_| r.pick(b"ACGTacgt")).collect();
            letters.splice(place..place, read);
        }
    }
}

/// The reading of letters as the library is asked for it, often 1 and now and then one that there is not.
fn read_by(r: &mut Random, job: &mut Job) {
    job.settings.letters = match r.below(20) {
        0..=8 => 1,
        9 if r.chance(50) => r.pick(&[2, 3, 255, 256, 257, 0x0100_0000, u32::MAX]),
        _ => return,
    };
    if job.settings.letters > 1 {
        // beside a refusal that comes before it
        match r.below(8) {
            0 => job.settings.k = 7,
            1 => job.settings.seqsim = f32::NAN,
            _ => {}
        }
        return;
    }
    keep_windows(r, job);
}

/// A library call of at most the given cost; more costly ones score fewer chains.
pub fn call(r: &mut Random, budget: u64) -> Call {
    let job = if r.chance(1) { job_at_limits(r) } else { job(r, LIBRARY) };
    call_of(r, job, budget)
}

/// The call of such a job, now and then with one value of it put out of its range.
pub fn call_of(r: &mut Random, mut job: Job, budget: u64) -> Call {
    if r.chance(5) {
        disturb_job(r, &mut job);
    }
    read_by(r, &mut job);
    let call = lent(r, &job, budget);
    numbered(r, call)
}

/// A library call of the program's size, more of them at fault.
pub fn small_call(r: &mut Random) -> Call {
    let mut job = job(r, PROGRAM);
    if r.chance(30) {
        disturb_job(r, &mut job);
    }
    read_by(r, &mut job);
    let call = lent(r, &job, 100_000);
    numbered(r, call)
}

/// The call with record numbers, and now and then rows all zero, more often where it is refused anyway.
fn numbered(r: &mut Random, mut call: Call) -> Call {
    let refused = call.refusal(&DOCUMENT) != 0;
    number(r, &mut call);
    if r.chance(if refused { 40 } else { 6 }) {
        blank(r, &mut call);
    }
    call
}

/// The call of a job, with room of some length.
fn lent(r: &mut Random, job: &Job, budget: u64) -> Call {
    let mut call = Call::of_job(job);
    if call.refusal(&DOCUMENT) == 0 && r.chance(20) {
        scatter(r, &mut call);
    }
    while cost(&call) > budget && call.settings.maxpaths > 3 {
        call.settings.maxpaths /= 2;
    }
    if call.refusal(&DOCUMENT) != 0 {
        return call;
    }
    call.queue_room = queue_need(&call.settings, call.starts.len()) + r.pick(&[0, 0, 1, 5]);
    call.answer_room = call.starts.len() + r.pick(&[0, 0, 1, 7]);
    if r.chance(8) {
        disturb_call(r, &mut call);
    }
    call
}

/// Different numbers: the row numbers, alike in half their bits, near each other, at the ends of the range, or any.
fn different(r: &mut Random, v: usize) -> Vec<u32> {
    let style = r.below(7);
    let mut numbers = vec![];
    while numbers.len() < v {
        let any = r.next() as u32;
        let number = match style {
            0 => numbers.len() as u32,
            1 => any & 0xffff_0000 | 7,
            2 => any & 0xffff | 0x8000_0000,
            3 => any % 1000,
            4 if r.chance(50) => r.pick(&[0, 1, 0x7fff_ffff, 0x8000_0000, u32::MAX - 1, u32::MAX]),
            _ => any,
        };
        if !numbers.contains(&number) {
            numbers.push(number);
        }
    }
    numbers
}

/// One of the numbers put in another's place, beside it or anywhere.
fn repeat(r: &mut Random, numbers: &mut [u32]) {
    let v = numbers.len() as u64;
    if v < 2 {
        return;
    }
    let from = r.below(v - 1) as usize;
    let to = if r.chance(40) { from + 1 } else { from + 1 + r.below(v - 1 - from as u64) as usize };
    numbers[to] = numbers[from];
}

/// Record numbers and the second buffer, mostly V different ones and room for them. A call that is refused anyway has a repeated number more often.
fn number(r: &mut Random, call: &mut Call) {
    let v = call.starts.len();
    let refused = call.refusal(&DOCUMENT) != 0;
    call.numbers = different(r, v);
    if r.chance(if refused { 50 } else { 6 }) {
        repeat(r, &mut call.numbers);
    }
    match r.below(100) {
        0 => drop(call.numbers.pop()),
        1 => call.numbers.push(r.pick(&[0, u32::MAX])),
        2 => call.numbers.clear(),
        _ => {}
    }
    let room = match r.below(40) {
        0 => v.saturating_sub(1),
        1 => r.below(v as u64 + 1) as usize,
        2..=16 => v + r.pick(&[1, 7, 64]),
        _ => v,
    };
    call.record_buffer = (0..room).map(|_| r.next() as u32).collect();
}

/// An accepted job with several haplotypes, now and then one: some without parts, some as one before.
pub fn several_job(r: &mut Random, size: Size) -> Job {
    let mut job = job(r, size);
    let pool = Pool {
        letters: (0..1 + r.below(4)).map(|_| sequence(r, size)).collect(),
        style: r.below(12),
    };
    let count = match r.below(12) {
        0 => 1,
        1 => 16,
        2..=3 => 1 + r.below(16),
        _ => 2 + r.below(4),
    };
    while (job.haplotypes.len() as u64) < count {
        let parts = match r.below(10) {
            0 | 1 => vec![],
            2 => r.pick(&job.haplotypes),
            _ => {
                let m = part_count(r, size);
                part_list(r, &job.variants, &pool, m, size)
            }
        };
        job.haplotypes.push(parts);
    }
    if r.chance(20) {
        let at = r.below(count) as usize;
        job.haplotypes.swap(0, at);
    }
    job
}

/// A part of some haplotype over its size, or too many parts for the program or the library, or a seventeenth haplotype.
fn disturb_haplotypes(r: &mut Random, job: &mut Job) {
    let one = Part { size: 1, negative: false, letters: b"A".to_vec() };
    match r.below(12) {
        0 => job.haplotypes.resize(r.pick(&[17, 17, 18, 30]), vec![one]),
        1 => job.haplotypes.resize(16, vec![]),
        2..=3 => {
            let parts = r.pick(&[8, 9, 64, 65, 65]);
            let at = r.below(job.haplotypes.len() as u64) as usize;
            job.haplotypes[at].resize(parts, one);
        }
        _ => {
            let size = r.pick(&[131_072, 131_073, -131_073, i32::MIN]);
            let most = r.pick(&[20, 50, 100]);
            for parts in &mut job.haplotypes {
                if r.chance(most) && parts.len() < 8 {
                    let at = r.below(parts.len() as u64 + 1) as usize;
                    parts.insert(at, Part { size, ..one.clone() });
                }
            }
        }
    }
}

/// Mostly accepted, then refusals of some haplotypes or of the whole job.
fn several_job_or_refused(r: &mut Random, size: Size) -> Job {
    let mut job = several_job(r, size);
    if r.chance(25) {
        disturb_haplotypes(r, &mut job);
    }
    if r.chance(8) {
        disturb_job(r, &mut job);
    }
    job
}

/// The program's input with several haplotypes, with faults of the form too.
pub fn several_input(r: &mut Random) -> Vec<u8> {
    let mut job = several_job_or_refused(r, PROGRAM);
    let mut bytes = job.bytes();
    match r.below(20) {
        0 => disturb_bytes(r, &mut bytes),
        1 => disturb_record(r, &mut bytes),
        2 if r.chance(30) => {
            // the sixteenth 0x05, where letters are owed or not
            job.haplotypes.resize(16, vec![]);
            job.haplotypes[15].push(Part { size: 1, negative: false, letters: b"A".to_vec() });
            bytes = job.bytes();
            let last = bytes.len() - 1;
            bytes.insert(r.pick(&[last, last - record_length(0x04)]), 0x05);
        }
        2 => {
            // one or more 0x05, or the first variant once more, between two records
            let (at, _) = r.pick(&records(&bytes));
            let table = Job { variants: job.variants.into_iter().take(1).collect(), haplotypes: vec![vec![]], ..job }.bytes();
            let variant = table[record_length(0x01)..table.len() - 1].to_vec();
            bytes.splice(at..at, if r.chance(50) { vec![0x05; r.pick(&[1, 1, 15, 16])] } else { variant });
        }
        _ => {}
    }
    bytes
}

/// A library call for several haplotypes; each of at most the given cost.
pub fn several_call(r: &mut Random, size: Size, budget: u64) -> Several {
    let mut job = several_job_or_refused(r, size);
    read_by(r, &mut job);
    let mut several = Several::of_job(&job);
    if several.refusal(&DOCUMENT) == 0 {
        if r.chance(20) {
            scatter(r, &mut several.call);
        }
        let dear = |s: &Several| (0..s.count()).any(|at| cost(&s.own(&DOCUMENT, at)) > budget);
        while several.call.settings.maxpaths > 3 && dear(&several) {
            several.call.settings.maxpaths /= 2;
        }
        several.call.queue_room = queue_need(&several.call.settings, several.rows()) + r.pick(&[0, 0, 1, 5]);
    }
    let refused = several.refusal(&DOCUMENT) != 0;
    several.call.numbers = different(r, several.rows());
    if r.chance(if refused { 40 } else { 3 }) {
        repeat(r, &mut several.call.numbers);
    }
    for _ in 0..r.pick(&[0, 0, 0, 1, 1, 2]) {
        disturb_several(r, &mut several);
    }
    if r.chance(6) {
        blank(r, &mut several.call);
    }
    lend_buffers(r, &mut several);
    several
}

/// What only the library can be asked: ends that do not fit, features over their limit or not enough of them, too little room for the queue.
fn disturb_several(r: &mut Random, several: &mut Several) {
    let count = several.count() as u64;
    let at = if count == 0 { 0 } else { r.below(count) as usize };
    let (parts, features) = (several.call.part_sizes.len(), several.call.part_features.len());
    let step = r.pick(&[1, several.call.settings.entries().min(4096) as u64]);
    match r.below(13) {
        0 => {
            (several.part_ends, several.feature_ends) = (vec![], r.pick(&[vec![], vec![0]]));
            if r.chance(20) {
                clear_table(&mut several.call);
            }
        }
        1 => drop(several.part_ends.pop()),
        2 => drop(several.feature_ends.pop()),
        3 => several.part_ends.push(parts as u64),
        4 => several.feature_ends.push(features as u64),
        5 => several.part_ends.iter_mut().skip(at).take(1).for_each(|end| *end = r.pick(&[0, parts as u64, parts as u64 + 1, 70, u64::MAX])),
        6..=7 => several.feature_ends.iter_mut().skip(at).take(1).for_each(|end| *end += step),
        8 => several.feature_ends.iter_mut().skip(at).take(1).for_each(|end| *end = end.saturating_sub(step)),
        9..=10 if features > 0 => {
            let entry = r.below(features as u64) as usize;
            several.call.part_features[entry] = r.pick(&[131_073, i32::MIN, i32::MAX]);
        }
        11 if !several.call.features.is_empty() => several.call.features[0] = 131_073,
        12 => several.call.queue_room = several.call.queue_room.saturating_sub(r.pick(&[1, 6, 1000])),
        _ => several.call.part_sizes.extend(vec![1; r.pick(&[1, 65])]),
    }
}

/// The buffers with words of no meaning in them: mostly just enough, now and then one too few or some more.
fn lend_buffers(r: &mut Random, several: &mut Several) {
    let (v, count) = (several.rows(), several.count());
    let mut words = |need: usize| -> Vec<u32> {
        let length = match r.below(80) {
            0 => need.saturating_sub(1),
            1 => r.below(need as u64 + 1) as usize,
            2 => need.saturating_sub(need / count.max(1)),
            3..=22 => need + r.pick(&[1, 7, 64]),
            _ => need,
        };
        (0..length).map(|_| r.next() as u32).collect()
    };
    several.row_buffer = words(v * count);
    several.call.record_buffer = words(v * count);
    several.reports = words(8 * count);
    several.call.answer_room = several.row_buffer.len();
}

/// Rows all zero: one of the variants', mostly the first or the last, or all of them, or the parts' likewise.
fn blank(r: &mut Random, call: &mut Call) {
    let e = call.settings.entries();
    let features = if r.chance(70) { &mut call.features } else { &mut call.part_features };
    let rows = features.len() / e;
    if rows == 0 {
        return;
    }
    let any = r.below(rows as u64) as usize;
    let at = r.pick(&[0, rows - 1, any]);
    let all = r.chance(15);
    for (_, row) in features.chunks_mut(e).enumerate().filter(|(row, _)| all || *row == at) {
        row.fill(0);
    }
}

/// Features that no letters give: any signs, up to the limit.
fn scatter(r: &mut Random, call: &mut Call) {
    let e = call.settings.entries();
    let top = r.pick(&[1, 3, 131_072 / e as i64]);
    for row in call.features.chunks_mut(e).chain(call.part_features.chunks_mut(e)) {
        if r.chance(30) {
            for x in row {
                *x = r.within(-top, top) as i32;
            }
        }
    }
}

fn disturb_call(r: &mut Random, call: &mut Call) {
    if call.refusal(&DOCUMENT) != 0 {
        return;
    }
    let e = call.settings.entries();
    match r.below(12) {
        0 => {
            call.ends.pop();
        }
        1 => call.sizes.push(1),
        2 => {
            call.features.pop();
        }
        3 => call.part_features.push(0),
        4 => call.queue_room = queue_need(&call.settings, call.starts.len()) - 1,
        5 => call.answer_room = call.starts.len() - 1,
        6 => call.features[e - 1] = r.pick(&[131_073, -131_073, i32::MIN]),
        7 => call.features[..e].fill(131_072 / e as i32 + 1),
        8 if !call.part_sizes.is_empty() => call.part_features[0] = i32::MAX,
        9 => call.queue_room = 0,
        10 => call.answer_room = 0,
        _ => clear_table(call),
    }
}

fn clear_table(call: &mut Call) {
    call.starts.clear();
    call.ends.clear();
    call.sizes.clear();
    call.features.clear();
}

const NOT_FLOATS: [f32; 7] = [f32::NAN, -1.0, -1e-45, 1.000_000_1, 1000.0001, f32::INFINITY, f32::NEG_INFINITY];

/// One value of an accepted job put out of its range, or at it.
pub fn disturb_job(r: &mut Random, job: &mut Job) {
    let s = &mut job.settings;
    let v = job.variants.len();
    let row = r.below(v as u64) as usize;
    match r.below(20) {
        0 => s.k = r.pick(&[0u8, 5, 6, 7, 255]),
        1 => s.sizesim = r.pick(&NOT_FLOATS),
        2 => s.seqsim = r.pick(&NOT_FLOATS),
        3 => s.fpenalty = r.pick(&NOT_FLOATS),
        4 => s.gpenalty = r.pick(&NOT_FLOATS),
        5 => s.maxpaths = r.pick(&[64u32, 4_095, 4_096, u32::MAX]),
        6 => s.maxnodes = r.pick(&[65_536u32, u32::MAX]),
        7 => s.fnmax = r.pick(&[65_536u32, u32::MAX]),
        8 => s.pileupmax = r.pick(&[13u32, u32::MAX]),
        9 => s.minkfreq = r.pick(&[16_777_217u32, u32::MAX]),
        10 => job.variants.clear(),
        11 => job.variants[row].start = job.variants[row].end.saturating_add(1),
        12 if row > 0 => job.variants[row].start = job.variants[row - 1].start.saturating_sub(1),
        13 => job.variants[row].size = r.pick(&[131_073, -131_073, i32::MIN, i32::MAX]),
        14 if !job.haplotypes[0].is_empty() => job.haplotypes[0][0].size = r.pick(&[131_073, i32::MIN]),
        15 => {
            let one = job.variants[v - 1].clone();
            job.variants.resize(r.pick(&[17, 65]), one);
        }
        16..=18 => {
            // too few letters for one window, or k over them
            let letters = &mut job.variants[r.pick(&[row, v - 1])].letters;
            match r.below(4) {
                0 => s.k = (letters.len() + 1).min(4) as u8,
                1 => letters.clear(),
                _ => letters.truncate(usize::from(s.k).saturating_sub(1)),
            }
        }
        _ => {
            let one = Part { size: 1, negative: false, letters: b"A".to_vec() };
            job.haplotypes[0].resize(r.pick(&[9, 65]), one);
        }
    }
}

/// Bytes of a good job with a fault of the form put in.
fn disturb_bytes(r: &mut Random, bytes: &mut Vec<u8>) {
    let at = r.below(bytes.len() as u64) as usize;
    match r.below(9) {
        0 => bytes.truncate(at),
        1 => bytes[at] = r.below(256) as u8,
        2 => bytes[at] ^= 1 << r.below(8),
        3 => bytes.push(r.below(2) as u8),
        4 => {
            bytes.remove(at);
        }
        5 => bytes.insert(at, r.below(6) as u8),
        6 => disturb_record(r, bytes),
        7 => disturb_record(r, bytes),
        _ => {
            let last = bytes.len() - 1;
            bytes[last] = r.below(6) as u8;
        }
    }
}

fn records(bytes: &[u8]) -> Vec<(usize, usize)> {
    let mut found = vec![];
    let mut at = 0;
    while at < bytes.len() {
        let length = record_length(bytes[at]);
        found.push((at, length));
        at += length;
    }
    found
}

/// A record left out, doubled, put elsewhere, or one of its fields changed.
fn disturb_record(r: &mut Random, bytes: &mut Vec<u8>) {
    let found = records(bytes);
    let (at, length) = r.pick(&found);
    let record: Vec<u8> = bytes[at..at + length].to_vec();
    let (body, shape) = (at + 1, shape(record[0]).expect("a record of a good job"));
    let (to, _) = r.pick(&found);
    match r.below(5) {
        0 => {
            bytes.drain(at..at + length);
        }
        1 => {
            bytes.splice(at..at, record);
        }
        2 => {
            bytes.splice(to..to, record);
        }
        3 => {
            bytes.splice(to..to, record[..length / 2].to_vec());
        }
        _ => match record[0] {
            0x00 => bytes.push(0),
            0x01 => bytes[body + r.pick(shape.flags)] = 2,
            0x11 if r.chance(50) => bytes[body + LETTERS_AT] = r.pick(&[2, 3, 255]),
            0x11 => bytes[body + r.pick(shape.flags)] = 2,
            0x04 => bytes[body + 15] = 1,
            0x05 => bytes[at] = r.pick(&[0x00, 0x01, 0x02, 0x06]),
            _ if r.chance(50) => bytes[body + shape.flags[0]] = 2,
            _ => {
                let count = body + shape.count.expect("a variant or a part");
                bytes[count..count + 4].copy_from_slice(&r.pick(&[131_072u32, 131_073, 17, 0, u32::MAX]).to_le_bytes());
            }
        },
    }
}

/// The program's input: mostly jobs it answers, then refusals, faults of the form, and inputs too large for it.
pub fn input(r: &mut Random) -> Vec<u8> {
    let mut job = job(r, PROGRAM);
    match r.below(40) {
        0..=1 => disturb_job(r, &mut job),
        2..=3 => {
            disturb_job(r, &mut job);
            if !job.variants.is_empty() {
                disturb_job(r, &mut job);
            }
        }
        4 if r.chance(20) => {
            // near the program's longest input
            let want = r.pick(&[32_700u64, 32_760, 32_800, 40_000]);
            let have = job.bytes().len() as u64;
            job.variants[0].letters = (0..want.saturating_sub(have) * 16 / 17).map(|_| r.pick(b"ACGT")).collect();
        }
        _ => {}
    }
    let mut bytes = job.bytes();
    if r.chance(6) {
        disturb_bytes(r, &mut bytes);
    }
    bytes
}

/// The job in edition 2: letters 0 or 1, and record numbers of all kinds; now and then one is repeated, more often where the job is refused anyway.
fn edition_two(r: &mut Random, job: &mut Job) {
    let refused = Call::of_job(job).refusal(&DOCUMENT) != 0;
    job.edition = Edition::Two;
    let mut numbers = different(r, job.variants.len());
    if r.chance(if refused { 40 } else { 5 }) {
        repeat(r, &mut numbers);
    }
    job.variants.iter_mut().zip(numbers).for_each(|(variant, number)| variant.number = number);
    if r.chance(45) {
        job.settings.letters = 1;
        keep_windows(r, job);
    }
}

/// A job of the other edition put into the bytes of one: its settings or its first variant between two records or in the place of one, or a record's
/// kind alone.
fn mix_editions(r: &mut Random, bytes: &mut Vec<u8>) {
    let of_an_edition = |bytes: &[u8]| records(bytes).into_iter().filter(|&(at, _)| matches!(bytes[at], 0x01 | 0x02 | 0x11 | 0x12)).collect::<Vec<_>>();
    let (at, length) = r.pick(&records(bytes));
    if r.chance(30) {
        let (at, _) = r.pick(&of_an_edition(bytes));
        bytes[at] ^= 0x10;
        return;
    }
    let Ok(good) = job::read(&DOCUMENT, bytes) else { return };
    let other = other_edition(&good).bytes();
    let (from, taken) = r.pick(&of_an_edition(&other));
    let until = if r.chance(50) { at } else { at + length };
    bytes.splice(at..until, other[from..from + taken].to_vec());
}

/// A job of edition 2 for the program, of one haplotype or several, with faults of the form and editions mixed.
pub fn edition_two_input(r: &mut Random) -> Vec<u8> {
    let mut job = if r.chance(25) { several_job_or_refused(r, PROGRAM) } else { job(r, PROGRAM) };
    if r.chance(10) && !job.variants.is_empty() {
        disturb_job(r, &mut job);
    }
    edition_two(r, &mut job);
    if r.chance(1) && !job.variants.is_empty() {
        // near the program's longest input, so that one edition is too long and the other is not
        let want = r.pick(&[32_700u64, 32_760, 32_768, 32_800]);
        let have = job.bytes().len() as u64;
        job.variants[0].letters = (0..want.saturating_sub(have) * 16 / 17).map(|_| r.pick(b"ACGT")).collect();
    }
    let mut bytes = job.bytes();
    match r.below(25) {
        0 => disturb_bytes(r, &mut bytes),
        1 => disturb_record(r, &mut bytes),
        2 => mix_editions(r, &mut bytes),
        3 if r.chance(50) => {
            bytes = other_edition(&job).bytes();
            mix_editions(r, &mut bytes);
        }
        _ => {}
    }
    bytes
}

/// A call of the mover: a job of either edition, of the program's size or now and then over it, the way back open more often than not; in now and then
/// bad form; to either edition or none; with room for it, one byte less, or anything.
pub fn move_asked(r: &mut Random) -> moving::Asked {
    let size = if r.chance(4) { LIBRARY } else { PROGRAM };
    let mut job = if r.chance(30) { several_job_or_refused(r, size) } else { job(r, size) };
    if r.chance(20) && !job.variants.is_empty() {
        disturb_job(r, &mut job);
    }
    if r.chance(30) {
        let bits = [f32::NAN.to_bits(), 0x7fa0_0001, 0xffc0_1234, 0x7f80_0001, 0x8000_0000, r.next() as u32].map(f32::from_bits);
        let s = &mut job.settings;
        (s.sizesim, s.seqsim, s.fpenalty, s.gpenalty) = (r.pick(&bits), r.pick(&bits), r.pick(&bits), r.pick(&bits));
    }
    if r.chance(60) {
        edition_two(r, &mut job);
        if r.chance(70) {
            job.variants.iter_mut().zip(0..).for_each(|(variant, row)| variant.number = row);
            off_its_row(r, &mut job);
        }
        job.settings.letters = r.pick(&[0, 0, 0, 1]);
    }
    if r.chance(2) && !job.variants.is_empty() {
        let length = r.pick(&[30_000, 31_000, 60_000, 131_072]);
        job.variants[0].letters = (0..length).map(|_| r.pick(b"ACGTN")).collect();
    }
    let need = other_edition(&job).bytes().len();
    let mut bytes = job.bytes();
    match r.below(12) {
        0 => disturb_bytes(r, &mut bytes),
        1 => disturb_record(r, &mut bytes),
        2 if r.chance(50) => mix_editions(r, &mut bytes),
        _ => {}
    }
    let other = if job.edition == Edition::One { 2 } else { 1 };
    let edition = if r.chance(80) { other } else { r.pick(&[0, 1, 2, 2, 3, 257, u32::MAX]) };
    let room = match r.below(12) {
        0 | 1 => need - 1,
        2 => r.below(need as u64) as usize,
        3 | 4 => need + r.pick(&[1, 7, 100]),
        5 => bytes.len(),
        _ => need,
    };
    moving::Asked { bytes, edition, lent: (0..room).map(|_| r.next() as u8).collect() }
}

/// Now and then one record number that is not its row.
fn off_its_row(r: &mut Random, job: &mut Job) {
    let v = job.variants.len() as u64;
    if v == 0 || !r.chance(20) {
        return;
    }
    let any = r.below(v);
    let at = r.pick(&[0, v - 1, any]) as usize;
    job.variants[at].number = r.pick(&[at as u32 + 1, at.wrapping_sub(1) as u32, at as u32 | 0x100, at as u32 | 0x1_0000, at as u32 | 0x8000_0000, 0, u32::MAX]);
}

/// Rows of the table that may be a chain: each with some chance where it overlaps none before it, now and then where it does.
fn some_rows(r: &mut Random, call: &Call) -> Vec<u32> {
    let mut rows: Vec<u32> = vec![];
    for row in 0..call.starts.len().min(call.ends.len()).min(64) as u32 {
        let apart = call.settings.full && rows.iter().all(|&earlier| !DOCUMENT.overlaps(call.interval(earlier as usize), call.interval(row as usize)));
        if r.chance(if apart { 30 } else { 1 }) {
            rows.push(row);
        }
    }
    rows
}

/// One row or position off: another, one less, one more, two in each other's place, one twice, or one that is not there.
fn one_off(r: &mut Random, numbers: &mut Vec<u32>, count: usize) {
    let at = r.below(numbers.len() as u64 + 1) as usize;
    let any = r.below(count as u64 + 1) as u32;
    let other = at.min(numbers.len().saturating_sub(1)).max(1);
    match r.below(6) {
        0 if at < numbers.len() => numbers[at] = any,
        1 if at < numbers.len() => drop(numbers.remove(at)),
        2 if numbers.len() > 1 => numbers.swap(0, other),
        3 if at < numbers.len() => numbers.insert(at, numbers[at]),
        4 => numbers.push(r.pick(&[count as u32, u32::MAX, 0])),
        _ => numbers.insert(at, any),
    }
}

/// What is made of a good proposal: near misses, and lists too long.
fn disturb_proposal(r: &mut Random, proposal: &mut Proposal, v: usize, m: usize) {
    match r.below(12) {
        0..=2 => one_off(r, &mut proposal.rows, v),
        3..=5 => one_off(r, &mut proposal.positions, m),
        10 => proposal.positions.retain(|_| r.chance(50)),
        11 => proposal.rows = proposal.rows.iter().flat_map(|&row| vec![row; r.pick(&[1, 1, 2])]).collect(),
        6 => proposal.score = f32::from_bits(proposal.score.to_bits() ^ 1 << r.below(32)),
        7 => proposal.score = r.pick(&[0.0, -0.0, f32::NAN, f32::INFINITY, -proposal.score, 1.0]),
        8 => proposal.rows = vec![0; r.pick(&[64, 65, 66])],
        _ => proposal.positions = (0..r.pick(&[63, 64, 65, 66])).collect(),
    }
}

/// A call for which paths are proposed: now and then its penalties take all of a score, so that it is 0 exactly.
pub fn proposed_call(r: &mut Random, library: bool) -> Call {
    let mut call = if library { call(r, 300_000) } else { small_call(r) };
    if call.refusal(&DOCUMENT) == 0 && r.chance(20) {
        let s = &mut call.settings;
        (s.sizesim, s.seqsim, s.squish) = (0.0, 0.0, false);
        (s.fpenalty, s.gpenalty) = (r.pick(&[0.0, 0.5]), r.pick(&[0.25, 0.5, 1.0]));
        if r.chance(50) {
            call.part_sizes.iter_mut().for_each(|size| *size = 0);
        }
    }
    call
}

/// A proposal for a call: what its own answer says with the list that won, or some chain and list with their score, whatever that is; half of
/// them as they are, else with one thing off, and then now and then with the score that it has so.
pub fn proposal(r: &mut Random, call: &Call, answer: &Answer) -> Proposal {
    let (v, m) = (call.starts.len(), call.part_sizes.len());
    let accepted = answer.refusal == 0;
    let own = if accepted && call.searches(&DOCUMENT) && r.chance(60) { proposal::own(call, &answer.rows, answer.score) } else { None };
    let mut proposal = own.unwrap_or_else(|| {
        let rows = some_rows(r, call);
        let lists = if accepted { part_positions(call) } else { vec![] };
        let place = r.below(lists.len().max(1) as u64) as usize;
        let positions = lists.get(place).cloned().unwrap_or_else(|| (0..m.min(64) as u32).collect());
        let score = if accepted && !lists.is_empty() { list_score(call, &rows, &positions) } else { 0.5 };
        Proposal { rows, positions, score }
    });
    if r.chance(50) {
        disturb_proposal(r, &mut proposal, v, m);
        let there = |numbers: &[u32], count: usize| numbers.iter().all(|&number| (number as usize) < count);
        if accepted && there(&proposal.rows, v) && there(&proposal.positions, m) && r.chance(70) {
            proposal.score = list_score(call, &proposal.rows, &proposal.positions);
        }
    }
    proposal
}
