//! Writes the stored lists that are replayed where no Rust is at hand: `make-lists ROOT` writes
//! ROOT/crates/replay/{stdin,stdout} (program size) and ROOT/crates/search_vectors/{stdin,stdout} (library size).
//!
//! From many generated jobs it takes the shortest that show each kind, and the shortest that catch each planted
//! mistake, so that the lists are small and every branch stands in them.
use judge::answer::{self, Answer, Target};
use judge::call::Call;
use judge::document::{call_answer, call_of, program_answers, program_text};
use judge::generate::{cost, disturb_job, edition_two_input, input, several_input, LIBRARY};
use judge::job::{self, record_length, Edition, Job, Part, Settings, Variant};
use judge::kinds::{self, Counts};
use judge::met::Met;
use judge::mistakes::MISTAKES;
use judge::random::Random;
use judge::rules::{Rules, DOCUMENT};
use judge::{exhaust, generate, moving, program, rust};
use std::collections::{BTreeMap, BTreeSet};
use std::path::Path;
use std::{fs, io};

/// How many jobs show each kind and catch each mistake.
const OF_EACH: usize = 8;
const QUEUE_MOST: usize = 262_145;

fn plain() -> Settings {
    Settings {
        k: 1,
        squish: false,
        one_to_one: false,
        full: true,
        maxpaths: 10,
        maxnodes: 10,
        fnmax: 1,
        pileupmax: 5,
        minkfreq: 1,
        letters: 0,
        sizesim: 0.5,
        seqsim: 0.5,
        fpenalty: 0.0,
        gpenalty: 0.0,
    }
}

fn variant(start: u64, end: u64, size: i32, letters: &[u8]) -> Variant {
    Variant { start, end, size, negative: false, letters: letters.to_vec(), number: 0 }
}

fn part(size: i32, letters: &[u8]) -> Part {
    Part { size, negative: false, letters: letters.to_vec() }
}

/// Document 01's own example.
fn example() -> Job {
    Job {
        edition: Edition::One,
        settings: plain(),
        variants: vec![variant(10, 10, 2, b"AG"), variant(20, 20, 2, b"CT")],
        haplotypes: vec![vec![part(2, b"AG")]],
    }
}

/// A job of exactly so many bytes.
fn of_length(length: usize) -> Vec<u8> {
    let [end, settings, variant_record, part_record, letters_record] = [0x00, 0x01, 0x02, 0x03, 0x04].map(record_length);
    // each row has a letter, in a record of its own
    let left = |v: usize, m: usize| length - end - settings - v * (variant_record + letters_record) - m * part_record;
    let shapes = (1..=16).flat_map(|v| (0..=8).map(move |m| (v, m)));
    let (v, m) = shapes.filter(|&(v, m)| left(v, m) % letters_record == 0).min().expect("some shape fits");
    let letters = vec![b'G'; 16 * (left(v, m) / letters_record + 1)];
    let mut job = example();
    job.variants = (0..v as u64).map(|i| variant(i, i, 1, b"G")).collect();
    job.variants[0].letters = letters;
    job.haplotypes = vec![vec![part(1, b""); m]];
    job.bytes()
}

/// Inputs at the limits, just inside and just outside, that chance would seldom make.
fn at_limits() -> Vec<Vec<u8>> {
    let mut all = vec![vec![], vec![0x00], vec![0x07], vec![0x01], example().bytes(), of_length(32_768), of_length(32_769)];
    let mut with = |change: &dyn Fn(&mut Job)| {
        let mut job = example();
        change(&mut job);
        all.push(job.bytes());
    };
    for k in [0, 1, 2, 3, 4, 5, 6, 7, 255] {
        with(&|j| j.settings.k = k);
    }
    for maxpaths in [0, 1, 2, 3, 4, 63, 64, 4_095, 4_096, u32::MAX] {
        with(&|j| j.settings.maxpaths = maxpaths);
    }
    for whole in [0, 1, 2, 3, 65_535, 65_536, u32::MAX] {
        with(&|j| j.settings.maxnodes = whole);
        with(&|j| j.settings.fnmax = whole);
    }
    for pileupmax in 0..=13 {
        with(&|j| j.settings.pileupmax = pileupmax);
    }
    for minkfreq in [0, 2, 3, 16_777_216, 16_777_217, u32::MAX] {
        with(&|j| j.settings.minkfreq = minkfreq);
    }
    let floats = [0.0, -0.0, 1e-45, -1e-45, 1.0, 1.000_000_1, 1000.0, 1000.0001, f32::NAN, f32::INFINITY, f32::NEG_INFINITY];
    for float in floats {
        with(&|j| j.settings.sizesim = float);
        with(&|j| j.settings.seqsim = float);
        with(&|j| j.settings.fpenalty = float);
        with(&|j| j.settings.gpenalty = float);
    }
    for size in [131_072, 131_073, -131_072, -131_073, i32::MAX, i32::MIN] {
        with(&|j| j.variants[1].size = size);
        with(&|j| j.haplotypes[0][0].size = size);
    }
    for (start, end) in [(0, u64::MAX), (u64::MAX, u64::MAX), (9, 10), (10, 9), (u64::MAX, 0), (9, 9)] {
        with(&|j| (j.variants[1].start, j.variants[1].end) = (start, end));
    }
    for count in [0, 1, 16, 17, 65] {
        with(&|j| j.variants = (0..count).map(|i| variant(i, i, 2, b"AG")).collect());
    }
    for count in [0, 8, 9, 65] {
        with(&|j| j.haplotypes = vec![vec![part(1, b"AG"); count]]);
    }
    // 0-10, 5-5, 6-8: N 5; 0 1 2 is no chain, 1 2 is
    with(&|j| {
        j.variants = vec![variant(0, 10, 1, b"AG"), variant(5, 5, 1, b"CT"), variant(6, 8, 1, b"GG")];
        j.haplotypes = vec![vec![part(3, b"AGCTGG")]];
        (j.settings.sizesim, j.settings.seqsim) = (0.0, 0.0);
    });
    all
}

/// Variants and parts with one letter fewer than k, k, and one more (document 02, P11).
fn few_letters() -> Vec<Vec<u8>> {
    let mut all = vec![];
    for k in 1..=4 {
        for count in [k - 1, k, k + 1] {
            let letters = &b"GCTAG"[..count];
            let mut with = |change: &dyn Fn(&mut Job)| {
                let mut job = example();
                job.settings.k = k as u8;
                job.variants = vec![variant(10, 10, 2, b"AGCT"), variant(20, 20, 2, b"CTAG")];
                job.haplotypes = vec![vec![part(2, b"AGCT")]];
                change(&mut job);
                all.push(job.bytes());
            };
            with(&|j| j.variants[0].letters = letters.to_vec());
            with(&|j| j.variants[1].letters = letters.to_vec());
            with(&|j| j.variants = vec![variant(10, 10, 2, letters)]);
            with(&|j| j.haplotypes[0][0].letters = letters.to_vec());
            with(&|j| (j.settings.one_to_one, j.variants[1].letters) = (true, letters.to_vec()));
            with(&|j| (j.settings.full, j.variants[1].letters) = (false, letters.to_vec()));
            // 9 stands before 16
            with(&|j| (j.variants[0].letters, j.variants[1].size) = (letters.to_vec(), 131_073));
            with(&|j| (j.variants[0].letters, j.haplotypes[0][0].size) = (letters.to_vec(), 131_073));
        }
    }
    all
}

/// Two haplotypes, one with a part of no letters.
fn two_without() -> Vec<Vec<Part>> {
    vec![vec![part(2, b"AG")], vec![part(2, b"AG"), part(2, b"")]]
}

/// The same for several haplotypes (document 02, P1).
fn several_at_limits() -> Vec<Vec<u8>> {
    let (one, two) = (vec![part(2, b"AG")], vec![part(2, b"AG"), part(2, b"CT")]);
    let mut all = vec![];
    let mut with = |haplotypes: Vec<Vec<Part>>, change: &dyn Fn(&mut Job)| {
        let mut job = Job { haplotypes, ..example() };
        change(&mut job);
        all.push(job.bytes());
    };
    for count in [2, 3, 15, 16, 17, 18] {
        with(vec![one.clone(); count], &|_| ());
        with(vec![vec![]; count], &|_| ());
    }
    with(vec![vec![], one.clone(), vec![], two.clone()], &|_| ());
    with(vec![two.clone(), one.clone(), vec![part(2, b"CT")], vec![part(4, b"AGCT")]], &|j| j.settings.one_to_one = true);
    for (first, second) in [(8, 8), (4, 5), (9, 1), (1, 9)] {
        with(vec![vec![part(1, b"AG"); first], vec![part(1, b"AG"); second]], &|_| ());
    }
    for size in [131_072, 131_073, -131_073, i32::MIN] {
        with(vec![one.clone(), vec![part(size, b"AG")], two.clone()], &|_| ());
        with(vec![vec![part(size, b"AG")], vec![part(size, b"AG")]], &|_| ());
        with(vec![one.clone(), vec![part(131_073, b"AG")]], &|j| j.variants[0].size = size);
    }
    let over = vec![one, vec![part(131_073, b"AG")]];
    with(over.clone(), &|j| j.settings.k = 0);
    with(over.clone(), &|j| j.settings.gpenalty = f32::NAN);
    with(over.clone(), &|j| j.settings.pileupmax = 13);
    with(over.clone(), &|j| j.variants.clear());
    with(over.clone(), &|j| j.variants[0].start = 11);
    with(over.clone(), &|j| j.variants[1].start = 9);
    // a row all zero is the table's: it answers the whole job, also where a part is over its limit; a part's is taken
    with(over.clone(), &|j| j.variants[1].letters.clear());
    with(two_without(), &|_| ());
    with(two_without(), &|j| j.settings.one_to_one = true);
    with(over, &|j| j.settings.maxpaths = 64);
    all
}

/// 0x05 where it may stand and where not.
fn next_in_place() -> Vec<Vec<u8>> {
    // the example's records: settings to byte 41, two variants with their letters to 127, a part to 137
    let record = |from: usize, until: usize| example().bytes()[from..until].to_vec();
    let (settings, table, unlettered, end) = (&record(0, 41), &record(41, 127), &record(127, 137), &vec![0]);
    let (one, fifteen, sixteen) = (&vec![0x05], &vec![0x05; 15], &vec![0x05; 16]);
    let orders: [&[&Vec<u8>]; 11] = [
        &[one, settings, table, end],
        &[settings, one, end],
        &[settings, one, table, end],
        &[settings, table, one, table, end],
        &[settings, table, unlettered, one, end],
        &[settings, table, fifteen, unlettered, one, end],
        &[settings, table, fifteen, table, one, end],
        &[settings, table, sixteen, table, end],
        &[settings, table, fifteen],
        &[settings, table, sixteen],
        &[settings, table, one, end, one],
    ];
    orders.into_iter().map(|records| records.iter().flat_map(|record| record.iter().copied()).collect()).collect()
}

/// Document 01's example in edition 2 with these record numbers.
fn example_two(numbers: [u32; 2]) -> Job {
    let mut job = Job { edition: Edition::Two, ..example() };
    job.variants.iter_mut().zip(numbers).for_each(|(variant, number)| variant.number = number);
    job
}

/// Edition 2 (document 02, P7): every limit and every place of 0x05 once more, moved; letters, record numbers, and the editions mixed.
fn edition_two_at_limits() -> Vec<Vec<u8>> {
    let moved = |bytes: &Vec<u8>| job::read(&DOCUMENT, bytes).ok().map(|job| moving::other_edition(&job).bytes());
    let mut all: Vec<Vec<u8>> = [at_limits(), few_letters(), several_at_limits(), next_in_place()].concat().iter().filter_map(moved).collect();
    all.retain(|bytes| bytes.len() < 2_000);
    for numbers in [[0, 1], [1, 0], [7, u32::MAX], [u32::MAX, 0], [7, 7], [0, 0], [1, 0x1_0001], [0x0100_0000, 1]] {
        let mut with = |change: &dyn Fn(&mut Job)| {
            let mut job = example_two(numbers);
            change(&mut job);
            all.push(job.bytes());
        };
        with(&|_| ());
        with(&|j| j.settings.one_to_one = true);
        with(&|j| j.variants[1].size = 131_073);
        with(&|j| j.variants[1].start = 9);
        with(&|j| j.variants[1].letters.clear());
        with(&|j| j.haplotypes = two_without());
    }
    for letters in [0, 1, 2, 255] {
        for text in [b"NN".as_slice(), b"AN", b"nAG", b"AG-", b"RA"] {
            let mut job = example_two([5, 3]);
            job.settings.letters = letters;
            job.variants[0].letters = text.to_vec();
            all.push(job.bytes());
            (job.variants[0].letters, job.haplotypes) = (b"AA".to_vec(), vec![vec![part(2, text)]]);
            all.push(job.bytes());
        }
    }
    all.extend(mixed_editions());
    all
}

/// Settings and a variant of the other edition at every place.
fn mixed_editions() -> Vec<Vec<u8>> {
    let (one, two) = (example().bytes(), example_two([0, 1]).bytes());
    let records = |bytes: &[u8]| {
        let (mut found, mut left) = (vec![], bytes.to_vec());
        while !left.is_empty() {
            let behind = left.split_off(record_length(left[0]));
            found.push(std::mem::replace(&mut left, behind));
        }
        found
    };
    let mut all = vec![];
    for (own, other) in [(records(&one), records(&two)), (records(&two), records(&one))] {
        for at in 0..own.len() {
            for foreign in &other[..2] {
                all.push([own[..at].concat(), foreign.clone(), own[at..].concat()].concat());
                all.push([own[..at].concat(), foreign.clone(), own[at + 1..].concat()].concat());
                all.push([own[..at].concat(), foreign[..foreign.len() - 1].to_vec()].concat());
            }
        }
    }
    all
}

fn catches(differs: impl Fn(&Rules) -> bool) -> impl Iterator<Item = String> {
    MISTAKES.iter().filter(move |mistake| differs(&mistake.rules)).map(|mistake| format!("catches: {}", mistake.words))
}

/// The kinds that an input shows and the mistakes that it catches.
fn shown(bytes: &[u8]) -> BTreeSet<String> {
    let judged = program::judged(bytes);
    let mut met = Met::default();
    let answers: Vec<Answer> = judged.iter().map(|one| one.answer.clone()).collect();
    assert_eq!(program_answers(&DOCUMENT, bytes, &mut met), answers);
    let mut counts = Counts::new();
    kinds::of_input(&mut counts, job::read(&DOCUMENT, bytes).as_ref().ok(), &judged, &met);
    let text = answer::text(&DOCUMENT, &answers);
    let caught = catches(|rules| program_text(rules, bytes) != text);
    counts.into_keys().chain(caught).collect()
}

/// Takes, in the given order, whatever shows something that fewer than `OF_EACH` before it show.
fn cover<T>(candidates: Vec<(T, BTreeSet<String>)>, have: &mut BTreeMap<String, usize>) -> Vec<T> {
    let mut taken = vec![];
    for (one, kinds) in candidates {
        let wanted = kinds.iter().any(|kind| have.get(kind).copied().unwrap_or(0) < OF_EACH);
        if wanted {
            for kind in kinds {
                *have.entry(kind).or_default() += 1;
            }
            taken.push(one);
        }
    }
    taken
}

/// These inputs are taken whatever they show.
fn take_all(inputs: &[Vec<u8>], have: &mut BTreeMap<String, usize>) {
    for kind in inputs.iter().flat_map(|bytes| shown(bytes)) {
        *have.entry(kind).or_default() += 1;
    }
}

/// The shortest first, with what each shows.
fn with_kinds(mut inputs: Vec<Vec<u8>>) -> Vec<(Vec<u8>, BTreeSet<String>)> {
    inputs.sort_by_key(|bytes| bytes.len());
    inputs.into_iter().map(|bytes| (bytes.clone(), shown(&bytes))).collect()
}

/// Jobs of one haplotype, behind them those of several, and then those of edition 2.
fn program_list() -> Vec<Vec<u8>> {
    let mut have = BTreeMap::new();
    let mut list: Vec<Vec<u8>> = [at_limits(), few_letters()].concat();
    take_all(&list, &mut have);
    let mut inputs: Vec<Vec<u8>> = exhaust::jobs().step_by(61).map(|job| job.bytes()).collect();
    inputs.extend((0..12_000).map(|i| input(&mut Random::new(0x5eed_0000 + i))));
    inputs.retain(|bytes| bytes.len() < 1_500);
    list.extend(cover(with_kinds(inputs), &mut have));
    let at_limits = [several_at_limits(), next_in_place()].concat();
    take_all(&at_limits, &mut have);
    list.extend(at_limits);
    let several = (0..6_000).map(|i| several_input(&mut Random::new(0x5eed_2222 + i)));
    list.extend(cover(with_kinds(several.filter(|bytes| bytes.len() < 1_000).collect()), &mut have));
    let at_limits = edition_two_at_limits();
    take_all(&at_limits, &mut have);
    list.extend(at_limits);
    let editions = (0..6_000).map(|i| edition_two_input(&mut Random::new(0x5eed_3333 + i)));
    list.extend(cover(with_kinds(editions.filter(|bytes| bytes.len() < 1_000).collect()), &mut have));
    for (kind, count) in have {
        println!("{count:>6}  {kind}");
    }
    list
}

/// A call of the library as the list stores it, document 01's call, which has no record numbers:
/// 42 bytes, the settings record of the job form and its end;
/// words of four bytes: the lengths of starts, ends, sizes, features, part sizes, part features, of the queue's two slices (links, keys)
/// and of the answer;
/// the starts and ends (eight bytes each), the sizes, the part sizes;
/// how many variant sequences, each as negative (0 or 1), letter count, letters; then the parts' likewise;
/// how many entries are then changed, each as table (0 variants, 1 parts), place, value.
#[derive(Clone)]
struct Stored {
    job: Job,
    call: Call,
    /// the lengths of the queue's slices; the shortest is its room
    rooms: [usize; 2],
    changes: Vec<(u32, u32, i32)>,
}

impl Stored {
    fn of(job: Job) -> Stored {
        let mut call = Call::of_job(&job);
        call.queue_room = call.queue_room.min(QUEUE_MOST);
        Stored { rooms: [call.queue_room; 2], changes: vec![], job, call }
    }

    fn change(&mut self, table: u32, place: usize, value: i32) {
        let row = if table == 0 { &mut self.call.features } else { &mut self.call.part_features };
        row[place] = value;
        self.changes.push((table, place as u32, value));
    }

    /// The answer by other rules, which may read the letters otherwise too.
    fn answer_by(&self, rules: &Rules) -> Answer {
        let counted = call_of(rules, &self.job);
        let mut call = self.call.clone();
        if self.changes.is_empty() && call.features.len() == counted.features.len() {
            call.features = counted.features;
        }
        if self.changes.is_empty() && call.part_features.len() == counted.part_features.len() {
            call.part_features = counted.part_features;
        }
        call_answer(rules, &call, &mut Met::default())
    }

    fn record(&self) -> Vec<u8> {
        let (job, call) = (&self.job, &self.call);
        let bare = Job { variants: vec![], haplotypes: vec![vec![]], ..job.clone() };
        let mut bytes = bare.bytes();
        let word = |bytes: &mut Vec<u8>, x: u32| bytes.extend_from_slice(&x.to_le_bytes());
        let lengths = [
            call.starts.len(),
            call.ends.len(),
            call.sizes.len(),
            call.features.len(),
            call.part_sizes.len(),
            call.part_features.len(),
            self.rooms[0],
            self.rooms[1],
            call.answer_room,
        ];
        lengths.iter().for_each(|&length| word(&mut bytes, length as u32));
        call.starts.iter().chain(&call.ends).for_each(|x| bytes.extend_from_slice(&x.to_le_bytes()));
        call.sizes.iter().chain(&call.part_sizes).for_each(|&x| word(&mut bytes, x as u32));
        let mut sequences = |all: Vec<(bool, &[u8])>| {
            word(&mut bytes, all.len() as u32);
            for (negative, letters) in all {
                word(&mut bytes, negative as u32);
                word(&mut bytes, letters.len() as u32);
                bytes.extend_from_slice(letters);
            }
        };
        sequences(job.variants.iter().map(|v| (v.negative, v.letters.as_slice())).collect());
        sequences(job.haplotypes[0].iter().map(|p| (p.negative, p.letters.as_slice())).collect());
        word(&mut bytes, self.changes.len() as u32);
        for &(table, place, value) in &self.changes {
            [table, place, value as u32].iter().for_each(|&x| word(&mut bytes, x));
        }
        bytes
    }
}

/// An answer as words of eight hexadecimal digits.
fn words(answer: &Answer) -> String {
    let (target, left_out) = match answer.target {
        Target::Nothing => (0, 0),
        Target::Whole => (1, 0),
        Target::Partial(left_out) => (2, left_out),
    };
    let head = [
        answer.refusal,
        answer.rows.len() as u32,
        target,
        left_out,
        answer.score,
        answer.sizesim,
        answer.seqsim,
        answer.scored,
        answer.complete as u32,
    ];
    let all: Vec<String> = head.iter().chain(&answer.rows).map(|word| format!("{word:08x}")).collect();
    all.join(" ") + "\n"
}

fn shown_by_library(stored: &Stored) -> BTreeSet<String> {
    let judged = rust::judged(&stored.call);
    let mut met = Met::default();
    assert_eq!(call_answer(&DOCUMENT, &stored.call, &mut met), judged.answer);
    let mut counts = Counts::new();
    kinds::of_judged(&mut counts, &stored.call, &judged, &met);
    let caught = catches(|rules| words(&stored.answer_by(rules)) != words(&judged.answer));
    counts.into_keys().chain(caught).collect()
}

/// Calls of full library size, most of them with an answer.
fn large_ones(r: &mut Random) -> Vec<Stored> {
    let mut all: Vec<Stored> = vec![];
    while all.len() < 40 {
        let mut job = generate::job(r, LIBRARY);
        if job.variants.len() < 40 || job.bytes().len() > 12_000 {
            continue;
        }
        if all.len() % 3 == 0 {
            (job.settings.maxpaths, job.settings.maxnodes, job.settings.one_to_one) = (4_095, 65_535, false);
        }
        let mut stored = Stored::of(job);
        while cost(&stored.call) > 40_000_000 {
            stored.job.settings.maxpaths /= 2;
            stored = Stored::of(stored.job);
        }
        let answer = rust::judged(&stored.call).answer;
        if answer.target != Target::Nothing || all.len() % 4 == 0 {
            all.push(stored);
        }
    }
    all
}

/// What only the library can be asked: lengths that disagree, rows over their limit, rooms too small.
fn refused_ones() -> Vec<Stored> {
    let mut all = vec![];
    let mut with = |change: &dyn Fn(&mut Stored)| {
        let mut stored = Stored::of(example());
        change(&mut stored);
        all.push(stored);
    };
    with(&|s| { s.call.ends.pop(); });
    with(&|s| s.call.ends.push(20));
    with(&|s| { s.call.sizes.pop(); });
    with(&|s| s.call.sizes.push(2));
    with(&|s| { s.call.features.pop(); });
    with(&|s| s.call.features.push(0));
    with(&|s| { s.call.part_features.pop(); });
    with(&|s| s.call.part_features.push(0));
    with(&|s| s.call.part_sizes.clear());
    with(&|s| s.call.part_sizes.push(1));
    for value in [131_072, 131_073, -131_072, -131_073, i32::MIN, i32::MAX] {
        with(&|s| s.change(0, 7, value));
        with(&|s| s.change(1, 3, value));
    }
    with(&|s| (0..4).for_each(|place| s.change(0, place, 32_768)));
    with(&|s| (0..4).for_each(|place| s.change(0, place, -32_769)));
    with(&|s| (0..8).for_each(|place| s.change(0, place, [1, -1][place % 2])));
    for less in [0, 1, 22] {
        for slice in 0..2 {
            with(&|s| s.rooms[slice] -= less);
        }
    }
    with(&|s| (s.rooms, s.job.settings.one_to_one, s.call.settings.one_to_one) = ([0; 2], true, true));
    with(&|s| s.call.answer_room = 1);
    with(&|s| s.call.answer_room = 0);
    with(&|s| s.call.answer_room = 9);
    with(&|s| (s.call.answer_room, s.rooms) = (1, [1; 2]));
    for count in [64, 65] {
        let mut job = example();
        job.settings.maxpaths = 20;
        job.settings.maxnodes = 64;
        job.variants = (0..count).map(|i| variant(i, i, 2, b"AG")).collect();
        all.push(Stored::of(job.clone()));
        job.variants.truncate(2);
        job.haplotypes = vec![vec![part(1, b"AG"); count as usize]];
        all.push(Stored::of(job));
    }
    for stored in &mut all {
        stored.call.queue_room = stored.rooms.into_iter().min().unwrap();
    }
    all
}

/// Rows all zero, before the rooms and behind a row over its limit, in every mode; and rows with one entry that is not, the first or the last.
fn blank_ones() -> Vec<Stored> {
    let mut all = vec![];
    let mut with = |places: std::ops::Range<usize>, change: &dyn Fn(&mut Stored)| {
        let mut stored = Stored::of(example());
        places.for_each(|place| stored.change(0, place, 0));
        change(&mut stored);
        stored.call.queue_room = stored.rooms.into_iter().min().unwrap();
        all.push(stored);
    };
    for row in [0..4, 4..8, 0..8] {
        with(row.clone(), &|_| ());
        with(row.clone(), &|s| s.change(0, 3, 131_073));
        with(row.clone(), &|s| s.change(1, 0, -131_073));
        with(row.clone(), &|s| s.rooms = [0; 2]);
        with(row.clone(), &|s| s.call.answer_room = 1);
        for (one_to_one, full) in [(true, true), (true, false), (false, false)] {
            with(row.clone(), &|s| {
                (s.job.settings.one_to_one, s.call.settings.one_to_one) = (one_to_one, one_to_one);
                (s.job.settings.full, s.call.settings.full) = (full, full);
            });
        }
    }
    with(0..0, &|s| (0..4).for_each(|place| s.change(1, place, 0)));
    with(0..8, &|s| [3, 7].into_iter().for_each(|place| s.change(0, place, 1)));
    with(0..8, &|s| [0, 4].into_iter().for_each(|place| s.change(0, place, -1)));
    all
}

fn library_list() -> Vec<Stored> {
    let r = &mut Random::new(0x5eed_1111);
    let mut have = BTreeMap::new();
    let mut candidates = large_ones(r);
    candidates.extend(refused_ones());
    candidates.extend(blank_ones());
    let always = candidates.len();
    let mut small: Vec<Stored> = vec![];
    for _ in 0..12_000 {
        let mut job = generate::job(r, LIBRARY);
        if r.chance(4) {
            disturb_job(r, &mut job);
        }
        let short = job.bytes().len() < 1_000;
        let stored = Stored::of(job);
        if short && cost(&stored.call) < 2_000_000 {
            small.push(stored);
        }
    }
    small.sort_by_key(|stored| stored.record().len());
    candidates.extend(small);
    let with_kinds = candidates.into_iter().enumerate().map(|(at, stored)| {
        let mut kinds = shown_by_library(&stored);
        if at < always {
            kinds.insert(format!("always {at}"));
        }
        (stored, kinds)
    });
    let list = cover(with_kinds.collect(), &mut have);
    for (kind, count) in have.into_iter().filter(|(kind, _)| !kind.starts_with("always")) {
        println!("{count:>6}  library: {kind}");
    }
    list
}

fn main() -> io::Result<()> {
    let root = std::env::args().nth(1).expect("the root of the repository");
    let write = |name: &str, input: Vec<u8>, output: String| {
        let folder = Path::new(&root).join("crates").join(name);
        fs::create_dir_all(&folder)?;
        println!("{name}: {} bytes of jobs, {} of answers", input.len(), output.len());
        fs::write(folder.join("stdin"), input)?;
        fs::write(folder.join("stdout"), output)
    };
    let list = program_list();
    let mut jobs = vec![];
    for bytes in &list {
        jobs.extend_from_slice(&(bytes.len() as u32).to_le_bytes());
        jobs.extend_from_slice(bytes);
    }
    let texts: String = list.iter().map(|bytes| program::text(bytes)).collect();
    println!("replay: {} jobs", list.len());
    write("replay", jobs, texts)?;
    let list = library_list();
    println!("search_vectors: {} jobs", list.len());
    let records = list.iter().flat_map(Stored::record).collect();
    write("search_vectors", records, list.iter().map(|stored| words(&rust::judged(&stored.call).answer)).collect())
}
