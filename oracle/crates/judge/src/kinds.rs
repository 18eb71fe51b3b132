//! What a job reached, in words that are counted.
use crate::answer::{Answer, Target};
use crate::call::{magnitudes, Call};
use crate::job::{self, Edition, Job};
use crate::met::Met;
use crate::moving::{self, Asked};
use crate::rules::DOCUMENT;
use crate::rust::{By, Judged};
use crate::several::Several;
use std::collections::BTreeMap;

pub type Counts = BTreeMap<String, u64>;

pub fn add(counts: &mut Counts, kind: impl Into<String>) {
    *counts.entry(kind.into()).or_default() += 1;
}

fn add_seen<const N: usize>(counts: &mut Counts, seen: [(bool, &str); N]) {
    for (_, kind) in seen.into_iter().filter(|(is, _)| *is) {
        add(counts, kind);
    }
}

pub fn merge(into: &mut Counts, from: Counts) {
    for (kind, count) in from {
        *into.entry(kind).or_default() += count;
    }
}

/// What the answer shows.
fn of_answer(counts: &mut Counts, judged: &Judged) {
    let a = &judged.answer;
    add(counts, match judged.by {
        By::Table => "by: the documents' refusals",
        By::Unchanged => "by: the unchanged Rust, nothing ties",
        By::Ordered => "by: the second build, something ties",
        By::Squish => "by: the second build, squish and the empty chain",
        By::Overlap => "by: the second build, a zero-length row inside another or a row kept back by no neighbour",
    });
    if a.refusal != 0 {
        return add(counts, format!("refused {:02}", a.refusal));
    }
    let seen = [
        (judged.distance_tie, "ties: queued distances"),
        (judged.score_tie, "ties: best scores"),
        (judged.unchanged_differs.is_some(), "the unchanged Rust says something else"),
        (a.complete, "answer: complete"),
        (!a.complete, "answer: stopped"),
        (a.rows.is_empty() && a.target != Target::Nothing, "answer: the empty chain accepted"),
        (a.rows.len() > 1, "answer: several rows"),
        (a.target == Target::Nothing, "answer: nothing"),
        (a.target == Target::Whole, "answer: whole"),
        (matches!(a.target, Target::Partial(_)), "answer: a part list"),
    ];
    add_seen(counts, seen);
}

/// What an accepted call holds.
fn of_call(counts: &mut Counts, call: &Call) {
    let s = &call.settings;
    let (v, m) = (call.starts.len(), call.part_sizes.len());
    let sizes = || call.sizes.iter().chain(&call.part_sizes);
    let search = call.searches(&DOCUMENT);
    let seen = [
        (s.squish, "squish"),
        (!s.full, "bare graph"),
        (s.one_to_one, "one-to-one by flag"),
        (!search && !s.one_to_one, "one-to-one by maxnodes"),
        (!search && !s.full, "one-to-one in a bare graph"),
        (search && v == s.maxnodes as usize, "search with V equal to maxnodes"),
        (s.fnmax == 0, "fnmax 0"),
        (s.fnmax as usize >= m && m > 0, "fnmax at least m"),
        (m >= s.pileupmax as usize, "m at least pileupmax"),
        (m == 0, "no parts"),
        (m > 0 && m < s.pileupmax as usize, "part lists"),
        (s.sizesim == 0.0 || s.seqsim == 0.0, "a threshold 0"),
        (s.sizesim == 1.0 || s.seqsim == 1.0, "a threshold 1"),
        (s.floats().iter().any(|x| x.to_bits() == 0x8000_0000), "minus zero"),
        (s.letters == 1, "letters 1"),
        (s.minkfreq == 0, "minkfreq 0"),
        (s.minkfreq > 1000, "minkfreq large"),
        (sizes().any(|&x| x == 0), "a zero size"),
        (sizes().any(|&x| x < 0), "a negative size"),
        (sizes().any(|&x| x > 0) && sizes().any(|&x| x < 0), "sizes of both signs"),
        (sizes().any(|x| x.unsigned_abs() == 131_072), "a size at its limit"),
        (v == 1, "one variant"),
        (v >= 16, "16 variants or more"),
        (v == 64, "64 variants"),
        (m == 64, "64 parts"),
        (s.maxpaths == 0, "maxpaths 0"),
        (s.maxpaths == 4_095, "maxpaths 4,095"),
        (magnitudes(&call.features) == 8_388_608 && magnitudes(&call.part_features) == 8_388_608, "sums at their limit"),
        (call.part_features.chunks(s.entries()).any(|row| DOCUMENT.is_blank(row)), "a part's row all zero"),
    ];
    add_seen(counts, seen);
    add(counts, format!("k {}", s.k));
    add(counts, format!("pileupmax {:02}", s.pileupmax));
}

/// What the letters of a job hold.
fn of_letters<'a>(counts: &mut Counts, k: u8, mut letters: impl Iterator<Item = &'a [u8]> + Clone) {
    let plain = |b: &u8| b"ACGTacgt".contains(b);
    if letters.clone().any(|l| l.iter().any(|b| b.is_ascii_lowercase() && plain(b))) {
        add(counts, "lower case letters");
    }
    if letters.clone().any(|l| l.iter().any(|b| !plain(b))) {
        add(counts, "other letters");
    }
    if letters.any(|l| l.len() < k.into()) {
        add(counts, "fewer than k letters");
    }
}

/// What a text shows that is counted in both readings. A kind that no text shows is counted too, as 0.
pub fn of_text(counts: &mut Counts, text: &[u8], k: u8) {
    let codes: Vec<Option<usize>> = text.iter().map(|&letter| DOCUMENT.code(letter, 1)).collect();
    let windows = (codes.len() + 1).saturating_sub(k.into());
    let kept = (0..windows).filter(|&at| DOCUMENT.is_kept(&codes, at, k.into())).count();
    let seen = [
        (windows == 0, "text: fewer letters than k"),
        (windows > 0 && kept == windows, "text: every window kept"),
        (windows > 0 && kept == 0, "text: no window kept"),
        (kept > 0 && kept < windows, "text: some windows kept"),
        (text.len() >= 100_000, "text: 100,000 letters or more"),
        (text.len() == 131_072, "text: 131,072 letters"),
    ];
    for (is, kind) in seen {
        *counts.entry(kind.to_string()).or_default() += u64::from(is);
    }
}

/// What the scoring met on its way.
fn of_met(counts: &mut Counts, met: &Met) {
    let seen = [
        (met.signs_differ, "met: signs differ"),
        (met.sizesim_below, "met: sizesim below"),
        (met.seqsim_below, "met: seqsim below"),
        (met.sizesim_at_threshold, "met: sizesim at its threshold"),
        (met.seqsim_at_threshold, "met: seqsim at its threshold"),
        (met.score_exactly_zero, "met: a score of exactly 0"),
        (met.score_below_zero, "met: a score below 0"),
        (met.lists_tie, "met: two lists with one score"),
        (met.d_zero, "met: d zero"),
        (met.n_zero, "met: n zero"),
        (met.empty_under_squish, "met: squish and the empty chain"),
        (met.fpenalty_used, "met: fpenalty taken off"),
        (met.gpenalty_used, "met: gpenalty taken off"),
        (met.nodes_tie, "met: one-to-one scores tie"),
        (met.inside, "met: a zero-length row inside another"),
        (met.no_neighbour, "met: a row kept back by one that is no neighbour alone"),
        (met.touches, "met: a zero-length row at the end of another, in one chain"),
    ];
    add_seen(counts, seen);
}

/// All that a judged call shows.
pub fn of_judged(counts: &mut Counts, call: &Call, judged: &Judged, met: &Met) {
    of_answer(counts, judged);
    if judged.answer.refusal == 0 {
        of_call(counts, call);
        of_met(counts, met);
    }
}

/// What the record numbers of a call and its second buffer show. A kind that no call shows is counted too, as 0.
pub fn of_numbers(counts: &mut Counts, call: &Call, answer: &Answer) {
    let (v, room, numbers) = (call.starts.len(), call.record_buffer.len(), &call.numbers);
    let pairs = || (0..numbers.len()).flat_map(|s| (0..s).map(move |r| (r, s)));
    let repeated = |r: usize, s: usize| numbers[r] == numbers[s];
    let is_refused_by = |list: &[u32]| list.iter().any(|&number| call.is_refused_by(&DOCUMENT, number));
    let any_repeated = DOCUMENT.repeats(numbers);
    let seen = [
        (numbers.iter().copied().eq(0..v as u32), "numbers: the row numbers"),
        (!any_repeated && numbers.windows(2).any(|pair| pair[0] > pair[1]), "numbers: different, in no order"),
        (pairs().any(|(r, s)| !repeated(r, s) && (numbers[r] ^ numbers[s]) & 0xffff == 0), "numbers: different, alike in 16 bits"),
        (numbers.contains(&0), "numbers: 0"),
        (numbers.contains(&u32::MAX), "numbers: 4,294,967,295"),
        (pairs().any(|(r, s)| repeated(r, s) && s == r + 1), "numbers: one repeated, neighbours"),
        (pairs().any(|(r, s)| repeated(r, s) && s > r + 1), "numbers: one repeated, far apart"),
        (numbers.len() < v, "numbers: fewer than V"),
        (numbers.len() > v, "numbers: more than V"),
        (any_repeated && (1..=8).contains(&answer.refusal), "numbers: one repeated, refused earlier"),
        (answer.refusal == 14, "numbers: refused 14"),
        (answer.refusal == 14 && is_refused_by(&[9, 10]), "numbers: refused 14, and 9 or 10 holds"),
        (answer.refusal == 14 && is_refused_by(&[11, 12]), "numbers: refused 14, and 11 or 12 holds"),
        (room < v, "second buffer: under V"),
        (room == v, "second buffer: V"),
        (room > v, "second buffer: over V"),
        (answer.refusal == 12 && call.answer_room >= v, "second buffer: alone the 12"),
        (answer.refusal == 12 && call.answer_room >= v && !call.searches(&DOCUMENT), "second buffer: alone the 12, one-to-one"),
        (answer.records.windows(2).any(|pair| pair[0] > pair[1]), "records: falling"),
        (!answer.records.is_empty() && answer.records != answer.rows, "records: other than the rows"),
    ];
    for (is, kind) in seen {
        *counts.entry(kind.to_string()).or_default() += u64::from(is);
    }
}

/// What the reading of a call's letters shows. A kind that no call shows is counted too, as 0.
pub fn of_reading(counts: &mut Counts, call: &Call, answer: &Answer) {
    let (letters, refusal) = (call.settings.letters, answer.refusal);
    let seen = [
        (letters == 1 && refusal == 0 && !answer.rows.is_empty(), "letters: 1, rows answered"),
        (letters == 1 && refusal == 0 && !call.searches(&DOCUMENT), "letters: 1, one-to-one"),
        (letters == 1 && refusal == 16, "letters: 1, refused 16"),
        (letters > 1 && refusal == 3, "letters: over 1, refused 3"),
        (letters > 255 && refusal == 3, "letters: over a byte, refused 3"),
        (letters > 1 && [1, 2].contains(&refusal), "letters: over 1, refused 1 or 2"),
    ];
    for (is, kind) in seen {
        *counts.entry(kind.to_string()).or_default() += u64::from(is);
    }
}

/// What the rows of a call show that are all zero, beside which other refusals. A kind that no call shows is counted too, as 0.
pub fn of_blank_rows(counts: &mut Counts, call: &Call, answer: &Answer) {
    let is_refused_by = |number: u32| call.is_refused_by(&DOCUMENT, number);
    let refused = answer.refusal == 16;
    let blank: Vec<bool> = if refused { call.features.chunks(call.settings.entries()).map(|row| DOCUMENT.is_blank(row)).collect() } else { vec![] };
    let seen = [
        (refused && call.searches(&DOCUMENT), "all zero: refused 16 in search mode"),
        (refused && !call.searches(&DOCUMENT), "all zero: refused 16 in one-to-one"),
        (refused && !call.settings.full, "all zero: refused 16 in a bare graph"),
        (refused && blank.iter().position(|&is| is) == Some(blank.len() - 1) && blank.len() > 1, "all zero: the last row alone"),
        (refused && is_refused_by(11), "all zero: refused 16, and 11 holds"),
        (refused && is_refused_by(12), "all zero: refused 16, and 12 holds"),
        ([14, 9, 10].contains(&answer.refusal) && is_refused_by(16), "all zero: refused 14, 9 or 10, and 16 holds"),
        (answer.refusal == 10 && is_refused_by(16), "all zero: refused 10, and 16 holds"),
    ];
    for (is, kind) in seen {
        *counts.entry(kind.to_string()).or_default() += u64::from(is);
    }
}

/// What the answers to several haplotypes, of so many parts each, show; one answer is to the whole.
fn of_haplotypes(parts: &[usize], answers: &[Answer]) -> Vec<(bool, String)> {
    let refused = |number: u32| answers.len() > 1 && answers.iter().any(|answer| answer.refusal == number);
    let (some, all) = (answers.iter().any(|answer| answer.refusal != 0), answers.iter().all(|answer| answer.refusal != 0));
    let whole = answers.len() == 1;
    let mut seen: Vec<(bool, String)> = (1..=16).map(|count| (!(whole && some) && parts.len() == count, format!("haplotypes: {count:02}"))).collect();
    seen.extend([5, 6, 9, 10].map(|number| (refused(number), format!("haplotypes: one refused {number:02}"))));
    seen.extend([
        (!whole && some && !all, "haplotypes: some refused, some answered".to_string()),
        (!whole && all, "haplotypes: each refused".to_string()),
        (!whole && parts.contains(&0), "haplotypes: one without parts".to_string()),
        (!whole && parts.iter().all(|&m| m == 0), "haplotypes: none has parts".to_string()),
        (!whole && parts.iter().sum::<usize>() > 8, "haplotypes: over 8 parts in all".to_string()),
        (!whole && answers.iter().any(|one| one.rows != answers[0].rows), "haplotypes: other rows for another".to_string()),
        (whole && some && parts.len() > 1, "haplotypes: several, the whole refused".to_string()),
    ]);
    seen
}

/// What a judged call for several haplotypes shows. A kind that no call shows is counted too, as 0.
pub fn of_several(counts: &mut Counts, several: &Several, judged: &[Judged]) {
    let (v, count) = (several.rows(), several.count());
    let answers: Vec<Answer> = judged.iter().map(|one| one.answer.clone()).collect();
    let refusal = DOCUMENT.returned(&answers.iter().map(|answer| answer.refusal).collect::<Vec<u32>>());
    let parts: Vec<usize> = (0..count).map(|at| if refusal == 0 { DOCUMENT.stretch(&several.part_ends, at).len() } else { 0 }).collect();
    let long = |length: usize, need: usize| if length < need { "too short" } else if length == need { "just enough" } else { "longer" };
    judged.iter().for_each(|one| of_answer(counts, one));
    let mut seen = of_haplotypes(&parts, &answers);
    seen.extend([
        (refusal == 27 && count == 0, "haplotypes: none lent, refused 27".to_string()),
        (refusal == 27 && count > 16, "haplotypes: over 16, refused 27".to_string()),
        (refusal == 6 && several.part_ends.len() != several.feature_ends.len(), "ends: unequal numbers, refused 6".to_string()),
        (refusal == 6 && !several.part_ends.is_sorted(), "ends: falling, refused 6".to_string()),
        (refusal == 12 && several.row_buffer.len() >= v * count && several.call.record_buffer.len() >= v * count, "reports: alone the 12".to_string()),
    ]);
    for (name, length, need) in [
        ("row buffer", several.row_buffer.len(), v * count),
        ("second buffer", several.call.record_buffer.len(), v * count),
        ("reports", several.reports.len(), 8 * count),
    ] {
        seen.push((true, format!("{name}: {}", long(length, need))));
    }
    for (is, kind) in seen {
        *counts.entry(kind).or_default() += u64::from(is);
    }
}

/// What an input shows that may be of edition 2 (document 02, P7); it is a job unless the form is at fault. A kind that none shows is counted too, as 0.
pub fn of_edition(counts: &mut Counts, bytes: &[u8], job: Option<&Job>, answers: &[Answer]) {
    let two = bytes.first() == Some(&0x11);
    let refusal = if let [only] = answers { only.refusal } else { 0 };
    let answered = answers.iter().any(|answer| answer.refusal == 0 && !answer.rows.is_empty());
    let held = |letters: u32| job.is_some_and(|job| job.edition == Edition::Two && job.settings.letters == letters);
    let own = |answer: &Answer| !answer.records.is_empty() && answer.records != answer.rows;
    let seen = [
        (!two, "edition: other than 2"),
        (held(0) && answered, "edition: 2, letters 0, rows answered"),
        (held(1) && answered, "edition: 2, letters 1, rows answered"),
        (held(1) && refusal == 16, "edition: 2, letters 1, refused 16"),
        (two && answers.len() > 1, "edition: 2, several haplotypes"),
        (answers.iter().any(own), "edition: 2, records other than the rows"),
        (two && refusal == 14, "edition: 2, refused 14"),
        (two && refusal == 22, "edition: 2, refused 22"),
        (two && refusal == 24, "edition: 2, refused 24"),
        (two && bytes.len() > 32_768, "edition: 2, over 32,768 bytes"),
    ];
    for (is, kind) in seen {
        *counts.entry(kind.to_string()).or_default() += u64::from(is);
    }
}

/// What a call of the mover shows. A kind that none shows is counted too, as 0.
pub fn of_move(counts: &mut Counts, asked: &Asked, seen: &moving::Seen) {
    let need = job::read(&DOCUMENT, &asked.bytes).map_or(0, |job| moving::other_edition(&job).bytes().len());
    let nan = || job::read(&DOCUMENT, &asked.bytes).is_ok_and(|job| job.settings.floats().iter().any(|x| x.is_nan() && x.to_bits() != f32::NAN.to_bits()));
    let moved = seen.refusal == 0;
    let there = (1..=2).contains(&asked.edition);
    let kinds = [
        (moved && asked.edition == 1, "moved to edition 1"),
        (moved && asked.edition == 2, "moved to edition 2"),
        (moved && asked.lent.len() == need, "moved with room just enough"),
        (moved && asked.lent.len() > need, "moved with more room"),
        (moved && nan(), "moved with a NaN of other bits"),
        (moved && asked.bytes.len() > 32_768, "moved, longer than the program reads"),
        (seen.refusal == 22 && need > 0 && there, "move refused 22, in the edition asked for"),
        (seen.refusal == 22 && need > 0 && !there, "move refused 22, no such edition"),
        (seen.refusal == 28, "move refused 28"),
        (seen.refusal == 28 && asked.lent.len() < need, "move refused 28, and too little room"),
        (seen.refusal == 29, "move refused 29"),
        (seen.refusal == 29 && asked.lent.len() < need, "move refused 29, and too little room"),
        (seen.refusal == 30, "move refused 30"),
        (seen.refusal == 30 && asked.lent.len() + 1 == need, "move refused 30, one byte less"),
        (need == 0 && !there, "move refused by the form, and no such edition"),
    ];
    for (is, kind) in kinds {
        *counts.entry(kind.to_string()).or_default() += u64::from(is);
    }
    if need == 0 {
        add(counts, format!("move refused by the form: {}", seen.refusal));
    }
}

/// All that a judged input of the program shows; it is a job unless the form is at fault.
pub fn of_input(counts: &mut Counts, job: Option<&Job>, judged: &[Judged], met: &Met) {
    for (at, one) in judged.iter().enumerate() {
        match job {
            Some(job) if one.answer.refusal == 0 => {
                of_judged(counts, &Call::of_job(&job.with_parts(&job.haplotypes[at])), one, met);
                let variants = job.variants.iter().map(|v| v.letters.as_slice());
                of_letters(counts, job.settings.k, variants.chain(job.haplotypes[at].iter().map(|p| p.letters.as_slice())));
            }
            _ => of_answer(counts, one),
        }
    }
    if let Some(job) = job.filter(|job| job.haplotypes.len() > 1) {
        let parts: Vec<usize> = job.haplotypes.iter().map(Vec::len).collect();
        let answers: Vec<Answer> = judged.iter().map(|one| one.answer.clone()).collect();
        of_haplotypes(&parts, &answers).into_iter().filter(|(is, _)| *is).for_each(|(_, kind)| add(counts, kind));
    }
}
