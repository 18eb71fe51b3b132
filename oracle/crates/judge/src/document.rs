//! The documents' counting, scoring, search and records once more, in whole numbers and without kanpig's Rust, so that two
//! independent readings are compared. In the paper's order; what it says in one sentence is asked of `Rules`.
use crate::answer::{self, Answer, Target};
use crate::call::Call;
use crate::job::{Edition, Job};
use crate::met::Met;
use crate::program;
use crate::proposal::{self, Checked, Proposal};
use crate::rules::{Rules, DOCUMENT};
use crate::several::Several;
use std::cell::OnceCell;
use std::collections::BTreeMap;

/// The counts of the windows of k letters that a reading keeps. "A window of k letters is a base-4 number, first letter highest."
pub fn features(rules: &Rules, letters: u32, k: u8, text: &[u8], negative: bool) -> Vec<i32> {
    let codes: Vec<Option<usize>> = text.iter().map(|&letter| rules.code(letter, letters)).collect();
    let mut row = vec![0; 4usize.pow(k.into())];
    for (at, window) in codes.windows(k.into()).enumerate() {
        if rules.is_kept(&codes, at, k.into()) {
            let number = window.iter().fold(0, |number, code| number * 4 + code.unwrap_or(0));
            row[number] += rules.window_adds(negative);
        }
    }
    row
}

/// "A list has size, features and n as sums, and `partial` = parts left out."
pub struct PartList {
    pub size: i64,
    pub features: Vec<i32>,
    pub n: u64,
    pub partial: u32,
}

/// Lists of so many positions, from `from` on. "equal lengths in lexicographic order of positions"
fn positions(from: usize, m: usize, length: usize) -> Vec<Vec<usize>> {
    if length == 0 {
        return vec![vec![]];
    }
    let beginning_with = |first| positions(first + 1, m, length - 1).into_iter().map(move |rest| [vec![first], rest].concat());
    (from..=m - length).flat_map(beginning_with).collect()
}

fn sum_of_sizes(sizes: &[i32], chosen: &[usize]) -> i64 {
    chosen.iter().map(|&at| i64::from(sizes[at])).sum()
}

fn sum_of_features(features: &[i32], entries: usize, chosen: &[usize]) -> Vec<i32> {
    let mut sums = vec![0; entries];
    for &at in chosen {
        for (sum, x) in sums.iter_mut().zip(&features[at * entries..(at + 1) * entries]) {
            *sum += x;
        }
    }
    sums
}

fn part_lists(rules: &Rules, call: &Call, only_the_whole: bool) -> Vec<PartList> {
    let m = call.part_sizes.len();
    let lengths = if only_the_whole { vec![m] } else { rules.list_lengths(m, call.settings.fnmax as usize) };
    let list = |chosen: Vec<usize>| PartList {
        size: sum_of_sizes(&call.part_sizes, &chosen),
        features: sum_of_features(&call.part_features, call.settings.entries(), &chosen),
        n: chosen.len() as u64,
        partial: (m - chosen.len()) as u32,
    };
    lengths.into_iter().flat_map(|length| positions(0, m, length)).map(list).collect()
}

/// The best that a scoring, or a search, has come to.
#[derive(Clone)]
pub struct Scored {
    pub rows: Vec<usize>,
    pub target: Target,
    pub score: f32,
    pub sizesim: f32,
    pub seqsim: f32,
}

/// "Best starts at 0.0 with no rows, no part list and both similarities 0.0."
const START: Scored = Scored { rows: vec![], target: Target::Nothing, score: 0.0, sizesim: 0.0, seqsim: 0.0 };

/// How alike a chain and a part list are.
pub struct Alike {
    pub n: u64,
    pub d: u64,
    pub sizesim: f32,
    pub seqsim: f32,
}

/// One part list against one chain: why it is skipped, or its score.
pub enum Verdict {
    SignsDiffer,
    EmptyUnderSquish,
    SizesimBelow,
    SeqsimBelow(Alike),
    Score { score: f32, g: u64, alike: Alike },
}

/// What is scored: a chain, or a node alone, of which an anchor has no row and still length 1.
struct Path<'a> {
    rows: &'a [usize],
    length: u64,
    size: i64,
    /// summed when a list comes as far as seqsim
    features: OnceCell<Vec<i32>>,
}

struct Scorer<'a> {
    rules: &'a Rules,
    call: &'a Call,
    lists: Vec<PartList>,
}

impl Scorer<'_> {
    fn verdict(&self, path: &Path, list: &PartList) -> Verdict {
        let (rules, s) = (self.rules, &self.call.settings);
        if rules.sign(path.size) != rules.sign(list.size) {
            return Verdict::SignsDiffer;
        }
        let Some(g) = rules.g(s.squish, list, path.length) else {
            return Verdict::EmptyUnderSquish;
        };
        let sizesim = rules.sizesim(path.size.unsigned_abs(), list.size.unsigned_abs());
        if rules.sizesim_is_below(sizesim, s.sizesim) {
            return Verdict::SizesimBelow;
        }
        let features = path.features.get_or_init(|| sum_of_features(&self.call.features, s.entries(), path.rows));
        let (n, d) = rules.n_and_d(features, &list.features, s.minkfreq);
        let seqsim = rules.seqsim(n, d);
        let alike = Alike { n, d, sizesim, seqsim };
        if rules.seqsim_is_below(seqsim, s.seqsim) {
            return Verdict::SeqsimBelow(alike);
        }
        Verdict::Score { score: rules.score(s, seqsim, sizesim, list.partial, g), g, alike }
    }

    fn score(&self, rows: &[usize], length: usize, met: &mut Met) -> Scored {
        let size = sum_of_sizes(&self.call.sizes, rows);
        let path = Path { rows, length: length as u64, size, features: OnceCell::new() };
        let mut best = START;
        for list in &self.lists {
            let verdict = self.verdict(&path, list);
            met.list(&self.call.settings, list, &verdict, best.score);
            if let Verdict::Score { score, alike: Alike { sizesim, seqsim, .. }, .. } = verdict {
                if self.rules.list_replaces(score, &best) {
                    best = Scored { rows: rows.to_vec(), target: self.rules.target(list), score, sizesim, seqsim };
                }
            }
        }
        best
    }
}

/// The search: the best, how many chains were scored, and whether these are all.
fn search(rules: &Rules, call: &Call, met: &mut Met) -> (Scored, u32, bool) {
    let (s, v, m) = (&call.settings, call.starts.len(), call.part_sizes.len());
    let lists = part_lists(rules, call, rules.only_the_whole(m, s.pileupmax as usize));
    let scorer = Scorer { rules, call, lists };
    let haplotype: i64 = call.part_sizes.iter().map(|&size| i64::from(size)).sum();
    let most = rules.most_scored(s.maxpaths);
    let mut queue: BTreeMap<(u64, i64), (Vec<usize>, i64)> = BTreeMap::new();
    queue.insert(rules.turn(0, haplotype, 0), (vec![], 0));
    let (mut best, mut queued, mut scored) = (START, 1, 0);
    while scored < most {
        let Some((_, (chain, size))) = queue.pop_first() else { break };
        let one = scorer.score(&chain, chain.len(), met);
        scored += 1;
        if rules.chain_replaces(one.score, &best) {
            best = one;
        }
        for row in rules.extension_order(chain.last().map_or(0, |last| last + 1)..v) {
            let overlaps = |earlier: usize| rules.overlaps(call.interval(earlier), call.interval(row));
            if s.full {
                met.extension(call, &chain, row, overlaps);
            }
            if rules.may_follow(s.full, &chain, &overlaps) {
                let size = size + i64::from(call.sizes[row]);
                queue.insert(rules.turn(size, haplotype, queued), ([&chain[..], &[row]].concat(), size));
                queued += 1;
            }
        }
    }
    (best, scored, rules.is_complete(queue.len(), scored, most))
}

/// "each of the V + 2 nodes alone": node 0 is the source, V + 1 the sink, variant row r is node r + 1.
fn one_to_one(rules: &Rules, call: &Call, met: &mut Met) -> Scored {
    let (v, m) = (call.starts.len(), call.part_sizes.len());
    let lists = part_lists(rules, call, rules.node_only_the_whole(m, call.settings.pileupmax as usize));
    let scorer = Scorer { rules, call, lists };
    let mut best = START;
    for node in 0..v + 2 {
        let row = (1..=v).contains(&node).then(|| node - 1);
        let one = scorer.score(row.as_slice(), 1, met);
        if one.target == Target::Nothing || !rules.is_candidate(one.seqsim) {
            continue;
        }
        met.candidate(one.score, best.score);
        if rules.node_replaces(one.score, &best) {
            best = one;
        }
    }
    best
}

/// What a list scores against some rows, whatever that is; 0.5 where a skip test keeps it.
pub fn list_score(call: &Call, rows: &[u32], positions: &[u32]) -> f32 {
    match proposed_verdict(&DOCUMENT, call, rows, positions) {
        Verdict::Score { score, .. } => score,
        _ => 0.5,
    }
}

fn proposed_verdict(rules: &Rules, call: &Call, rows: &[u32], positions: &[u32]) -> Verdict {
    let as_places = |numbers: &[u32]| -> Vec<usize> { numbers.iter().map(|&number| number as usize).collect() };
    let (rows, chosen) = (as_places(rows), as_places(positions));
    let list = PartList {
        size: sum_of_sizes(&call.part_sizes, &chosen),
        features: sum_of_features(&call.part_features, call.settings.entries(), &chosen),
        n: chosen.len() as u64,
        partial: call.part_sizes.len().saturating_sub(chosen.len()) as u32,
    };
    let path = Path { rows: &rows, length: rows.len() as u64, size: sum_of_sizes(&call.sizes, &rows), features: OnceCell::new() };
    Scorer { rules, call, lists: vec![] }.verdict(&path, &list)
}

/// The answer to a proposal: the refusal's number, and whether it is a yes. The list is scored as in a search.
pub fn checked(rules: &Rules, call: &Call, proposal: &Proposal) -> Checked {
    let call = &proposal::lent(call);
    let (s, v, m) = (&call.settings, call.starts.len(), call.part_sizes.len());
    let refused = |&number: &u32| match number {
        54 => rules.proposal_is_long(proposal.rows.len(), proposal.positions.len()),
        _ => call.is_refused_by(rules, number),
    };
    let number = rules.proposal_refusals().iter().copied().find(refused).unwrap_or(0);
    let rows: Vec<usize> = proposal.rows.iter().map(|&row| row as usize).collect();
    let missing = |numbers: &[u32], count: usize| numbers.iter().any(|&number| number as usize >= count);
    if number != 0 || rules.mode_forbids(s, v) || missing(&proposal.rows, v) || missing(&proposal.positions, m) {
        return (number, false);
    }
    let may_follow = |at: usize| rules.may_follow(s.full, &rows[..at], &|earlier| rules.overlaps(call.interval(earlier), call.interval(rows[at])));
    let lengths = if rules.only_the_whole(m, s.pileupmax as usize) { vec![m] } else { rules.list_lengths(m, s.fnmax as usize) };
    let as_sent = |list: Vec<usize>| -> Vec<u32> { list.into_iter().map(|position| position as u32).collect() };
    let lists: Vec<Vec<u32>> = lengths.into_iter().flat_map(|length| positions(0, m, length)).map(as_sent).collect();
    if !rules.rows_ascend(&proposal.rows) || !(0..rows.len()).all(may_follow) || !rules.is_a_part_list(&proposal.positions, &lists, m) {
        return (0, false);
    }
    match proposed_verdict(rules, call, &proposal.rows, &proposal.positions) {
        Verdict::Score { score, .. } => (0, rules.is_that_score(score, proposal.score)),
        _ => (0, false),
    }
}

/// The answer to a call. One-to-one: "Count V + 2, complete yes."
pub fn call_answer(rules: &Rules, call: &Call, met: &mut Met) -> Answer {
    let refusal = call.refusal(rules);
    if refusal != 0 {
        return Answer::refused(refusal);
    }
    let (best, scored, complete) = if call.searches(rules) {
        search(rules, call, met)
    } else {
        (one_to_one(rules, call, met), call.starts.len() as u32 + 2, true)
    };
    Answer {
        refusal,
        rows: best.rows.iter().map(|&row| rules.row_number(row)).collect(),
        records: rules.records(&call.numbers, &best.rows),
        target: best.target,
        score: best.score.to_bits(),
        sizesim: best.sizesim.to_bits(),
        seqsim: best.seqsim.to_bits(),
        scored,
        complete,
    }
}

/// What the second buffer holds after a call so answered.
pub fn record_buffer(rules: &Rules, call: &Call, answer: &Answer) -> Vec<u32> {
    rules.second_after(&call.record_buffer, &answer.records, answer.refusal != 0)
}

/// The answer to the whole of a call for several haplotypes, or one to each.
pub fn several_answers(rules: &Rules, several: &Several, met: &mut Met) -> Vec<Answer> {
    let refusal = several.refusal(rules);
    if refusal != 0 {
        let whole = rules.answers_the_whole(refusal, false);
        return vec![Answer::refused(refusal); if whole { 1 } else { several.count() }];
    }
    let own: Vec<Answer> = (0..several.count()).map(|at| call_answer(rules, &several.own(rules, at), met)).collect();
    let refused = |answer: &Answer| answer.refusal != 0;
    if let Some(whole) = own.iter().find(|answer| refused(answer) && rules.answers_the_whole(answer.refusal, true)) {
        return vec![whole.clone()];
    }
    let first = own.iter().position(refused).unwrap_or(own.len());
    own.into_iter().enumerate().filter(|&(at, _)| rules.is_answered(at, first)).map(|(_, answer)| answer).collect()
}

/// All haplotypes of the job as a call, its features counted by the rules, and its record numbers those that it has or that the rules give.
fn several_of(rules: &Rules, job: &Job) -> Several {
    let numbers = match job.edition {
        Edition::One => rules.present_numbers(job.variants.len()),
        Edition::Two => job.variants.iter().map(|variant| variant.number).collect(),
    };
    Several::of_job_by(job, numbers, |k, text, negative| features(rules, job.settings.letters, k, text, negative))
}

/// The first alone.
pub fn call_of(rules: &Rules, job: &Job) -> Call {
    several_of(rules, &job.with_parts(&job.haplotypes[0])).call
}

/// The answer to the whole of a program's input, or one to each haplotype.
pub fn program_answers(rules: &Rules, bytes: &[u8], met: &mut Met) -> Vec<Answer> {
    match program::admitted(rules, bytes) {
        Err(number) => vec![Answer::refused(number)],
        Ok(job) => several_answers(rules, &several_of(rules, &job), met),
    }
}

/// What the program would print by these rules.
pub fn program_text(rules: &Rules, bytes: &[u8]) -> String {
    answer::text(rules, &program_answers(rules, bytes, &mut Met::default()))
}
