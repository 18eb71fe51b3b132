//! How often the planted truth is found, or a path that scores as high: by the rules' own search, written down here once more and not
//! the proved code, and by the deeper one. Each line is one kind of tables.
use deeper::planted::{Planted, Random, DEFAULTS};
use deeper::{scored, search, Effort, Ended, Problem, Settings};
use std::collections::BTreeMap;
use std::time::{Duration, Instant};

fn overlap(problem: &Problem, a: usize, b: usize) -> bool {
    let bounds = |row: usize| (problem.variants[row].start, problem.variants[row].end);
    let (a, b) = (bounds(a), bounds(b));
    let inside = |point: (u64, u64), other: (u64, u64)| point.0 == point.1 && other.0 < point.0 && point.0 < other.1;
    a.0.max(b.0) < a.1.min(b.1) || inside(a, b) || inside(b, a)
}

/// The part lists of the rules, for fewer parts than pileupmax.
fn lists(problem: &Problem) -> Vec<Vec<usize>> {
    let m = problem.parts.len();
    let least = m.saturating_sub(problem.settings.fnmax as usize).max(1);
    let mut lists: Vec<Vec<usize>> = (0u32..1 << m).map(|set| (0..m).filter(|part| set >> part & 1 == 1).collect()).collect();
    lists.retain(|list: &Vec<usize>| list.len() >= least);
    lists.sort_by(|a, b| b.len().cmp(&a.len()).then(a.cmp(b)));
    lists
}

/// Whether a list is not skipped for its size: most are, and then their letters need not be summed.
fn alike(problem: &Problem, chain: i64, list: &[usize]) -> bool {
    let list: i64 = list.iter().map(|&part| problem.parts[part].size).sum();
    let (less, more) = (chain.abs().min(list.abs()).max(1), chain.abs().max(list.abs()).max(1));
    chain.signum() == list.signum() && less as f32 / more as f32 >= problem.settings.sizesim
}

/// The best score of the rules' search, and whether it scored all chains.
fn proved_rule(problem: &Problem, maxpaths: usize) -> (f32, bool) {
    let goal: i64 = problem.parts.iter().map(|part| part.size).sum();
    let lists = lists(problem);
    let mut queue = BTreeMap::from([((goal.unsigned_abs(), 0), (vec![], 0))]);
    let (mut best, mut queued, mut taken) = (0.0f32, 1, 0);
    while taken <= maxpaths {
        let Some((_, (chain, size))) = queue.pop_first() else { return (best, true) };
        taken += 1;
        best = lists.iter().filter(|list| alike(problem, size, list)).filter_map(|list| scored(problem, &chain, list)).fold(best, f32::max);
        let from = chain.last().map_or(0, |last| last + 1);
        for row in (from..problem.variants.len()).rev().filter(|&row| !chain.iter().any(|&other| overlap(problem, other, row))) {
            let size: i64 = size + problem.variants[row].counts.size;
            queue.insert(((size - goal).unsigned_abs(), queued), ([&chain[..], &[row]].concat(), size));
            queued += 1;
        }
    }
    (best, queue.is_empty())
}

#[derive(Default)]
struct Tally {
    tables: usize,
    proved_right: usize,
    early: usize,
    right: usize,
    truth: usize,
    worse: usize,
    ruled_out: usize,
    slowest: Duration,
    all: Duration,
}

struct Kind {
    name: String,
    least: u64,
    most: u64,
    k: usize,
    settings: Settings,
}

fn one(random: &mut Random, kind: &Kind, time: Duration, tally: &mut Tally) {
    let variants = random.within(kind.least, kind.most) as usize;
    let (planted, problem, wanted) = Planted::findable(random, variants, kind.k, kind.settings);
    let (proved, complete) = proved_rule(&problem, 4095);
    let began = Instant::now();
    let looked = search(&problem, 0.0, Effort::of(time), &mut |proposal| scored(&problem, &proposal.rows, &proposal.positions) == Some(proposal.score), &mut |_| {});
    let took = began.elapsed();
    let (rows, score) = looked.found.map_or((vec![], 0.0), |found| (found.proposal.rows, found.proposal.score));
    tally.tables += 1;
    tally.proved_right += usize::from(proved >= wanted);
    tally.early += usize::from(!complete);
    tally.right += usize::from(rows == planted.truth || score >= wanted);
    tally.truth += usize::from(rows == planted.truth);
    tally.worse += usize::from(score < proved);
    tally.ruled_out += usize::from(looked.ended == Ended::RuledOut);
    tally.slowest = tally.slowest.max(took);
    tally.all += took;
}

fn main() {
    let given: Vec<u64> = std::env::args().skip(1).map(|word| word.parse().expect("TABLES, MILLISECONDS and a SEED")).collect();
    let count = given.first().copied().unwrap_or(100);
    let time = Duration::from_millis(given.get(1).copied().unwrap_or(1000));
    let by_clock = || std::time::SystemTime::now().duration_since(std::time::UNIX_EPOCH).map_or(0, |time| time.as_nanos() as u64);
    let seed = given.get(2).copied().unwrap_or_else(by_clock);
    println!("seed {seed}, {count} tables of each kind, {time:?} each at most");
    let kind = |least: u64, most: u64, k: usize, name: &str, settings: Settings| Kind { name: format!("{least} to {most} variants, k {k}{name}"), least, most, k, settings };
    let open = Settings { sizesim: 0.0, seqsim: 0.0, ..DEFAULTS };
    let kinds = [
        kind(4, 16, 4, "", DEFAULTS), kind(12, 16, 4, "", DEFAULTS), kind(17, 63, 4, "", DEFAULTS), kind(64, 64, 4, "", DEFAULTS), kind(4, 16, 4, ", thresholds 0", open),
        kind(64, 64, 4, ", thresholds 0", open), kind(64, 64, 3, "", DEFAULTS), kind(64, 64, 5, "", DEFAULTS), kind(64, 64, 6, "", DEFAULTS),
    ];
    for kind in &kinds {
        let (mut random, mut tally) = (Random(seed), Tally::default());
        (0..count).for_each(|_| one(&mut random, kind, time, &mut tally));
        let Tally { tables, proved_right, early, right, truth, worse, ruled_out, slowest, all } = tally;
        println!(
            "{:36} right {right} of {tables} ({truth} the truth itself), worse than the rules' search {worse}; rules' search right {proved_right}, stopped early {early}; \
             ruled out {ruled_out}; mean {:.0} ms, slowest {:.0} ms",
            kind.name, all.as_secs_f64() * 1e3 / tables as f64, slowest.as_secs_f64() * 1e3
        );
    }
}
