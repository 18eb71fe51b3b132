//! Small tables of every kind, against all their paths: what is found is a path of exactly its score, nothing is worse than what was there,
//! and where the bounds rule out anything better there is nothing better.
use deeper::planted::Random;
use deeper::{scored, search, Counts, Effort, Ended, Problem, Proposal, Settings, Variant};
use std::time::Duration;

fn counts(random: &mut Random, entries: usize) -> Counts {
    let negative = random.below(3) == 0;
    let sign = if negative { -1 } else { 1 };
    let mut features = vec![0; entries];
    for _ in 0..random.within(1, 12) {
        features[random.below(entries as u64) as usize] += sign as i32;
    }
    // now and then a size that the letters do not tell, and both signs in one row
    let size = sign * match random.below(4) { 0 => random.below(9) as i64, _ => features.iter().map(|x: &i32| i64::from(x.abs())).sum() };
    if random.below(8) == 0 {
        features[random.below(entries as u64) as usize] -= 2 * sign as i32;
    }
    Counts { size, features }
}

fn settings(random: &mut Random) -> Settings {
    let of = |random: &mut Random, values: &[f32]| values[random.below(values.len() as u64) as usize];
    Settings {
        squish: random.below(4) == 0,
        fnmax: random.below(4) as u32,
        pileupmax: random.below(6) as u32,
        minkfreq: random.below(5) as u32,
        sizesim: of(random, &[0.0, 0.5, 0.9, 1.0]),
        seqsim: of(random, &[0.0, 0.5, 0.9, 1.0]),
        fpenalty: of(random, &[0.0, 0.1, 0.3, 1000.0]),
        gpenalty: of(random, &[0.0, 0.02, 0.2, 1000.0]),
    }
}

fn problem(random: &mut Random) -> Problem {
    let entries = [4, 4, 16, 64][random.below(4) as usize];
    let mut starts: Vec<u64> = (0..random.within(1, 9)).map(|_| random.below(20)).collect();
    starts.sort_unstable();
    let variant = |&start: &u64| Variant { start, end: start + random.below(2) * random.below(7), counts: counts(random, entries) };
    let variants: Vec<Variant> = starts.iter().map(variant).collect();
    let copied = |random: &mut Random| {
        let mut part = variants[random.below(variants.len() as u64) as usize].counts.clone();
        if random.below(2) == 0 {
            part.features[random.below(entries as u64) as usize] += 1;
        }
        part
    };
    let parts = (0..random.below(5)).map(|_| if random.below(3) == 0 { counts(random, entries) } else { copied(random) }).collect();
    Problem { settings: settings(random), variants, parts }
}

fn overlap(a: &Variant, b: &Variant) -> bool {
    let inside = |point: &Variant, other: &Variant| point.start == point.end && other.start < point.start && point.start < other.end;
    a.start.max(b.start) < a.end.min(b.end) || inside(a, b) || inside(b, a)
}

fn is_chain(problem: &Problem, rows: &[usize]) -> bool {
    let apart = |(at, a): (usize, &usize)| rows[at + 1..].iter().all(|b| a < b && !overlap(&problem.variants[*a], &problem.variants[*b]));
    rows.iter().enumerate().all(apart)
}

fn subsets(count: usize) -> Vec<Vec<usize>> {
    (0u32..1 << count).map(|set| (0..count).filter(|place| set >> place & 1 == 1).collect()).collect()
}

fn is_list(problem: &Problem, positions: &[usize]) -> bool {
    let (m, settings) = (problem.parts.len(), &problem.settings);
    if m >= settings.pileupmax as usize { positions.len() == m } else { positions.len() >= m.saturating_sub(settings.fnmax as usize).max(1) }
}

/// Of all paths and lists.
fn highest(problem: &Problem) -> f32 {
    let lists: Vec<Vec<usize>> = subsets(problem.parts.len()).into_iter().filter(|list| is_list(problem, list)).collect();
    let chains = subsets(problem.variants.len()).into_iter().filter(|rows| is_chain(problem, rows));
    let scores = chains.flat_map(|rows| lists.iter().filter_map(|list| scored(problem, &rows, list)).collect::<Vec<_>>());
    scores.fold(0.0, f32::max)
}

fn looked(problem: &Problem, than: f32, highest: f32, effort: Effort) -> Result<Ended, String> {
    let mut check = |proposal: &Proposal| {
        is_chain(problem, &proposal.rows) && is_list(problem, &proposal.positions) && scored(problem, &proposal.rows, &proposal.positions) == Some(proposal.score)
    };
    let looked = search(problem, than, effort, &mut check, &mut |_| {});
    let best = looked.found.map_or(than, |found| found.proposal.score);
    let fault = match looked.ended {
        Ended::Doubted(_) => Some("a proposal was no path, or had another score"),
        _ if best > highest.max(than) => Some("better than all paths"),
        Ended::RuledOut if highest > best + 1e-6 => Some("a better path was ruled out"),
        _ => None,
    };
    fault.map_or(Ok(looked.ended), |words| Err(format!("{words}: found {best}, there is {highest}; {problem:?}")))
}

/// All tables of one run; how many had everything better ruled out.
fn run(seed: u64, tables: usize, effort: Effort) -> usize {
    let mut random = Random(seed);
    let (mut ruled_out, mut nothing) = (0, 0);
    for table in 0..tables {
        let problem = problem(&mut random);
        let highest = highest(&problem);
        nothing += usize::from(highest == 0.0);
        let than = if random.below(3) == 0 { highest * random.below(3) as f32 / 2.0 } else { 0.0 };
        match looked(&problem, than, highest, effort) {
            Ok(ended) => ruled_out += usize::from(ended == Ended::RuledOut),
            Err(words) => panic!("table {table} of seed {seed}: {words}"),
        }
    }
    assert!(nothing < tables * 2 / 3, "{nothing} tables without any path");
    ruled_out
}

fn seed() -> u64 {
    let seed = std::time::SystemTime::now().duration_since(std::time::UNIX_EPOCH).unwrap().as_nanos() as u64;
    println!("seed {seed}");
    seed
}

const TABLES: usize = 3000;

#[test]
fn small_tables_against_all_their_paths() {
    assert_eq!(run(seed(), TABLES, Effort::of(Duration::from_secs(20))), TABLES);
}

/// Without the beams all rests on the bounds: a wrong one would cut off the best path.
#[test]
fn by_branch_and_bound_alone() {
    assert_eq!(run(seed(), TABLES, Effort { time: Duration::from_secs(20), width: 0 }), TABLES);
}
