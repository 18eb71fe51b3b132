//! What each pruning of the scoring saves, counted: of the part lists that pass the sign and size tests, how many are summed
//! where only the chain's own best bounds them and where the search's best does too, and how many entries of these the pass
//! reads before a list is given up. A plain copy of the search counts; its answers are held to the library's.
use bench::cases::{copied_chains, shapes, Case, Shape};
use bench::random::Random;
use judge::call::Call;
use ndigomarr::{apply_haplotype_in, Room};
use std::cmp::Reverse;
use std::collections::BinaryHeap;

/// Entries that are passed over before the bound is looked at again.
const BLOCK: usize = 128;

/// What bounds a list: the chain's own best; the search's best too; and both again after each block.
#[derive(Clone, Copy, PartialEq)]
enum Bounds {
    Chain,
    Search,
    Blocks,
}

#[derive(Default)]
struct Counts {
    passed: usize,
    summed: usize,
    read: usize,
}

struct List {
    size: i32,
    count: usize,
    features: Vec<i32>,
}

fn sum(call: &Call, features: &[i32], rows: &[usize]) -> Vec<i32> {
    let e = call.settings.entries();
    (0..e).map(|at| rows.iter().map(|row| features[row * e + at]).sum()).collect()
}

/// Every choice of `count` positions from `from` on, in order.
fn choices(from: usize, m: usize, count: usize) -> Vec<Vec<usize>> {
    if count == 0 {
        return vec![vec![]];
    }
    (from..m).flat_map(|first| choices(first + 1, m, count - 1).into_iter().map(move |rest| [vec![first], rest].concat())).collect()
}

fn lists(call: &Call) -> Vec<List> {
    let m = call.part_sizes.len();
    let least = m.saturating_sub(call.settings.fnmax as usize).max(1);
    let named = (least..=m).rev().flat_map(|count| choices(0, m, count));
    named
        .map(|rows| List {
            size: rows.iter().map(|&row| call.part_sizes[row]).sum(),
            count: rows.len(),
            features: sum(call, &call.part_features, &rows),
        })
        .collect()
}

fn sizesim(a: i32, b: i32) -> f32 {
    let (a, b) = (a.unsigned_abs(), b.unsigned_abs());
    if a == b {
        return 1.0;
    }
    a.min(b).max(1) as f32 / a.max(b) as f32
}

fn seqsim(d: u32, n: u32) -> f32 {
    match (d, n) {
        (0, _) => 0.0,
        (_, 0) => 1.0,
        _ => 1.0 - n as f32 / d as f32,
    }
}

/// One chain against one list: its terms, and what it must beat and reach.
struct Bout<'a> {
    call: &'a Call,
    sizesim: f32,
    left: f32,
    gap: f32,
    best: f32,
    floor: f32,
}

impl Bout<'_> {
    fn score(&self, seq: f32) -> f32 {
        let s = &self.call.settings;
        (seq + self.sizesim) / 2.0 - s.fpenalty * self.left - s.gpenalty * self.gap
    }

    fn may_win(&self, seq: f32) -> bool {
        let score = self.score(seq);
        score >= self.floor && score > self.best
    }

    /// The score where the list is read to its end, and the entries that were read.
    fn judge(&self, chain: &[i32], list: &[i32], bounds: Bounds) -> (Option<f32>, usize) {
        let s = &self.call.settings;
        let weight: u32 = chain.iter().map(|x| x.unsigned_abs()).sum();
        let (mut d, mut n) = (0, 0);
        for (block, (a, b)) in chain.chunks(BLOCK).zip(list.chunks(BLOCK)).enumerate() {
            for (x, y) in a.iter().zip(b) {
                let both = x.unsigned_abs() + y.unsigned_abs();
                if both >= s.minkfreq {
                    d += both;
                    n += x.abs_diff(*y);
                }
            }
            let most = seqsim((2 * weight + 1 + n).min(1 << 24), n);
            if bounds == Bounds::Blocks && (most < s.seqsim || !self.may_win(most)) {
                return (None, block * BLOCK + a.len());
            }
        }
        let seq = seqsim(d, n);
        let score = (seq >= s.seqsim).then(|| self.score(seq));
        (score, chain.len())
    }
}

fn chain_score(call: &Call, rows: &[usize], lists: &[List], bounds: Bounds, leader: f32, counts: &mut Counts) -> f32 {
    let s = &call.settings;
    let size: i32 = rows.iter().map(|&row| call.sizes[row]).sum();
    let features = sum(call, &call.features, rows);
    let mut best = 0.0;
    for list in lists {
        let sizesim = sizesim(size, list.size);
        if size.signum() != list.size.signum() || sizesim < s.sizesim {
            continue;
        }
        counts.passed += 1;
        let floor = if bounds == Bounds::Chain { f32::NEG_INFINITY } else { leader };
        let (left, gap) = ((call.part_sizes.len() - list.count) as f32, list.count.abs_diff(rows.len()) as f32);
        let bout = Bout { call, sizesim, left, gap, best, floor };
        if !bout.may_win(1.0) {
            continue;
        }
        counts.summed += 1;
        let (score, read) = bout.judge(&features, &list.features, bounds);
        counts.read += read;
        if let Some(score) = score {
            best = if best < score { score } else { best };
        }
    }
    best
}

/// The best score of the search, with how many chains were scored.
fn search(call: &Call, bounds: Bounds, counts: &mut Counts) -> (f32, u32) {
    let lists = lists(call);
    let target: i32 = call.part_sizes.iter().sum();
    let mut chains: Vec<Vec<usize>> = vec![vec![]];
    let mut queued = BinaryHeap::from([Reverse((target.unsigned_abs(), 0))]);
    let (mut leader, mut scored) = (0.0, 0);
    while scored <= call.settings.maxpaths {
        let Some(Reverse((_, entry))) = queued.pop() else { break };
        let chain = chains[entry].clone();
        let score = chain_score(call, &chain, &lists, bounds, leader, counts);
        leader = if leader <= score { score } else { leader };
        scored += 1;
        let size: i32 = chain.iter().map(|&row| call.sizes[row]).sum();
        let after = chain.last().map_or(0, |&last| call.ends[last]);
        let next = chain.last().map_or(0, |&last| last + 1);
        for row in (next..call.starts.len()).filter(|&row| call.starts[row] >= after) {
            queued.push(Reverse(((size + call.sizes[row]).abs_diff(target), chains.len())));
            chains.push([chain.clone(), vec![row]].concat());
        }
    }
    (leader, scored)
}

fn tell(shape: &Shape) {
    let mut random = Random::new(1);
    let mut room = Room::new();
    let mut counts: [Counts; 3] = Default::default();
    for _ in 0..shape.inputs() {
        let case = Case::new(&mut random, shape);
        let answer = apply_haplotype_in(&case.settings, &case.table(), &case.haplotype(), &mut room).expect("within the limits");
        for (bounds, counts) in [Bounds::Chain, Bounds::Search, Bounds::Blocks].into_iter().zip(&mut counts) {
            let (score, scored) = search(&case.call, bounds, counts);
            assert_eq!((score.to_bits(), scored), (answer.score.to_bits(), answer.scored), "the answers differ: {}", shape.name());
        }
    }
    let [chain, search, blocks] = &counts;
    let share = |part: usize, whole: usize| if whole == 0 { 0.0 } else { part as f64 / whole as f64 };
    println!(
        "{:<66} {:>9} {:>9} {:>9} {:>9} {:>7.2} {:>7.2}",
        shape.name(),
        chain.passed,
        chain.summed,
        search.summed,
        blocks.summed,
        share(search.summed, chain.summed),
        share(blocks.read, search.read)
    );
}

fn main() {
    let only = std::env::args().nth(1).unwrap_or_default();
    println!("{:<66} {:>9} {:>9} {:>9} {:>9} {:>7} {:>7}", "lists: pass, bounded by chain, by search, by blocks", "pass", "chain", "search", "blocks", "lists", "entries");
    for shape in shapes().into_iter().chain(copied_chains()).filter(|shape| shape.name().contains(&only)) {
        tell(&shape);
    }
}
