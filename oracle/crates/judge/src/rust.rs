//! The answer by kanpig's Rust.
use crate::answer::{Answer, Target};
use crate::call::Call;
use crate::rules::DOCUMENT;
use crate::several::Several;

/// Whose word an answer is.
#[derive(Clone, Copy, Debug, PartialEq, Eq)]
pub enum By {
    /// Document 01's refusals; the Rust has none.
    Table,
    /// Nothing ties: the unchanged Rust, and the second build said the same.
    Unchanged,
    /// Queued distances or best scores tie.
    Ordered,
    /// Squish kept a list from the empty chain, where the unchanged Rust underflows.
    Squish,
    /// A zero-length interval lies inside another, or a row that is not the last kept one from a chain (document 02, P5).
    Overlap,
}

#[derive(Clone, Debug)]
pub struct Judged {
    pub answer: Answer,
    pub by: By,
    pub distance_tie: bool,
    pub score_tie: bool,
    /// The rule of document 02, P5, was met.
    pub overlap: bool,
    /// What the unchanged Rust said, where it differs.
    pub unchanged_differs: Option<Answer>,
}

impl Judged {
    pub fn refused(number: u32) -> Self {
        Judged {
            answer: Answer::refused(number),
            by: By::Table,
            distance_tie: false,
            score_tie: false,
            overlap: false,
            unchanged_differs: None,
        }
    }
}

/// A row as the Rust takes it.
pub fn floats(row: &[i32]) -> Vec<f32> {
    row.iter().map(|&x| x as f32).collect()
}

/// A row by the Rust's own counter.
pub fn features(k: u8, letters: &[u8], negative: bool) -> Vec<i32> {
    unchanged::kplib::seq_to_kmer(letters, k, negative).into_iter().map(|count| count as i32).collect()
}

macro_rules! build {
    ($module:ident, $build:ident) => {
        /// The call put to one build: rows, target and the three floats.
        pub mod $module {
            use super::*;
            use noodles_vcf::variant::RecordBuf;
            use $build::kplib::{GraphParams, Haplotype, HaplotypeMeta, PathScore, Variants};

            pub fn params(call: &Call) -> GraphParams {
                let s = &call.settings;
                GraphParams {
                    kmer: s.k,
                    squish: s.squish,
                    one_to_one: s.one_to_one,
                    maxpaths: s.maxpaths.into(),
                    maxnodes: s.maxnodes as usize,
                    fnmax: s.fnmax as usize,
                    pileupmax: s.pileupmax as usize,
                    minkfreq: s.minkfreq.into(),
                    sizesim: s.sizesim,
                    seqsim: s.seqsim,
                    fpenalty: s.fpenalty,
                    gpenalty: s.gpenalty,
                    ..Default::default()
                }
            }

            pub fn table(call: &Call) -> Variants {
                let e = call.settings.entries();
                let records = (0..call.starts.len())
                    .map(|r| RecordBuf {
                        start: call.starts[r],
                        end: call.ends[r],
                        size: call.sizes[r].into(),
                        kfeat: floats(&call.features[r * e..(r + 1) * e]),
                        number: call.numbers[r],
                    })
                    .collect();
                let mut variants = Variants::new(records, call.settings.k);
                variants.build(call.settings.full);
                variants
            }

            pub fn haplotype(call: &Call) -> Haplotype {
                let e = call.settings.entries();
                let meta = HaplotypeMeta::new_blank(1);
                let mut whole = Haplotype::blank(call.settings.k, meta.clone());
                for (part, &size) in call.part_sizes.iter().enumerate() {
                    let row = floats(&call.part_features[part * e..(part + 1) * e]);
                    whole.add(&Haplotype::new(row, size.into(), 1, meta.clone()));
                }
                whole
            }

            /// The Rust says only whether the list was the whole; which it was, its own scorer tells for each list alone.
            fn left_out(best: &PathScore, variants: &Variants, whole: &Haplotype, params: &GraphParams) -> u32 {
                let size = best.path.iter().map(|&node| variants.graph[node].size).sum();
                let lists = whole.partial_haplotypes(params.kmer, params.fnmax, params.pileupmax);
                let won = lists.into_iter().find(|list| {
                    let alone = [list.clone()];
                    let one = PathScore::new(&variants.graph, best.path.clone(), size, &alone, params, whole);
                    one.score == best.score
                });
                won.expect("some list has the best score").partial as u32
            }

            /// The positions of each part list, in the Rust's own order: parts of sizes 1, 2, 4, .. tell by a list's size which of them it has.
            pub fn part_positions(call: &Call) -> Vec<Vec<u32>> {
                let (s, m) = (&call.settings, call.part_sizes.len());
                if m >= s.pileupmax as usize {
                    return vec![(0..m as u32).collect()];
                }
                let meta = HaplotypeMeta::new_blank(1);
                let mut whole = Haplotype::blank(1, meta.clone());
                for part in 0..m {
                    whole.add(&Haplotype::new(vec![0.0; 4], 1 << part, 1, meta.clone()));
                }
                let lists = whole.partial_haplotypes(1, s.fnmax as usize, s.pileupmax as usize);
                lists.iter().map(|list| (0..m as u32).filter(|part| list.size >> part & 1 == 1).collect()).collect()
            }

            /// One list, by its place among the Rust's, scored alone against these rows of the table; 0 where it is skipped or not above 0.
            pub fn list_score(call: &Call, rows: &[u32], place: usize) -> f32 {
                let (params, variants, whole) = (params(call), table(call), haplotype(call));
                let nodes: Vec<_> = variants.graph.node_indices().collect();
                let path: Vec<_> = rows.iter().map(|&row| nodes[row as usize + 1]).collect();
                let size = path.iter().map(|&node| variants.graph[node].size).sum();
                let list = whole.partial_haplotypes(params.kmer, params.fnmax, params.pileupmax).swap_remove(place);
                PathScore::new(&variants.graph, path, size, &[list], &params, &whole).score
            }

            pub fn answer(call: &Call) -> Answer {
                let (params, variants, whole) = (params(call), table(call), haplotype(call));
                let best = variants.apply_haplotype(&whole, &params);
                let target = if best.score == 0.0 {
                    Target::Nothing
                } else if best.full_target {
                    Target::Whole
                } else {
                    Target::Partial(left_out(&best, &variants, &whole, &params))
                };
                Answer {
                    refusal: 0,
                    rows: best.path.iter().map(|node| node.index() as u32 - 1).collect(),
                    records: best.path.iter().map(|&node| variants.graph[node].entry.as_ref().expect("a variant's node").number).collect(),
                    target,
                    score: best.score.to_bits(),
                    sizesim: best.sizesim.to_bits(),
                    seqsim: best.seqsim.to_bits(),
                    scored: 0,
                    complete: false,
                }
            }
        }
    };
}

build!(unchanged_build, unchanged);
build!(ordered_build, ordered);

/// How many lists of these rows have no overlapping pair, the empty one counted, or the cap if there are more: those without the
/// first row, and those with it, whose other rows do not overlap it. `apart` has for each row a bit for each row that it does not overlap.
fn lists(apart: &[u64], rows: u64, cap: u64) -> u64 {
    if rows == 0 || cap < 2 {
        return cap.min(1);
    }
    let others = rows & (rows - 1);
    let without = lists(apart, others, cap);
    without + lists(apart, others & apart[rows.trailing_zeros() as usize], cap - without)
}

/// N, the number of ascending lists of rows without an overlapping pair, or the cap if there are more (document 02, P5).
pub fn chains(call: &Call, cap: u64) -> u64 {
    if !call.settings.full {
        return cap.min(1);
    }
    let rows = || 0..call.starts.len();
    let is_apart = |r: usize, s: usize| !ordered::kplib::metrics::overlaps(call.starts[r], call.ends[r], call.starts[s], call.ends[s]);
    let apart: Vec<u64> = rows().map(|r| rows().filter(|&s| is_apart(r, s)).map(|s| 1 << s).sum()).collect();
    lists(&apart, rows().map(|r| 1 << r).sum(), cap)
}

fn one_to_one(call: &Call) -> Judged {
    ordered::notes::take();
    let mut answer = ordered_build::answer(call);
    let score_tie = ordered::notes::take().score_tie;
    assert_eq!(answer, unchanged_build::answer(call), "one-to-one is the same in both builds: {call:?}");
    answer.scored = call.starts.len() as u32 + 2;
    answer.complete = true;
    Judged {
        answer,
        by: if score_tie { By::Ordered } else { By::Unchanged },
        distance_tie: false,
        score_tie,
        overlap: false,
        unchanged_differs: None,
    }
}

fn search(call: &Call) -> Judged {
    ordered::notes::take();
    let mut answer = ordered_build::answer(call);
    let notes = ordered::notes::take();
    let mut unchanged = unchanged_build::answer(call);
    let limit = u64::from(call.settings.maxpaths) + 1;
    let count = chains(call, limit + 1);
    assert_eq!(notes.scored, count.min(limit), "the count noted is the smaller of N and maxpaths + 1: {call:?}");
    assert_eq!(notes.left == 0, count <= limit, "nothing is left queued exactly when N is within: {call:?}");
    for said in [&mut answer, &mut unchanged] {
        said.scored = notes.scored as u32;
        said.complete = notes.left == 0;
    }
    let overlap = notes.inside || notes.kept_back;
    let by = if notes.squish_empty {
        By::Squish
    } else if overlap {
        By::Overlap
    } else if notes.distance_tie || notes.score_tie {
        By::Ordered
    } else {
        By::Unchanged
    };
    if !notes.squish_empty && !notes.distance_tie && !overlap {
        assert_eq!(answer, unchanged, "where nothing ties and no rule of overlap is met both builds agree: {call:?}");
    }
    Judged {
        unchanged_differs: (unchanged != answer).then_some(unchanged),
        answer,
        by,
        distance_tie: notes.distance_tie,
        score_tie: notes.score_tie,
        overlap,
    }
}

/// Rows of the table, ascending, no two of which overlap; in a bare graph none.
pub fn is_chain(call: &Call, rows: &[u32]) -> bool {
    let bounds = |row: u32| (call.starts[row as usize], call.ends[row as usize]);
    let apart = |a: u32, b: u32| !ordered::kplib::metrics::overlaps(bounds(a).0, bounds(a).1, bounds(b).0, bounds(b).1);
    let pairs = (0..rows.len()).flat_map(|b| (0..b).map(move |a| (a, b)));
    (call.settings.full || rows.is_empty()) && pairs.into_iter().all(|(a, b)| rows[a] < rows[b] && apart(rows[a], rows[b]))
}

pub use ordered_build::{list_score, part_positions};

/// The judge's answer to a call: the documents' refusals, else the Rust's.
pub fn judged(call: &Call) -> Judged {
    match call.refusal(&DOCUMENT) {
        0 if call.searches(&DOCUMENT) => search(call),
        0 => one_to_one(call),
        number => Judged::refused(number),
    }
}

/// The judge's answer to the whole of a call for several haplotypes, or one to each, as to so many calls of their own.
pub fn judged_several(several: &Several) -> Vec<Judged> {
    match several.refusal(&DOCUMENT) {
        0 => (0..several.count()).map(|at| judged(&several.own(&DOCUMENT, at))).collect(),
        number => vec![Judged::refused(number)],
    }
}
