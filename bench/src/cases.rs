//! Searches to time: seeded tables with a haplotype that some of their rows explain, up to noise.
use crate::random::Random;
use judge::call::{queue_need, Call};
use ndigomarr::{seq_to_kmer, Haplotype, Settings, Table};

/// Whose noisy copies a haplotype's parts are.
#[derive(Clone, Copy)]
pub enum Parts {
    /// So many rows, each of its own stretch of the table, whether or not they are a chain.
    Rows(usize),
    /// A chain of 2 to 6 rows, which is what a good haplotype is.
    Chain,
}

/// One row of the bench's table.
#[derive(Clone, Copy)]
pub struct Shape {
    pub k: u8,
    pub variants: usize,
    pub maxpaths: u32,
    pub parts: Parts,
    pub threshold: f32,
    pub crowded: bool,
}

impl Shape {
    pub fn name(&self) -> String {
        let Shape { k, variants, maxpaths, threshold, .. } = self;
        let table = if self.crowded { "crowded" } else { "loose" };
        match self.parts {
            Parts::Rows(m) => format!("search, thresholds {threshold}, k {k}, V {variants}, maxpaths {maxpaths}, m {m}, {table}"),
            Parts::Chain => format!("search, copied chain, k {k}, V {variants}, maxpaths {maxpaths}, {table}"),
        }
    }

    /// How many inputs it is timed on: fewer where one call of the Rust takes seconds.
    pub fn inputs(&self) -> usize {
        match (self.maxpaths, self.k, self.parts) {
            (63, _, _) => 16,
            (_, _, Parts::Chain) => 8,
            (_, 6, Parts::Rows(8)) => 1,
            (_, 6, _) => 2,
            _ => 4,
        }
    }

    fn settings(&self) -> Settings {
        Settings {
            k: self.k,
            maxpaths: self.maxpaths,
            sizesim: self.threshold,
            seqsim: self.threshold,
            ..Settings::default()
        }
    }
}

/// The settings as the judge has them.
fn judges(s: &Settings) -> judge::job::Settings {
    judge::job::Settings {
        k: s.k,
        squish: s.squish,
        one_to_one: s.one_to_one,
        full: s.full,
        maxpaths: s.maxpaths,
        maxnodes: s.maxnodes,
        fnmax: s.fnmax,
        pileupmax: s.pileupmax,
        minkfreq: s.minkfreq,
        letters: s.letters.into(),
        sizesim: s.sizesim,
        seqsim: s.seqsim,
        fpenalty: s.fpenalty,
        gpenalty: s.gpenalty,
    }
}

/// One input of a search: what the Rust and the judge are asked, and the settings as we take them.
pub struct Case {
    pub settings: Settings,
    pub call: Call,
}

/// A sequence put in or, with `negative`, left out.
struct Change {
    letters: Vec<u8>,
    negative: bool,
}

impl Change {
    fn random(random: &mut Random) -> Self {
        // more than any k: a variant without a window would be refused by 16
        let count = 50 + random.below(5_000);
        Change { letters: random.letters(count), negative: random.below(4) == 0 }
    }

    /// The same as a read shows it: one letter in fifty is wrong, and a few are lost.
    fn noisy(&self, random: &mut Random) -> Self {
        let lost = random.below(1 + self.letters.len() / 50);
        let kept = &self.letters[lost..];
        let letters = kept.iter().map(|&letter| if random.below(50) == 0 { random.letter() } else { letter }).collect();
        Change { letters, negative: self.negative }
    }

    fn size(&self) -> i32 {
        let count = self.letters.len() as i32;
        if self.negative {
            -count
        } else {
            count
        }
    }

    fn features(&self, k: u8) -> Vec<i32> {
        seq_to_kmer(&self.letters, k, self.negative, 0).expect("within the limits")
    }
}

/// In a loose table no row overlaps another; in a crowded one each overlaps the next eighth of the rows.
fn overlapped(shape: &Shape) -> usize {
    if shape.crowded {
        shape.variants / 8
    } else {
        0
    }
}

fn width(shape: &Shape) -> u64 {
    100 * overlapped(shape) as u64 + 50
}

/// The rows of a chain: the rows that a chosen one overlaps are left out, and as many distinct ones chosen of the rest.
fn chain(random: &mut Random, shape: &Shape) -> Vec<usize> {
    let count = 2 + random.below(5);
    let over = overlapped(shape);
    let mut left: Vec<usize> = (0..shape.variants - (count - 1) * over).collect();
    let mut rows: Vec<usize> = (0..count).map(|_| left.swap_remove(random.below(left.len()))).collect();
    rows.sort_unstable();
    rows.iter().enumerate().map(|(before, row)| row + before * over).collect()
}

/// A haplotype's parts: each from its own stretch of the table, or the rows of a chain.
fn parts_of(random: &mut Random, shape: &Shape, variants: &[Change]) -> Vec<Change> {
    match shape.parts {
        Parts::Rows(count) => {
            let stretch = shape.variants / count;
            (0..count)
                .map(|part| {
                    let row = part * stretch + random.below(stretch);
                    variants[row].noisy(random)
                })
                .collect()
        }
        Parts::Chain => chain(random, shape).into_iter().map(|row| variants[row].noisy(random)).collect(),
    }
}

/// Several haplotypes over one table.
pub struct Shared {
    pub settings: Settings,
    pub table: Table,
    pub haplotypes: Vec<Haplotype>,
}

impl Shared {
    pub fn new(random: &mut Random, shape: &Shape, count: usize) -> Self {
        let variants: Vec<Change> = (0..shape.variants).map(|_| Change::random(random)).collect();
        let mut table = Table::new(shape.k);
        for (row, change) in variants.iter().enumerate() {
            let start = 100 * row as u64;
            table.add_counted(start, start + width(shape), change.size(), &change.features(shape.k));
        }
        let haplotypes = (0..count)
            .map(|_| {
                let mut haplotype = Haplotype::new(shape.k);
                for change in parts_of(random, shape, &variants) {
                    haplotype.add_counted(change.size(), &change.features(shape.k));
                }
                haplotype
            })
            .collect();
        Shared { settings: shape.settings(), table, haplotypes }
    }
}

impl Case {
    pub fn new(random: &mut Random, shape: &Shape) -> Self {
        let variants: Vec<Change> = (0..shape.variants).map(|_| Change::random(random)).collect();
        let parts = parts_of(random, shape, &variants);
        let settings = shape.settings();
        let judged = judges(&settings);
        let starts: Vec<u64> = (0..shape.variants as u64).map(|row| 100 * row).collect();
        let call = Call {
            ends: starts.iter().map(|start| start + width(shape)).collect(),
            sizes: variants.iter().map(Change::size).collect(),
            features: variants.iter().flat_map(|change| change.features(shape.k)).collect(),
            // a table's rows have their own numbers, given when it is made: no timed call fills them in
            numbers: (0..).take(shape.variants).collect(),
            part_sizes: parts.iter().map(Change::size).collect(),
            part_features: parts.iter().flat_map(|change| change.features(shape.k)).collect(),
            queue_room: queue_need(&judged, shape.variants),
            answer_room: shape.variants,
            record_buffer: vec![0; shape.variants],
            settings: judged,
            starts,
        };
        Case { settings, call }
    }

    fn row<'a>(&self, features: &'a [i32], row: usize) -> &'a [i32] {
        let entries = 1 << (2 * self.settings.k as usize);
        &features[row * entries..(row + 1) * entries]
    }

    pub fn table(&self) -> Table {
        let call = &self.call;
        let mut table = Table::new(self.settings.k);
        for row in 0..call.starts.len() {
            table.add_counted(call.starts[row], call.ends[row], call.sizes[row], self.row(&call.features, row));
        }
        table
    }

    pub fn haplotype(&self) -> Haplotype {
        let mut haplotype = Haplotype::new(self.settings.k);
        for (part, &size) in self.call.part_sizes.iter().enumerate() {
            haplotype.add_counted(size, self.row(&self.call.part_features, part));
        }
        haplotype
    }
}

const THRESHOLDS: [f32; 2] = [0.0, 0.9];

/// With thresholds 0 every list of the right sign is scored; with 0.9 few are.
pub fn shapes() -> Vec<Shape> {
    let mut all = Vec::new();
    for threshold in THRESHOLDS {
        for k in [4, 6] {
            for variants in [16, 64] {
                for maxpaths in [63, 4_095] {
                    for parts in [3, 8] {
                        for crowded in [true, false] {
                            all.push(Shape { k, variants, maxpaths, parts: Parts::Rows(parts), threshold, crowded });
                        }
                    }
                }
            }
        }
    }
    all
}

/// What a bench sees most: a haplotype that some chain of the table explains, at the default thresholds.
pub fn copied_chains() -> Vec<Shape> {
    let mut all = Vec::new();
    for k in [4, 6] {
        for variants in [16, 64] {
            for maxpaths in [63, 4_095] {
                for crowded in [true, false] {
                    all.push(Shape { k, variants, maxpaths, parts: Parts::Chain, threshold: 0.9, crowded });
                }
            }
        }
    }
    all
}
