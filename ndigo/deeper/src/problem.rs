//! What is searched: a table and one haplotype, as the library is lent them.

/// The settings that a score depends on; k is told by the features' length.
#[derive(Clone, Copy, Debug)]
pub struct Settings {
    pub squish: bool,
    pub fnmax: u32,
    pub pileupmax: u32,
    pub minkfreq: u32,
    pub sizesim: f32,
    pub seqsim: f32,
    pub fpenalty: f32,
    pub gpenalty: f32,
}

/// A size and features: of a row, a part, a chain or a part list.
#[derive(Clone, Debug, PartialEq, Eq)]
pub struct Counts {
    pub size: i64,
    pub features: Vec<i32>,
}

impl Counts {
    pub fn none(entries: usize) -> Self {
        Self { size: 0, features: vec![0; entries] }
    }

    pub fn add(&mut self, other: &Counts) {
        self.size += other.size;
        self.features.iter_mut().zip(&other.features).for_each(|(sum, entry)| *sum += entry);
    }

    pub fn take(&mut self, other: &Counts) {
        self.size -= other.size;
        self.features.iter_mut().zip(&other.features).for_each(|(sum, entry)| *sum -= entry);
    }
}

#[derive(Clone, Debug)]
pub struct Variant {
    pub start: u64,
    pub end: u64,
    pub counts: Counts,
}

/// One that the library accepts, in a full graph: at most 64 variants and 64 parts, all features of one length, no start above its end.
#[derive(Clone, Debug)]
pub struct Problem {
    pub settings: Settings,
    pub variants: Vec<Variant>,
    pub parts: Vec<Counts>,
}

impl Problem {
    pub fn entries(&self) -> usize {
        self.variants.first().map_or(0, |variant| variant.counts.features.len())
    }
}
