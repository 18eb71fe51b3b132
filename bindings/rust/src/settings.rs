// Made from docs/settings.tsv by tools/settings --write.

/// The settings of a search. The default values are kanpig's where they lie in the limits here; `maxpaths`
/// (5,000 there) and `pileupmax` (100 there) are the largest that are accepted.
#[derive(Clone, Copy, Debug, PartialEq)]
pub struct Settings {
    /// Letters of a k-mer, 1 to 6.
    pub k: u8,
    /// Prefer paths of few rows: the gap penalty counts rows beyond the first.
    pub squish: bool,
    /// Match each row alone instead of searching paths.
    pub one_to_one: bool,
    /// Rows of which no two overlap may stand in one path, an insertion inside a deletion overlapping it; without it only the empty path stands.
    pub full: bool,
    /// The search scores at most this many paths and one more; at most 4,095.
    pub maxpaths: u32,
    /// Tables of more rows are matched one to one.
    pub maxnodes: u32,
    /// How many parts a part list may leave out.
    pub fnmax: u32,
    /// From this many parts on only the whole haplotype is tried; at most 12.
    pub pileupmax: u32,
    /// K-mers seen fewer times in both rows together are passed over.
    pub minkfreq: u32,
    /// How bytes other than A, C, G and T in either case are read: 0 counts each as A, 1 leaves out each window that holds one.
    pub letters: u8,
    /// The least similarity of sizes, 0 to 1.
    pub sizesim: f32,
    /// The least similarity of sequences, 0 to 1.
    pub seqsim: f32,
    /// Taken off the score for each part left out, 0 to 1,000.
    pub fpenalty: f32,
    /// Taken off the score for each row too many or too few, 0 to 1,000.
    pub gpenalty: f32,
}

impl Default for Settings {
    fn default() -> Self {
        Self {
            k: 4,
            squish: false,
            one_to_one: false,
            full: true,
            maxpaths: 4095,
            maxnodes: 5000,
            fnmax: 3,
            pileupmax: 12,
            minkfreq: 2,
            letters: 0,
            sizesim: 0.9,
            seqsim: 0.9,
            fpenalty: 0.1,
            gpenalty: 0.02,
        }
    }
}
