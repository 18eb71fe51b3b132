//! Random letters and rows, by the judge's generator: the same from the same seed everywhere.
use judge::random::Random as Generator;

pub struct Random(Generator);

impl Random {
    pub fn new(seed: u64) -> Self {
        Random(Generator::new(seed))
    }

    /// From 0 to one less than `limit`.
    pub fn below(&mut self, limit: usize) -> usize {
        self.0.below(limit as u64) as usize
    }

    pub fn letter(&mut self) -> u8 {
        b"ACGT"[self.below(4)]
    }

    pub fn letters(&mut self, count: usize) -> Vec<u8> {
        (0..count).map(|_| self.letter()).collect()
    }

    /// Letters of which one in so many is an N, at no fixed places; none is where nothing is said.
    pub fn letters_with_n(&mut self, count: usize, one_in: Option<usize>) -> Vec<u8> {
        (0..count).map(|_| if one_in.is_some_and(|many| self.below(many) == 0) { b'N' } else { self.letter() }).collect()
    }

    /// Entries from `low` to `high`.
    pub fn row(&mut self, entries: usize, low: i32, high: i32) -> Vec<i32> {
        (0..entries).map(|_| self.0.within(low.into(), high.into()) as i32).collect()
    }
}
