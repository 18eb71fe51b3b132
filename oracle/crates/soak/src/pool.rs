//! The jobs that are damaged: generated ones of both editions, a few of them new for each batch, and those that were the first to reach a block of the code.
use judge::generate;
use judge::random::Random;

const GENERATED: usize = 1024;
/// how many are new for each batch
const RENEWED: usize = 4;

pub struct Pool {
    generated: Vec<Vec<u8>>,
    pub guided: Vec<Vec<u8>>,
}

/// A job of either edition, of one haplotype or several, mostly one that the program answers.
fn generated(r: &mut Random) -> Vec<u8> {
    match r.below(20) {
        0..=8 => generate::input(r),
        9..=12 => generate::several_input(r),
        _ => generate::edition_two_input(r),
    }
}

impl Pool {
    pub fn new(r: &mut Random) -> Pool {
        Pool { generated: (0..GENERATED).map(|_| generated(r)).collect(), guided: vec![] }
    }

    pub fn renew(&mut self, r: &mut Random) {
        for _ in 0..RENEWED {
            let at = r.below(GENERATED as u64) as usize;
            self.generated[at] = generated(r);
        }
    }

    pub fn draw(&self, r: &mut Random) -> &[u8] {
        let from = if !self.guided.is_empty() && r.chance(20) { &self.guided } else { &self.generated };
        &from[r.below(from.len() as u64) as usize]
    }
}
