//! Many drawn combinings against kanpig's words of what combining is, written down here a second time.
use super::HaplotypeMeta;
use crate::Refusal;

/// Numbers that look drawn, the same in each run.
struct Drawn(u64);

impl Drawn {
    fn next(&mut self) -> u64 {
        self.0 ^= self.0 << 13;
        self.0 ^= self.0 >> 7;
        self.0 ^= self.0 << 17;
        self.0
    }

    fn below(&mut self, n: u64) -> u64 {
        self.next() % n
    }

    fn meta(&mut self, samples: u64) -> HaplotypeMeta {
        let big = self.below(8) == 0;
        HaplotypeMeta {
            id: self.next(),
            samples,
            samples_flag: self.next() >> self.below(64),
            coverage: std::array::from_fn(|_| if big { u64::MAX - self.below(3) } else { self.below(4) }),
            ps: std::array::from_fn(|_| (self.below(2) == 0).then(|| self.next() as u32)),
            hp: std::array::from_fn(|_| (self.below(2) == 0).then(|| self.next() as u8)),
        }
    }
}

/// The two combined, or the refusal, in document 02's words.
fn combined(left: &HaplotypeMeta, right: &HaplotypeMeta) -> Result<HaplotypeMeta, Refusal> {
    if !(1..=8).contains(&left.samples) || !(1..=8).contains(&right.samples) {
        return Err(Refusal::BadSamples);
    }
    if left.samples != right.samples {
        return Err(Refusal::UnequalSamples);
    }
    let mut both = *left;
    both.samples_flag |= right.samples_flag;
    for i in 0..left.samples as usize {
        both.coverage[i] = left.coverage[i].checked_add(right.coverage[i]).ok_or(Refusal::CoverageOverflow)?;
        both.ps[i] = left.ps[i].or(right.ps[i]);
        both.hp[i] = left.hp[i].or(right.hp[i]);
    }
    Ok(both)
}

#[test]
fn a_hundred_thousand_drawn_steps_of_combining() {
    let mut drawn = Drawn(0x9e37_79b9_7f4a_7c15);
    let mut seen = Vec::new();
    for _ in 0..100_000 {
        let samples = drawn.below(10);
        let other = if drawn.below(6) == 0 { drawn.below(10) } else { samples };
        let (left, right) = (drawn.meta(samples), drawn.meta(other));
        let mut both = left;
        let came_to = both.combine(&right);
        assert_eq!(came_to.map(|()| both), combined(&left, &right), "{left:?} with {right:?}");
        if came_to.is_err() {
            assert_eq!(both, left);
        }
        if !seen.contains(&came_to) {
            seen.push(came_to);
        }
    }
    for wanted in [Ok(()), Err(Refusal::BadSamples), Err(Refusal::UnequalSamples), Err(Refusal::CoverageOverflow)] {
        assert!(seen.contains(&wanted), "{wanted:?}");
    }
}
