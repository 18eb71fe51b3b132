//! What a chain must have to be better than the best: the least similarities, were the other one 1.
use crate::lists::List;
use crate::problem::Settings;

/// Scores that are no higher than this above the best are not looked for: the bounds are worked out in other roundings than the score.
const NEAR: f64 = 5e-7;

/// By how much a threshold is missed at most where only rounding misses it.
const ROUNDING: f64 = 1e-6;

/// Above the magnitude of any chain's size.
const LARGEST: f64 = 1e7;

#[derive(Clone, Copy, Debug)]
pub struct Goal {
    /// 1 less the least similarity of letters.
    pub unlike: f64,
    /// Between which sizes a chain must lie.
    pub sizes: (f64, f64),
}

impl Goal {
    /// Whether a list that leaves out so many parts can give more than the best.
    pub fn is_open(settings: &Settings, partial: u32, best: f32) -> bool {
        least(settings, partial, best, 0) <= 1.0
    }

    /// None where no chain of so many rows too many or too few can be better with this list.
    pub fn of(settings: &Settings, list: &List, best: f32, gap: usize) -> Option<Self> {
        let other = least(settings, list.partial, best, gap);
        let letters = other.max(f64::from(settings.seqsim) - ROUNDING).max(0.0);
        let sizes = other.max(f64::from(settings.sizesim) - ROUNDING).max(0.0);
        (other <= 1.0).then(|| Self { unlike: 1.0 - letters.min(1.0), sizes: between(list.counts.size, sizes) })
    }
}

/// What each similarity must come to at least for a chain to be better.
fn least(settings: &Settings, partial: u32, best: f32, gap: usize) -> f64 {
    let penalties = f64::from(settings.fpenalty) * f64::from(partial) + f64::from(settings.gpenalty) * gap as f64;
    2.0 * (f64::from(best) + NEAR + penalties) - 1.0
}

/// The sizes of this one's sign that are as similar to it.
fn between(size: i64, least: f64) -> (f64, f64) {
    if size == 0 {
        return (0.0, 0.0);
    }
    let magnitude = size.unsigned_abs() as f64;
    let low = (magnitude * (least - ROUNDING)).max(1.0);
    let high = if least > ROUNDING { (magnitude / (least - ROUNDING)).min(LARGEST) } else { LARGEST };
    if size > 0 { (low, high) } else { (-high, -low) }
}
