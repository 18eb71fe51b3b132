//! From positions to places across the picture: one stretch, or several with the axis broken between them.
use super::svg::{width, FAINT};
use crate::model::Variant;

const BREAK: f64 = 26.0;

/// A stretch of positions and where it is drawn.
#[derive(Clone, Copy, Debug, PartialEq)]
pub struct Segment {
    pub from: u64,
    pub to: u64,
    pub left: f64,
    pub right: f64,
}

#[derive(Clone, Debug)]
pub struct Scale {
    pub segments: Vec<Segment>,
}

pub struct Tick {
    pub x: f64,
    /// Where its label stands, which is over the tick or as near as its stretch allows.
    pub label_x: f64,
    pub words: String,
}

/// A position with its thousands parted.
pub fn grouped(position: u64) -> String {
    let digits = position.to_string();
    let mut text = String::new();
    for (at, digit) in digits.chars().enumerate() {
        if at > 0 && (digits.len() - at) % 3 == 0 {
            text.push(',');
        }
        text.push(digit);
    }
    text
}

/// The stretches that some variant covers, ascending, those that meet as one.
fn covered(variants: &[Variant]) -> Vec<(u64, u64)> {
    let mut ends: Vec<(u64, u64)> = variants.iter().map(|v| (v.start.min(v.end), v.start.max(v.end))).collect();
    ends.sort_unstable();
    let mut merged: Vec<(u64, u64)> = Vec::new();
    for (from, to) in ends {
        match merged.last_mut() {
            Some(last) if from <= last.1 => last.1 = last.1.max(to),
            _ => merged.push((from, to)),
        }
    }
    merged
}

/// Whether two different places would fall on nearly the same one.
fn crowded(variants: &[Variant], span: f64, room: f64) -> bool {
    let mut places: Vec<u64> = variants.iter().flat_map(|v| [v.start, v.end]).collect();
    places.sort_unstable();
    places.dedup();
    places.windows(2).any(|pair| (pair[1] - pair[0]) as f64 * room < 4.0 * span)
}

/// How many of the largest gaps to break: so many that each is over four times the mean stretch that is left.
fn breaks(gaps: &[u64], span: f64, most: usize) -> usize {
    let mut left = span;
    let mut chosen = 0;
    for (at, gap) in gaps.iter().enumerate().take(most) {
        left -= *gap as f64;
        let mean = (left / (at + 2) as f64).max(1.0);
        if *gap as f64 > 4.0 * mean {
            chosen = at + 1;
        }
    }
    chosen
}

/// The stretches to draw, without their places.
fn stretches(variants: &[Variant], room: f64) -> Vec<(u64, u64)> {
    let merged = covered(variants);
    let (Some(first), Some(last)) = (merged.first(), merged.last()) else { return vec![(0, 1)] };
    let span = (last.1 - first.0) as f64;
    let mut gaps: Vec<u64> = merged.windows(2).map(|pair| pair[1].0 - pair[0].1).collect();
    gaps.sort_unstable_by(|a, b| b.cmp(a));
    let each = width(&grouped(last.1), FAINT) + 14.0 + BREAK;
    let most = ((room / each) as usize).saturating_sub(1).min(6);
    let count = if crowded(variants, span, room) { breaks(&gaps, span, most) } else { 0 };
    let least = count.checked_sub(1).map(|at| gaps[at]);
    let mut found = vec![*first];
    for pair in merged.windows(2) {
        // of equal gaps all may be broken, but never more than there is room for
        let broken = least.is_some_and(|least| pair[1].0 - pair[0].1 >= least) && found.len() <= most;
        match found.last_mut() {
            Some(last) if !broken => last.1 = pair[1].1,
            _ => found.push(pair[1]),
        }
    }
    let all: f64 = found.iter().map(|(from, to)| (to - from) as f64).sum();
    let margin = ((all / found.len() as f64 / 20.0) as u64).max(1);
    found.iter().map(|(from, to)| (from.saturating_sub(margin), to.saturating_add(margin))).collect()
}

impl Scale {
    pub fn of(variants: &[Variant], left: f64, right: f64) -> Self {
        let stretches = stretches(variants, right - left);
        let least = |to: u64| width(&grouped(to), FAINT) + 14.0;
        let rest = right - left - BREAK * (stretches.len() - 1) as f64 - stretches.iter().map(|(_, to)| least(*to)).sum::<f64>();
        let all: f64 = stretches.iter().map(|(from, to)| (to - from) as f64).sum();
        let mut place = left;
        let segments = stretches.iter().map(|&(from, to)| {
            let wide = least(to) + rest.max(0.0) * (to - from) as f64 / all;
            let segment = Segment { from, to, left: place, right: place + wide };
            place += wide + BREAK;
            segment
        });
        Self { segments: segments.collect() }
    }

    pub fn across(&self, position: u64) -> f64 {
        let segment = self.segments.iter().find(|segment| position <= segment.to).unwrap_or(&self.segments[self.segments.len() - 1]);
        let part = position.clamp(segment.from, segment.to) - segment.from;
        segment.left + part as f64 * (segment.right - segment.left) / (segment.to - segment.from) as f64
    }

    /// Ticks at round numbers, and labels that stand apart and inside their own stretch.
    pub fn ticks(&self) -> Vec<Tick> {
        self.segments.iter().flat_map(|segment| self.ticks_of(segment)).collect()
    }

    fn ticks_of(&self, segment: &Segment) -> Vec<Tick> {
        let each = width(&grouped(segment.to), FAINT) + 22.0;
        let most = ((segment.right - segment.left) / each).max(1.0) as u128;
        let step = step((segment.to - segment.from).into(), most);
        let mut ticks: Vec<Tick> = Vec::new();
        let mut free = segment.left;
        let mut position = u128::from(segment.from).div_ceil(step) * step;
        while position <= segment.to.into() {
            let (x, words) = (self.across(position as u64), grouped(position as u64));
            let half = width(&words, FAINT) / 2.0;
            let label_x = x.clamp(segment.left + half, (segment.right - half).max(segment.left + half));
            if label_x - half >= free {
                free = label_x + half + 8.0;
                ticks.push(Tick { x, label_x, words });
            }
            position += step;
        }
        ticks
    }
}

/// The least of 1, 2, 5, 10, 20, 50 and so on that needs no more ticks than that.
fn step(span: u128, most: u128) -> u128 {
    let mut step = 1;
    let mut factors = [2, 0, 2].iter().cycle();
    while span / step > most {
        // 2 to 5 is two and a half
        step = match factors.next() {
            Some(0) => step * 5 / 2,
            _ => step * 2,
        };
    }
    step
}

#[cfg(test)]
mod tests {
    use super::*;

    #[test]
    fn steps_are_round() {
        let steps: Vec<u128> = [5, 10, 20, 50, 100, 200].iter().map(|span| step(*span, 5)).collect();
        assert_eq!(steps, [1, 2, 5, 10, 20, 50]);
    }

    #[test]
    fn thousands() {
        assert_eq!(["0", "999", "1,000", "1,234,567"], [0, 999, 1000, 1_234_567].map(grouped).map(String::into_boxed_str).each_ref().map(|text| &**text));
    }
}
