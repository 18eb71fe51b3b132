//! A companions sheet against one laid afresh from the rows, by a rule of overlap of its own, after each of many drawn steps.
use super::Companions;
use crate::Refusal;

/// P5's rule in its own words: two that have a length share a base; a point lies strictly inside.
fn overlap(a: (u64, u64), b: (u64, u64)) -> bool {
    let inside = |p: (u64, u64), q: (u64, u64)| p.0 == p.1 && q.0 < p.0 && p.0 < q.1;
    let shared = a.0 < a.1 && b.0 < b.1 && a.0 < b.1 && b.0 < a.1;
    shared || inside(a, b) || inside(b, a)
}

/// All 4,096 flags, from the rows alone.
fn afresh(rows: &[(u64, u64)]) -> [bool; 4096] {
    let mut flags = [false; 4096];
    for (s, &later) in rows.iter().enumerate() {
        for (r, &row) in rows[..s].iter().enumerate() {
            flags[64 * r + s] = !overlap(row, later);
        }
    }
    flags
}

/// Numbers that look drawn, the same in each run.
struct Drawn(u64);

impl Drawn {
    fn below(&mut self, n: u64) -> u64 {
        self.0 ^= self.0 << 13;
        self.0 ^= self.0 >> 7;
        self.0 ^= self.0 << 17;
        self.0 % n
    }
}

/// One step, and what it came to: mostly a row added, some of them refused; else the last taken away.
fn step(companions: &mut Companions, rows: &mut Vec<(u64, u64)>, drawn: &mut Drawn, steady: u64) -> Result<(), Refusal> {
    if drawn.below(100) >= steady {
        let wanted = rows.pop().map(|_| ()).ok_or(Refusal::MissingRow);
        assert_eq!(companions.remove(), wanted);
        return wanted;
    }
    let last = rows.last().map_or(0, |row| row.0);
    let start = (last + drawn.below(4)).saturating_sub(drawn.below(2));
    let end = (start + drawn.below(6)).saturating_sub(u64::from(drawn.below(8) == 0));
    let faults = [(rows.len() == 64, Refusal::TooMany), (start > end, Refusal::StartAfterEnd), (start < last, Refusal::FallingStart)];
    let wanted = faults.into_iter().find(|fault| fault.0).map_or(Ok(()), |fault| Err(fault.1));
    assert_eq!(companions.add(start, end), wanted);
    if wanted.is_ok() {
        rows.push((start, end));
    }
    wanted
}

/// Both questions, of rows that may be missing.
fn asked(companions: &Companions, rows: usize, flags: &[bool; 4096], a: usize, b: usize) {
    let there = |row: usize| if row < rows { Ok(()) } else { Err(Refusal::MissingRow) };
    let later = flags[64 * (a % 64)..][..64].iter().filter(|&&flag| flag).count() as u32;
    assert_eq!(companions.count(a as u32), there(a).map(|()| later));
    let may = there(a).and(there(b)).map(|()| flags[64 * a.min(b) + a.max(b)]);
    assert_eq!(companions.together(a as u32, b as u32), may);
}

#[test]
fn a_hundred_thousand_drawn_steps() {
    let (mut companions, mut rows, mut drawn) = (Companions::new(), Vec::new(), Drawn(0x9e37_79b9_7f4a_7c15));
    let mut seen = Vec::new();
    for at in 0..100_000 {
        // towards a full table, and back to an empty one
        let steady = if at / 400 % 2 == 0 { 75 } else { 25 };
        let came_to = step(&mut companions, &mut rows, &mut drawn, steady);
        if !seen.contains(&came_to) {
            seen.push(came_to);
        }
        let flags = afresh(&rows);
        assert!(companions.0.flags == flags, "step {at}: {companions:?}");
        assert!(companions.starts().iter().zip(companions.ends()).map(|(&start, &end)| (start, end)).eq(rows.iter().copied()));
        asked(&companions, rows.len(), &flags, drawn.below(70) as usize, drawn.below(70) as usize);
    }
    for refusal in [Refusal::TooMany, Refusal::StartAfterEnd, Refusal::FallingStart, Refusal::MissingRow] {
        assert!(seen.contains(&Err(refusal)), "{refusal:?}");
    }
}
