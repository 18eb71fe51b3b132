//! Whose reads these were (document 02, P12): a haplotype's data as 28 words, what making and combining it come to by the document, and by the Rust.
use crate::random::Random;
use crate::rules::Rules;
use unchanged::kplib::HaplotypeMeta;

/// id, samples, flags, 8 coverages, 8 phase sets, 8 tags (0 absent, else the value + 1), and a 0
pub type Words = [u64; 28];

const PLACES: usize = 8;
const COVERAGE: usize = 3;
const PS: usize = COVERAGE + PLACES;
const HP: usize = PS + PLACES;

/// A call that makes data or combines it.
#[derive(Clone, Debug)]
pub enum Asked {
    New(u64, u64),
    Blank(u64),
    Combine(Words, Words),
}

/// What a call returns, and what the words hold after it: those that are made, or the left's.
pub type Said = (u32, Words);

fn blank(samples: u64) -> Words {
    let mut words = [0; 28];
    words[1] = samples;
    words
}

impl Asked {
    fn is_refused_by(&self, rules: &Rules, number: u32) -> bool {
        match (number, self) {
            (50, Asked::New(_, samples) | Asked::Blank(samples)) => rules.samples_are_refused(*samples),
            (50, Asked::Combine(left, right)) => rules.samples_are_refused(left[1]) || rules.samples_are_refused(right[1]),
            (51, Asked::New(index, samples)) => rules.index_is_refused(*index, *samples),
            (52, Asked::Combine(left, right)) => rules.counts_disagree(left[1], right[1]),
            (53, Asked::Combine(left, right)) => {
                let samples = PLACES.min(left[1] as usize);
                (COVERAGE..COVERAGE + samples).any(|at| rules.sum_passes(left[at], right[at]))
            }
            _ => false,
        }
    }

    /// By the document.
    pub fn said(&self, rules: &Rules) -> Said {
        let refusal = rules.meta_refusals().iter().copied().find(|&number| self.is_refused_by(rules, number)).unwrap_or(0);
        let refused = refusal != 0;
        let words = match self {
            Asked::New(_, samples) | Asked::Blank(samples) if refused => blank(rules.blank_on_refusal(*samples)),
            Asked::New(index, samples) => {
                let mut one = blank(*samples);
                one[2] = rules.flag_of(*index);
                one[COVERAGE + PLACES.min(*index as usize + 1) - 1] = 1;
                one
            }
            Asked::Blank(samples) => blank(*samples),
            Asked::Combine(left, right) => rules.left_after(*left, combined(rules, left, right), refused),
        };
        (refusal, words)
    }

    /// By the Rust: where it would not stop, and its own types hold what is asked.
    pub fn by_the_rust(&self) -> Option<Words> {
        match self {
            Asked::New(index, samples) if (1..=8).contains(samples) && index < samples => {
                Some(words_of(&HaplotypeMeta::new(*index as usize, *samples as usize), &blank(*samples)))
            }
            Asked::Blank(samples) if (1..=8).contains(samples) => Some(words_of(&HaplotypeMeta::new_blank(*samples as usize), &blank(*samples))),
            Asked::Combine(left, right) if left[1] == right[1] => {
                let (mut own, other) = (rusts(left)?, rusts(right)?);
                let fits = own.coverage.iter().zip(&other.coverage).all(|(x, y)| x.checked_add(*y).is_some());
                fits.then(|| {
                    own.combine(&other);
                    words_of(&own, left)
                })
            }
            _ => None,
        }
    }
}

fn combined(rules: &Rules, left: &Words, right: &Words) -> Words {
    let mut both = *left;
    both[0] = rules.id_of_both(left[0], right[0]);
    both[2] = rules.flags_of_both(left[2], right[2]);
    for i in 0..PLACES.min(left[1].min(right[1]) as usize) {
        both[COVERAGE + i] = rules.coverage_of_both(left[COVERAGE + i], right[COVERAGE + i]);
        both[PS + i] = rules.tag_of_both(left[PS + i], right[PS + i]);
        both[HP + i] = rules.tag_of_both(left[HP + i], right[HP + i]);
    }
    both[27] = 0;
    both
}

/// The Rust's own data of these words: nothing where the count is not 1 to 8 or a tag is none of its type's.
fn rusts(words: &Words) -> Option<HaplotypeMeta> {
    let samples = words[1] as usize;
    let eight = |from: usize| words[from..from + samples].iter().map(|word| word.checked_sub(1));
    (1..=PLACES as u64).contains(&words[1]).then_some(())?;
    Some(HaplotypeMeta {
        id: words[0] as usize,
        coverage: words[COVERAGE..COVERAGE + samples].to_vec(),
        ps: eight(PS).map(|tag| tag.map(u32::try_from).transpose()).collect::<Result<_, _>>().ok()?,
        hp: eight(HP).map(|tag| tag.map(u8::try_from).transpose()).collect::<Result<_, _>>().ok()?,
        samples_flag: words[2] as usize,
        rnames: vec![],
    })
}

/// Its words; what lies behind the samples is as it was.
fn words_of(meta: &HaplotypeMeta, before: &Words) -> Words {
    let mut words = *before;
    (words[0], words[1], words[2], words[27]) = (meta.id as u64, meta.coverage.len() as u64, meta.samples_flag as u64, 0);
    for (i, &coverage) in meta.coverage.iter().enumerate() {
        words[COVERAGE + i] = coverage;
        words[PS + i] = meta.ps[i].map_or(0, |ps| u64::from(ps) + 1);
        words[HP + i] = meta.hp[i].map_or(0, |hp| u64::from(hp) + 1);
    }
    words
}

/// Mostly what the rules accept, at and beside every limit.
pub fn asked(r: &mut Random) -> Asked {
    let samples = if r.chance(15) { r.pick(&[0, 9, 10, 1 << 32, u64::MAX]) } else { 1 + r.below(8) };
    match r.below(6) {
        0 => Asked::Blank(samples),
        1 => Asked::New(if r.chance(20) { r.pick(&[samples, samples.wrapping_add(1), 8, u64::MAX]) } else { r.below(8) }, samples),
        _ => {
            let other = if r.chance(15) { r.pick(&[0, 1, 8, 9, samples.wrapping_add(1)]) } else { samples };
            Asked::Combine(drawn(r, samples), drawn(r, other))
        }
    }
}

fn drawn(r: &mut Random, samples: u64) -> Words {
    let mut words = [0; 28];
    let large = r.chance(25);
    // now and then what no type of the Rust's holds
    let (ps, hp) = if r.chance(5) { (u64::MAX, u64::MAX) } else { (1 << 32, 256) };
    (words[0], words[1], words[2], words[27]) = (r.next() >> r.below(64), samples, r.next() >> r.below(64), r.below(2));
    for i in 0..PLACES {
        words[COVERAGE + i] = if large && r.chance(30) { u64::MAX - r.below(3) } else { r.below(4) };
        let (some_ps, some_hp) = (r.below(1000) + 1, r.below(255) + 1);
        words[PS + i] = if r.chance(50) { 0 } else { r.pick(&[1, 2, ps, some_ps]) };
        words[HP + i] = if r.chance(50) { 0 } else { r.pick(&[1, 2, hp, some_hp]) };
    }
    words
}
