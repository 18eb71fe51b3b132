//! What was asked and what came of it, counted.
use crate::damage::{LENGTH, WAYS};
use crate::message::Placing;
use crate::records::{kind_of, pieces, place_of, KINDS, PLACES};
use judge::answer::Answer;
use judge::kinds::{self, Counts};

#[derive(Default)]
pub struct Tally {
    pub asked: u64,
    pub bytes: u64,
    pub differences: u64,
    pub shown: Vec<String>,
    /// by the number that answers the whole job, 0 where it is accepted
    refused: [u64; 32],
    /// of haplotypes among several
    own_refused: [u64; 32],
    places: [[u64; 4]; 9],
    pub ways: [u64; WAYS.len() + 1],
    pub placings: [u64; 4],
    pub sanitized: u64,
    pub valgrind: u64,
    pub guided: u64,
    pub counts: Counts,
}

fn add<const N: usize>(into: &mut [u64; N], from: &[u64; N]) {
    into.iter_mut().zip(from).for_each(|(sum, count)| *sum += count);
}

/// The refusals that no whole job can have, and why.
pub const NEVER: [(u32, &str); 9] = [
    (5, "26 comes first: the program has 16 variants and 8 parts"),
    (6, "the desk lends what it counted itself"),
    (10, "a row of letters that fit in 32,768 bytes is under the limit"),
    (11, "the desk's queue has the room"),
    (12, "the desk's answer buffer has the room"),
    (15, "no refusal has this number"),
    (28, "a mover's"),
    (29, "a mover's"),
    (30, "told as 26, which comes first"),
];

impl Tally {
    pub fn differ(&mut self, words: impl FnOnce() -> String) {
        self.differences += 1;
        let words = words();
        if !words.is_empty() {
            self.shown.push(words);
        }
    }

    pub fn merge(&mut self, other: Tally) {
        self.asked += other.asked;
        self.bytes += other.bytes;
        self.differences += other.differences;
        self.shown.extend(other.shown);
        add(&mut self.refused, &other.refused);
        add(&mut self.own_refused, &other.own_refused);
        self.places.iter_mut().zip(&other.places).for_each(|(into, from)| add(into, from));
        add(&mut self.ways, &other.ways);
        add(&mut self.placings, &other.placings);
        self.sanitized += other.sanitized;
        self.valgrind += other.valgrind;
        self.guided += other.guided;
        kinds::merge(&mut self.counts, other.counts);
    }

    /// A job's bytes with their answers.
    pub fn job(&mut self, bytes: &[u8], answers: &[Answer]) {
        self.asked += 1;
        self.bytes += bytes.len() as u64;
        if let [only] = answers {
            self.refused[only.refusal as usize] += 1;
        } else {
            self.refused[0] += 1;
            answers.iter().for_each(|answer| self.own_refused[answer.refusal as usize] += 1);
        }
        let found = pieces(bytes);
        for (at, range) in found.iter().enumerate() {
            self.places[kind_of(bytes[range.start])][place_of(at, found.len())] += 1;
        }
        let accepted = answers.len() > 1 || answers[0].refusal == 0;
        self.mode(bytes, accepted, found.iter().filter(|range| matches!(bytes[range.start], 0x02 | 0x12)).count());
    }

    /// The edition, and of an accepted job its mode.
    fn mode(&mut self, bytes: &[u8], accepted: bool, variants: usize) {
        let edition = match bytes.first() {
            Some(0x01) => "edition 1",
            Some(0x11) => "edition 2",
            _ => "no settings first",
        };
        let mut count = |words: &str| match self.counts.get_mut(words) {
            Some(count) => *count += 1,
            None => kinds::add(&mut self.counts, words),
        };
        count(edition);
        if !accepted {
            return;
        }
        let (squish, one_to_one, full) = (bytes[2] == 1, bytes[3] == 1, bytes[4] == 1);
        let maxnodes = u32::from_le_bytes(bytes[9..13].try_into().expect("accepted"));
        let alone = one_to_one || variants as u64 > u64::from(maxnodes);
        count(if alone { "accepted, one-to-one" } else { "accepted, search" });
        count(if full { "accepted, full graph" } else { "accepted, bare graph" });
        if squish {
            count("accepted, squish");
        }
        if bytes[0] == 0x11 && bytes[41] == 1 {
            count("accepted, letters 1");
        }
    }

    pub fn print_damaged(&self) {
        println!("  refused by          jobs   haplotypes of several");
        for number in 0..=30usize {
            let (whole, own) = (self.refused[number], self.own_refused[number]);
            let never = NEVER.iter().find(|(one, _)| *one as usize == number);
            let name = if number == 0 { "accepted".to_string() } else { number.to_string() };
            if (17..=19).contains(&number) {
                continue;
            }
            println!("  {name:>10} {whole:>13} {own:>13}{}", never.map_or(String::new(), |(_, why)| format!("  cannot come in a job: {why}")));
        }
        println!("  {:<22}{}", "record, by its place", PLACES.map(|place| format!("{place:>12}")).concat());
        for (kind, counts) in KINDS.iter().zip(&self.places) {
            println!("  {kind:<22}{}", counts.map(|count| format!("{count:>12}")).concat());
        }
        for (name, count) in WAYS.iter().map(|(name, _)| *name).chain([LENGTH]).zip(&self.ways) {
            println!("  {count:>12}  damage: {name}");
        }
    }

    pub fn print(&self, name: &str, seconds: f64) {
        println!("{name}: {} asked, {} bytes of jobs, {seconds:.0} s, {:.0} a second, {} differences", self.asked, self.bytes, self.asked as f64 / seconds, self.differences);
        for ((_, words), count) in Placing::ALL.iter().zip(&self.placings) {
            println!("  {count:>12}  lent: {words}");
        }
        println!("  {:>12}  put to the sanitized harness too", self.sanitized);
        println!("  {:>12}  put to valgrind too", self.valgrind);
        for (kind, count) in &self.counts {
            println!("  {count:>12}  {kind}");
        }
        for words in &self.shown {
            println!("DIFFERENCE {words}");
        }
    }
}
