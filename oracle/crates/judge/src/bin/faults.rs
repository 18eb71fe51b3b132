//! Plants one mistake at a time in the second reading and shows that the generated jobs find it: `faults [INPUTS]`. For each it
//! prints how many inputs it took and the smallest found that shows it: an input of the program, or a call of the library where no
//! input can show it. A rule that no mistake misreads is a failure too.
use judge::answer::Answer;
use judge::call::{counted, Call};
use judge::document::{call_answer, checked, features, program_text, record_buffer, several_answers};
use judge::generate::{self, edition_two_input, input, move_asked, several_call, several_input, small_call, PROGRAM};
use judge::met::Met;
use judge::mistakes::{Mistake, MISTAKES};
use judge::proposal::{Checked, Proposal};
use judge::random::Random;
use judge::rules::{Rules, DOCUMENT};
use judge::several::{self, Several};
use judge::{describe, exhaust, meta, moving, program, proposal, rust, shrink};
use std::process::ExitCode;

/// What anyone outside sees of a call: the answer, and what the second buffer holds after it.
type Seen = (Answer, Vec<u32>);

fn seen(rules: &Rules, call: &Call) -> Seen {
    let answer = call_answer(rules, call, &mut Met::default());
    let second = record_buffer(rules, call, &answer);
    (answer, second)
}

/// The judge's.
fn must_be(call: &Call) -> Seen {
    let answer = rust::judged(call).answer;
    let second = record_buffer(&DOCUMENT, call, &answer);
    (answer, second)
}

/// What is seen of a call for several haplotypes: the answer of which a mistake is made, and the buffers.
fn seen_of_several(rules: &Rules, several: &Several) -> several::Seen {
    several.seen(rules, &several_answers(rules, several, &mut Met::default()))
}

fn several_must_be(several: &Several) -> several::Seen {
    let answers: Vec<Answer> = rust::judged_several(several).into_iter().map(|judged| judged.answer).collect();
    several.seen(&DOCUMENT, &answers)
}

/// The first short sequence that a mistaken counter counts otherwise than the Rust, or with letters 1 than the second program.
fn counted_otherwise(rules: &Rules) -> Option<String> {
    const BYTES: &[u8; 8] = b"ACGTNan-";
    let sequences = (1..=3u32).flat_map(|n| (0..8u32.pow(n)).map(move |code| (n, code)));
    for (n, code) in sequences {
        let text: Vec<u8> = (0..n).map(|i| BYTES[(code / 8u32.pow(i) % 8) as usize]).collect();
        for (k, letters) in [(1, 0), (2, 0), (1, 1), (2, 1)] {
            let must = counted(letters, k, &text, false);
            let would = features(rules, letters, k, &text, false);
            if would != must {
                return Some(format!("counting {} at k {k} with letters {letters} must be {must:?}, would be {would:?}", text.escape_ascii()));
            }
        }
    }
    None
}

/// That, or the first sizes and a haplotype's data likewise.
fn smaller_calls(rules: &Rules) -> Option<String> {
    let shown = counted_otherwise(rules);
    if shown.is_some() {
        return shown;
    }
    for a in 0..6 {
        for b in 0..6 {
            let rust = unchanged::kplib::metrics::sizesim(a, b);
            let would = rules.sizesim(a, b);
            if would != rust {
                return Some(format!("sizesim of {a} and {b} must be {rust:?}, would be {would:?}"));
            }
        }
    }
    calls_of_data(rules)
}

/// The first drawn call of a haplotype's data that goes otherwise than the Rust goes, or where that cannot be asked, the document.
fn calls_of_data(rules: &Rules) -> Option<String> {
    (0..10_000).find_map(|seed| {
        let asked = meta::asked(&mut Random::new(seed));
        let (must, would) = (asked.by_the_rust().map_or_else(|| asked.said(&DOCUMENT), |words| (0, words)), asked.said(rules));
        (must != would).then(|| format!("{asked:?} must be {must:?}, would be {would:?}"))
    })
}

/// What is put to each mistake, behind what the judge says of it.
struct Asked {
    inputs: Vec<(String, Vec<u8>)>,
    calls: Vec<(Seen, Call)>,
    several: Vec<(several::Seen, Several)>,
    proposals: Vec<(Checked, Call, Proposal)>,
    moves: Vec<(moving::Seen, moving::Asked)>,
}

/// A call and a path proposed for it, behind the judge's answer.
fn proposed(seed: u64) -> (Checked, Call, Proposal) {
    let mut r = Random::new(seed);
    let call = generate::proposed_call(&mut r, false);
    let one = generate::proposal(&mut r, &call, &rust::judged(&call).answer);
    (proposal::judged(&call, &one), call, one)
}

impl Asked {
    fn new(count: u64) -> Asked {
        let mut inputs: Vec<Vec<u8>> = exhaust::jobs().step_by(97).map(|job| job.bytes()).collect();
        inputs.extend((0..count).map(|i| input(&mut Random::new(i))));
        inputs.extend((0..count / 5).map(|i| several_input(&mut Random::new(i))));
        inputs.extend((0..count / 2).map(|i| edition_two_input(&mut Random::new(i))));
        let calls = (0..count / 2).map(|i| small_call(&mut Random::new(i)));
        let several = (0..count / 5).map(|i| several_call(&mut Random::new(i), PROGRAM, 20_000));
        Asked {
            inputs: inputs.into_iter().map(|bytes| (program::text(&bytes), bytes)).collect(),
            calls: calls.map(|call| (must_be(&call), call)).collect(),
            several: several.map(|several| (several_must_be(&several), several)).collect(),
            proposals: (0..count / 2).map(proposed).collect(),
            moves: (0..count / 2).map(|i| move_asked(&mut Random::new(i))).map(|asked| (moving::judged(&asked), asked)).collect(),
        }
    }

    /// The places of the inputs that show other rules.
    fn by_inputs(&self, rules: &Rules) -> Vec<usize> {
        let differs = |&at: &usize| program_text(rules, &self.inputs[at].1) != self.inputs[at].0;
        (0..self.inputs.len()).filter(differs).collect()
    }

    /// Those of the calls.
    fn by_calls(&self, rules: &Rules) -> Vec<usize> {
        let differs = |&at: &usize| seen(rules, &self.calls[at].1) != self.calls[at].0;
        (0..self.calls.len()).filter(differs).collect()
    }

    /// Those of the calls for several haplotypes.
    fn by_several(&self, rules: &Rules) -> Vec<usize> {
        let differs = |&at: &usize| seen_of_several(rules, &self.several[at].1) != self.several[at].0;
        (0..self.several.len()).filter(differs).collect()
    }
}

impl Asked {
    /// Those of the paths proposed.
    fn by_proposals(&self, rules: &Rules) -> Vec<usize> {
        let differs = |&at: &usize| {
            let (must, call, one) = &self.proposals[at];
            checked(rules, call, one) != *must
        };
        (0..self.proposals.len()).filter(differs).collect()
    }
}

impl Asked {
    /// Those of the moves.
    fn by_moves(&self, rules: &Rules) -> Vec<usize> {
        let differs = |&at: &usize| moving::moved(rules, &self.moves[at].1) != self.moves[at].0;
        (0..self.moves.len()).filter(differs).collect()
    }
}

/// A text in one line.
fn lines(text: &str) -> String {
    text.trim_end().replace('\n', ", ")
}

fn tell_input(rules: &Rules, asked: &Asked, found: &[usize]) {
    let shows = |bytes: &[u8]| program_text(rules, bytes) != program::text(bytes);
    let shrunk = found.iter().take(5).map(|&at| shrink::bytes(asked.inputs[at].1.clone(), shows));
    let small = shrunk.min_by_key(|bytes| bytes.len()).expect("some input shows it");
    println!("    {}", describe::bytes(&small));
    println!("    must be  {}", lines(&program::text(&small)));
    println!("    would be {}", lines(&program_text(rules, &small)));
}

fn tell_call(rules: &Rules, asked: &Asked, found: &[usize]) {
    let shows = |call: &Call| seen(rules, call) != must_be(call);
    let shrunk = found.iter().take(5).map(|&at| shrink::call(asked.calls[at].1.clone(), shows));
    let small = shrunk.min_by_key(|call| describe::call(call).len()).expect("some call shows it");
    let words = |(answer, second): Seen| format!("{}, second buffer {second:?}", lines(&answer.text()));
    println!("    {}", describe::call(&small));
    println!("    must be  {}", words(must_be(&small)));
    println!("    would be {}", words(seen(rules, &small)));
}

fn tell_several(rules: &Rules, asked: &Asked, found: &[usize]) {
    let shows = |several: &Several| seen_of_several(rules, several) != several_must_be(several);
    let shrunk = found.iter().take(5).map(|&at| shrink::several(asked.several[at].1.clone(), shows));
    let small = shrunk.min_by_key(|several| describe::several(several).len()).expect("some call shows it");
    println!("    {}", describe::several(&small));
    println!("    must be  {:?}", several_must_be(&small));
    println!("    would be {:?}", seen_of_several(rules, &small));
}

fn tell_proposal(rules: &Rules, asked: &Asked, found: &[usize]) {
    let length = |at: &&usize| describe::call(&asked.proposals[**at].1).len();
    let (must, call, one) = &asked.proposals[*found.iter().min_by_key(length).expect("some proposal shows it")];
    println!("    {} for {}", describe::proposal(one), describe::call(call));
    println!("    must be  {must:?}");
    println!("    would be {:?}", checked(rules, call, one));
}

fn tell_move(rules: &Rules, asked: &Asked, found: &[usize]) {
    let words = |seen: moving::Seen| {
        let front: String = seen.lent.iter().take(60).map(|byte| format!("{byte:02x}")).collect();
        format!("refused {}, {} bytes written, what is lent then {front}..", seen.refusal, seen.written)
    };
    let (must, one) = &asked.moves[*found.iter().min_by_key(|&&at| asked.moves[at].1.bytes.len()).expect("some move shows it")];
    println!("    {}", describe::asked_of_mover(one));
    println!("    must be  {}", words(must.clone()));
    println!("    would be {}", words(moving::moved(rules, one)));
}

/// Whether it is caught, and by what.
fn is_caught(words: &str, rules: &Rules, asked: &Asked) -> bool {
    let found = asked.by_inputs(rules);
    if let Some(first) = found.first() {
        println!("caught {words}: first at input {}, {} of {}", first + 1, found.len(), asked.inputs.len());
        tell_input(rules, asked, &found);
        return true;
    }
    let found = asked.by_calls(rules);
    if let Some(first) = found.first() {
        println!("caught {words}: first at library call {}, {} of {}", first + 1, found.len(), asked.calls.len());
        tell_call(rules, asked, &found);
        return true;
    }
    let found = asked.by_several(rules);
    if let Some(first) = found.first() {
        println!("caught {words}: first at library call for several {}, {} of {}", first + 1, found.len(), asked.several.len());
        tell_several(rules, asked, &found);
        return true;
    }
    let found = asked.by_proposals(rules);
    if let Some(first) = found.first() {
        println!("caught {words}: first at proposed path {}, {} of {}", first + 1, found.len(), asked.proposals.len());
        tell_proposal(rules, asked, &found);
        return true;
    }
    let found = asked.by_moves(rules);
    if let Some(first) = found.first() {
        println!("caught {words}: first at move {}, {} of {}", first + 1, found.len(), asked.moves.len());
        tell_move(rules, asked, &found);
        return true;
    }
    let shown = smaller_calls(rules);
    match &shown {
        Some(shown) => println!("caught {words}: by a smaller call; no answer can show it\n    {shown}"),
        None => println!("MISSED {words}"),
    }
    shown.is_some()
}

fn main() -> ExitCode {
    let count: u64 = std::env::args().nth(1).map_or(20_000, |n| n.parse().expect("a number of inputs"));
    let asked = Asked::new(count);
    let input = asked.by_inputs(&DOCUMENT).first().map(|&at| describe::bytes(&asked.inputs[at].1));
    let call = asked.by_calls(&DOCUMENT).first().map(|&at| describe::call(&asked.calls[at].1));
    let several = asked.by_several(&DOCUMENT).first().map(|&at| describe::several(&asked.several[at].1));
    let path = asked.by_proposals(&DOCUMENT).first().map(|&at| describe::proposal(&asked.proposals[at].2));
    let moved = asked.by_moves(&DOCUMENT).first().map(|&at| describe::asked_of_mover(&asked.moves[at].1));
    if let Some(words) = input.or(call).or(several).or(path).or(moved).or(smaller_calls(&DOCUMENT)) {
        println!("with nothing planted: {words}");
        return ExitCode::FAILURE;
    }
    println!(
        "nothing planted: {} inputs, {} library calls, {} for several haplotypes, {} proposed paths and {} moves, no difference",
        asked.inputs.len(),
        asked.calls.len(),
        asked.several.len(),
        asked.proposals.len(),
        asked.moves.len()
    );
    let unplanted: Vec<&str> = Rules::NAMES.iter().copied().filter(|&rule| MISTAKES.iter().all(|mistake| mistake.rule != rule)).collect();
    if !unplanted.is_empty() {
        println!("no mistake misreads {}", unplanted.join(", "));
        return ExitCode::FAILURE;
    }
    let missed = MISTAKES.iter().filter(|Mistake { words, rules, .. }| !is_caught(words, rules, &asked)).count();
    println!("{} of {} planted mistakes caught", MISTAKES.len() - missed, MISTAKES.len());
    ExitCode::from((missed > 0) as u8)
}
