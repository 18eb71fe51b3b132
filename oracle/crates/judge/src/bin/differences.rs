//! Where the unchanged Rust says something else than the documents, by class, each with the smallest input found:
//! `differences [INPUTS]`.
use judge::answer::Answer;
use judge::call::Call;
use judge::generate::input;
use judge::random::Random;
use judge::rules::DOCUMENT;
use judge::rust::{unchanged_build, By, Judged};
use judge::{describe, exhaust, program, shrink};

fn lines(answer: &Answer) -> String {
    answer.text().trim_end().replace('\n', ", ")
}

/// What the unchanged Rust finds where we refuse a row all zero (document 02, P11); nothing, if it finds nothing.
fn found_in_blank_rows(bytes: &[u8]) -> Option<Answer> {
    let job = program::admitted(&DOCUMENT, bytes).ok()?;
    let call = Call::of_job(&job);
    let found = (call.refusal(&DOCUMENT) == 16).then(|| unchanged_build::answer(&call))?;
    (!found.rows.is_empty()).then_some(found)
}

/// How many inputs the Rust answers that we refuse by 16, and the smallest.
fn tell_blank_rows(inputs: &[Vec<u8>]) {
    let shows = |bytes: &[u8]| found_in_blank_rows(bytes).is_some();
    let found: Vec<&Vec<u8>> = inputs.iter().filter(|bytes| shows(bytes)).collect();
    println!("a variant's row all zero: {} of {} inputs", found.len(), inputs.len());
    let small = found.into_iter().take(40).map(|bytes| shrink::bytes(bytes.clone(), shows)).min_by_key(Vec::len);
    if let Some(small) = small {
        println!("    {}", describe::bytes(&small));
        println!("    the documents  {}", lines(&Answer::refused(16)));
        println!("    unchanged Rust {}", lines(&found_in_blank_rows(&small).expect("it still shows")));
    }
}

fn main() {
    let count: u64 = std::env::args().nth(1).map_or(20_000, |n| n.parse().expect("a number of inputs"));
    let mut inputs: Vec<Vec<u8>> = exhaust::jobs().step_by(7).map(|job| job.bytes()).collect();
    inputs.extend((0..count).map(|i| input(&mut Random::new(i))));
    let classes: [(&str, fn(&Judged) -> bool); 4] = [
        ("queued distances tie", |j| j.distance_tie && j.by != By::Squish && !j.overlap),
        ("squish and the empty chain", |j| j.by == By::Squish && !j.distance_tie && !j.overlap),
        ("an insertion inside another, or rows that are no neighbours", |j| j.overlap && !j.distance_tie && j.by != By::Squish),
        ("anything else", |j| !j.distance_tie && j.by != By::Squish && !j.overlap),
    ];
    for (words, of_class) in classes {
        let one_of_class = |bytes: &[u8]| program::judged(bytes).into_iter().find(|judged| judged.unchanged_differs.is_some() && of_class(judged));
        let shows = |bytes: &[u8]| one_of_class(bytes).is_some();
        let found: Vec<&Vec<u8>> = inputs.iter().filter(|bytes| shows(bytes)).collect();
        println!("{words}: {} of {} inputs", found.len(), inputs.len());
        let small = found.into_iter().take(40).map(|bytes| shrink::bytes(bytes.clone(), shows)).min_by_key(Vec::len);
        if let Some(small) = small {
            let judged = one_of_class(&small).expect("it still shows");
            println!("    {}", describe::bytes(&small));
            println!("    the documents  {}", lines(&judged.answer));
            println!("    unchanged Rust {}", lines(&judged.unchanged_differs.unwrap()));
        }
    }
    tell_blank_rows(&inputs);
}
