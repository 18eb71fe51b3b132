//! Several haplotypes over one table: each is answered as by itself.
use ndigomarr::{apply_haplotype, apply_haplotypes, Answer, Haplotype, Refusal, Settings, Table};

fn settings() -> Settings {
    Settings { k: 1, minkfreq: 1, maxpaths: 10, ..Settings::default() }
}

/// Rows 0 AG, 1 CT and 2 GC, which follow each other, with records 50, 60 and 40.
fn table() -> Table {
    let mut table = Table::new(1);
    for (at, letters) in [b"AG", b"CT", b"GC"].into_iter().enumerate() {
        table.add(at as u64, at as u64, 2, letters, false).expect("few letters");
    }
    table.with_record_numbers(&[50, 60, 40])
}

fn haplotype(parts: &[&[u8]]) -> Haplotype {
    let mut haplotype = Haplotype::new(1);
    for letters in parts {
        haplotype.add(letters.len() as i32, letters, false).expect("few letters");
    }
    haplotype
}

/// A haplotype whose one part is over the limit of a size: a 9.
fn too_large() -> Haplotype {
    let mut haplotype = Haplotype::new(1);
    haplotype.add(131_073, b"AG", false).expect("few letters");
    haplotype
}

fn number<T: std::fmt::Debug>(result: Result<T, Refusal>) -> u32 {
    result.expect_err("refused").number()
}

/// What `apply_haplotype` gives for each.
fn alone(haplotypes: &[Haplotype]) -> Vec<Result<Answer, Refusal>> {
    haplotypes.iter().map(|one| apply_haplotype(&settings(), &table(), one)).collect()
}

#[test]
fn each_is_answered_as_by_itself() {
    let haplotypes = [haplotype(&[b"AG", b"GC"]), haplotype(&[]), haplotype(&[b"CT"]), haplotype(&[b"TT"])];
    let answers = apply_haplotypes(&settings(), &table(), &haplotypes).expect("accepted");
    assert_eq!(answers, alone(&haplotypes));
    let records: Vec<_> = answers.iter().map(|one| one.as_ref().expect("accepted").records.clone()).collect();
    assert_eq!(records, [vec![50, 40], vec![], vec![60], vec![]]);
}

#[test]
fn a_refusal_of_its_parts_answers_that_one_only() {
    let haplotypes = [haplotype(&[b"AG"]), too_large(), haplotype(&[&b"CT"[..]; 65]), haplotype(&[b"GC"])];
    let answers = apply_haplotypes(&settings(), &table(), &haplotypes).expect("accepted");
    assert_eq!(answers, alone(&haplotypes));
    assert_eq!(answers.into_iter().map(|one| one.map_or_else(|refusal| refusal.number(), |_| 0)).collect::<Vec<_>>(), [0, 9, 5, 0]);
}

#[test]
fn a_refusal_of_settings_or_table_answers_none() {
    let haplotypes = [haplotype(&[b"AG"]), too_large()];
    let wrong = Settings { k: 7, ..settings() };
    assert_eq!(number(apply_haplotypes(&wrong, &table(), &haplotypes)), 1);
    let repeated = table().with_record_numbers(&[50, 60, 50]);
    assert_eq!(number(apply_haplotypes(&settings(), &repeated, &haplotypes)), 14);
    let mut empty = table();
    empty.add(9, 9, 2, b"", false).expect("no letters");
    assert_eq!(number(apply_haplotypes(&settings(), &empty, &haplotypes)), 16);
    // with one haplotype its parts are asked before
    assert_eq!(number(apply_haplotypes(&settings(), &empty, &[too_large()])), 9);
}

#[test]
fn a_part_without_letters_is_taken() {
    let haplotypes = [haplotype(&[b"AG", b""]), haplotype(&[b""])];
    let answers = apply_haplotypes(&settings(), &table(), &haplotypes).expect("accepted");
    assert_eq!(answers, alone(&haplotypes));
    assert!(answers.iter().all(Result::is_ok));
}

#[test]
fn one_to_sixteen() {
    let all = vec![haplotype(&[b"AG"]); 17];
    assert_eq!(number(apply_haplotypes(&settings(), &table(), &[])), 27);
    assert_eq!(apply_haplotypes(&settings(), &table(), &all[..16]).expect("accepted"), alone(&all[..16]));
    assert_eq!(number(apply_haplotypes(&settings(), &table(), &all)), 27);
    // after 4, before 5
    assert_eq!(number(apply_haplotypes(&settings(), &Table::new(1), &all)), 4);
}

#[test]
fn with_one_every_refusal_is_the_whole_calls() {
    assert_eq!(number(apply_haplotypes(&settings(), &table(), &[too_large()])), 9);
    let one = [haplotype(&[b"AG", b"GC"])];
    assert_eq!(apply_haplotypes(&settings(), &table(), &one).expect("accepted"), alone(&one));
}
