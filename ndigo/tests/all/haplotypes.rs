//! Sheets that name several haplotypes (document 02, P1): each is answered by itself, under its name.
use crate::common::*;

const TABLE: &str = "variant\tstart\tend\tsize\tletters\nA\t10\t14\t-4\tAGCT\nB\t30\t30\t5\tCCCCC\n\n";

fn sheet(parts: &str) -> String {
    format!("{TABLE}part\thaplotype\tsize\tletters\n{parts}")
}

#[test]
fn each_is_answered_as_by_itself() {
    let both = ask("answer", sheet("P\tx\t5\tCCCCC\nQ\ty\t-4\tAGCT\nR\tx\t-4\tAGCT\n"), &["--tsv"]).text();
    let alone = |parts: &str| ask("answer", format!("{TABLE}part\tsize\tletters\n{parts}"), &["--tsv"]).text().lines().nth(1).unwrap().to_string();
    let rows: Vec<&str> = both.lines().skip(1).collect();
    assert_eq!(rows, [alone("P\t5\tCCCCC\nR\t-4\tAGCT\n") + "x", alone("Q\t-4\tAGCT\n") + "y"]);
}

#[test]
fn a_refusal_of_its_parts_answers_one_alone() {
    let outcome = ask("answer", sheet("P\tx\t131073\tCCCCC\nQ\ty\t-4\tAGCT\n"), &[]);
    assert_eq!(outcome.status, 1);
    let text = outcome.text();
    let (first, second) = text.split_once("\nhaplotype y\n").unwrap();
    assert!(first.contains("\nhaplotype x\nhaplotype \"x\": line 6: refused 9: a size over its limit: \"P\" has size 131073"), "{text}");
    assert!(second.starts_with("path    1 of 2 rows, in this order:\n          A  10 to 14"), "{text}");
    let rows = ask("answer", sheet("P\tx\t131073\tCCCCC\nQ\ty\t-4\tAGCT\n"), &["--tsv"]).text();
    assert_eq!(rows.lines().map(|row| row.split('\t').nth(1).unwrap()).collect::<Vec<_>>(), ["refused", "9", ""]);
}

#[test]
fn over_64_parts_of_one_and_as_many_of_all() {
    let many = |count: usize, name: &str| (0..count).map(|part| format!("{name}{part}\t{name}\t5\tCCCCC\n")).collect::<String>();
    assert_eq!(ask("answer", sheet(&(many(64, "x") + &many(64, "y"))), &["--tsv"]).status, 0);
    let over = ask("answer", sheet(&(many(65, "x") + &many(1, "y"))), &["--tsv"]).text();
    assert_eq!(over.lines().map(|row| row.split('\t').nth(1).unwrap()).collect::<Vec<_>>(), ["refused", "5", ""]);
}

#[test]
fn a_refusal_of_the_table_answers_all_at_once() {
    let crossed = sheet("P\tx\t5\tCCCCC\nQ\ty\t131073\tAGCT\n").replace("10\t14", "10\t9");
    let outcome = ask("answer", &crossed, &[]);
    assert_eq!((outcome.status, outcome.text().matches("refused").count()), (1, 1), "{}", outcome.text());
    assert!(outcome.text().contains("line 2: refused 7"), "{}", outcome.text());
    assert_eq!(ask("answer", &crossed, &["--tsv"]).text().lines().count(), 2);
}

/// A variant without a window is the table's fault: it answers the whole sheet, though a part of the second haplotype is over its size.
#[test]
fn a_variant_without_a_window_answers_all_at_once() {
    let short = sheet("P\tx\t5\tCCCCC\nQ\ty\t131073\tAGCT\n").replace("14\t-4\tAGCT", "14\t-4\tAGC");
    let words = "\"A\" has 3 letters and k is 4: it has no window of 4 letters, so nothing can match it; write all its letters, set k to 3 or less, or leave the row out";
    let outcome = ask("answer", &short, &[]);
    assert_eq!((outcome.status, outcome.text().matches("refused").count()), (1, 1), "{}", outcome.text());
    assert!(outcome.text().ends_with(&format!("{}\n", told("line 2", 16, words))), "{}", outcome.text());
    let rows = ask("answer", &short, &["--tsv"]).text();
    assert_eq!(rows.lines().map(|row| row.split('\t').nth(1).unwrap()).collect::<Vec<_>>(), ["refused", "16"]);
    let checked = ask("check", &short, &[]).text();
    assert!(checked.ends_with("the library gives the first: refused 16\n"), "{checked}");
}

#[test]
fn sixteen_and_seventeen() {
    let parts = |count: usize| (0..count).map(|place| format!("P{place}\th{place}\t5\tCCCCC\n")).collect::<String>();
    assert_eq!(ask("answer", sheet(&parts(16)), &["--tsv"]).text().lines().count(), 17);
    let outcome = ask("check", sheet(&parts(17)), &[]);
    assert_eq!(outcome.status, 1);
    assert!(outcome.text().contains(&told("the whole sheet", 27, "17 haplotypes, the limit is 16")), "{}", outcome.text());
}

#[test]
fn a_row_of_a_name_alone_is_a_haplotype_of_no_parts() {
    let outcome = ask("answer", sheet("\tx\nQ\ty\t-4\tAGCT\n"), &[]);
    assert_eq!(outcome.status, 0);
    let text = outcome.text();
    assert!(text.starts_with("warning haplotype \"x\" has no parts: there is nothing to explain\n\nhaplotype x\npath    none"), "{text}");
    let bytes = job(sheet("\tx\nQ\ty\t-4\tAGCT\n"));
    // straight after the second variant's letters 0x05, then the part
    assert_eq!(bytes[41 + 26 + 17 + 26 + 17..][..2], [5, 3]);
    assert_eq!(job(ask("show", &bytes, &[]).out), bytes);
}

#[test]
fn a_missing_name_is_a_fault() {
    let outcome = ask("answer", sheet("P\tx\t5\tCCCCC\nQ\t\t-4\tAGCT\n"), &[]);
    assert_eq!(outcome.status, 2);
    assert!(outcome.err.contains("line 7, column 2 (haplotype): the haplotype is missing; write its name for every part, or leave the whole column out"), "{}", outcome.err);
}

#[test]
fn the_picture_names_each() {
    let drawn = ask("draw", sheet("P\tx\t5\tCCCCC\nQ\ty\t-4\tAGCT\n"), &[]).text();
    for name in ["x", "y"] {
        assert!(drawn.contains(&format!("standard input, haplotype {name}<")), "{drawn}");
    }
    assert_eq!(drawn.matches("<svg").count(), 1);
    let one = ask("draw", GOOD, &[]).text();
    assert!(!one.contains("haplotype x") && !one.contains("translate"));
}

#[test]
fn the_seventeenth_of_a_job_is_a_27() {
    let whole = job(TABLE);
    let several = |count: usize| [&whole[..whole.len() - 1], &vec![5; count][..], &[0][..]].concat();
    assert_eq!(ask("show", several(15), &[]).status, 0);
    let outcome = ask("show", several(16), &[]);
    assert_eq!(outcome.status, 2);
    assert!(outcome.err.contains(&format!("refused 27: {}: the record at byte {}", refusal_words(27), whole.len() - 1 + 15)), "{}", outcome.err);
}

#[test]
fn bed_cannot_tell_them_apart() {
    let outcome = ask("bed", sheet("P\tx\t5\tCCCCC\nQ\ty\t-4\tAGCT\n"), &["--name", "reef7"]);
    assert_eq!(outcome.status, 2);
    assert!(outcome.err.contains("several haplotypes, and BED has no column"), "{}", outcome.err);
}
