//! What is allowed and yet hardly meant.
use crate::common::*;

fn warned(content: &str) -> Vec<String> {
    let text = ask("check", content, &[]).text();
    text.lines().filter_map(|line| line.strip_prefix("warning ")).map(str::to_string).collect()
}

const FROM_ONE: &str = "as where places count from 1; here starts count from 0 and the end is not counted in: take 1 from every start (docs/COORDINATES.md)";
const LEAVE_OUT: &str = "the search will stop early, and better paths may exist; leave out variants that can be ruled out";
const RAISE: &str = "the search will stop early, and better paths may exist; raise maxpaths, up to 4095, or leave out variants that can be ruled out";
const NO_WINDOWS: &str = "it has no windows and adds nothing to seqsim, which is 0 where no windows are compared";
const AS_A: &str = "each counts as A, and with letters 1 the windows that hold one are left out";
const LEFT_OUT: &str = "with letters 1 the windows that hold one are left out";
const PART: &str = "\npart\tsize\tletters\nP\t5\tCCCCC\n";

fn one_row(row: &str) -> String {
    format!("{HEADINGS}{row}\n{PART}")
}

#[test]
fn a_good_sheet_has_none() {
    assert_eq!(warned(GOOD), [""; 0]);
}

#[test]
fn each_warning() {
    for (row, words) in [
        ("A\t1\t1\t6\tAGNNct", &*format!("line 2: \"A\": 2 of 6 letters are not A, G, C or T, the first is N at letter 3; {AS_A}")),
        ("A\t1\t1\t5\tAGRct", &*format!("line 2: \"A\": 1 of 5 letters is not A, G, C or T, the first is R at letter 3; {AS_A}")),
        ("A\t1\t1\t6\tAGCTA", "line 2: \"A\" has size 6 and 5 letters; they are compared each by itself"),
        ("A\t1\t6\t5\tAGCTA", "line 2: \"A\" spans 5 (1 to 6) as a deletion does, and its size is above 0: 5; a deletion is written -5, and an insertion has start = end"),
        ("A\t11\t10\t5\tAGCTA", &*format!("line 2: \"A\" ends at 10, one below its start 11, {FROM_ONE}")),
        ("A\t11\t15\t-5\tAGCTA", &*format!("every deletion spans one less than its size, {FROM_ONE}")),
    ] {
        assert_eq!(warned(&one_row(row)), [words], "{row}");
    }
    assert_eq!(warned(GOOD.split("\n\n").next().unwrap()), ["the sheet has no parts: there is nothing to explain"]);
}

/// A part without windows is taken, and no size makes up for letters that are missing: the threshold stops it.
#[test]
fn of_a_part_without_windows_nothing_is_found() {
    for (row, part, has) in [("A\t1\t1\t5\tAGCTA", "P\t5\t", "no letters"), ("A\t1\t1\t3\tAGCTA", "P\t3\tAGC", "3 letters, fewer than k 4")] {
        let content = format!("{HEADINGS}{row}\n\npart\tsize\tletters\n{part}\n");
        assert!(warned(&content).contains(&format!("line 5: \"P\" has {has}: {NO_WINDOWS}")), "{content}");
        let document: serde_json::Value = serde_json::from_slice(&ask("answer", &content, &["--json"]).out).unwrap();
        assert_eq!((&document["answer"]["target"], document["without_thresholds"]["seqsim"]["bits"].as_str()), (&"nothing".into(), Some("00000000")));
    }
    // where k is refused, nothing is said of windows
    assert_eq!(warned(&format!("{GOOD}setting\tvalue\nk\t7\n")), [""; 0]);
}

#[test]
fn a_part_is_looked_at_too() {
    assert_eq!(warned(&GOOD.replace("P\t5\tCCCCC", "P\t5\tCCCCN")), [format!("line 6: \"P\": 1 of 5 letters is not A, G, C or T, the first is N at letter 5; {AS_A}")]);
}

/// With letters 1 it is said how many windows are left, of variants and of parts; of a reading or a k that is refused nothing is said of windows.
#[test]
fn letters_that_were_not_read() {
    let with = |row: &str, settings: &str| format!("{}setting\tvalue\n{settings}", one_row(row));
    let first = |row: &str, settings: &str| warned(&with(row, settings)).remove(0);
    let strange = "line 2: \"A\": 2 of 9 letters are not A, G, C or T, the first is N at letter 5";
    let row = "A\t1\t1\t9\tAGctNAGCn";
    assert_eq!(first(row, ""), format!("{strange}; {AS_A}"));
    assert_eq!(first(row, "letters\t0\n"), format!("{strange}; {AS_A}"));
    assert_eq!(first(row, "letters\t1\n"), format!("{strange}; {LEFT_OUT}: 1 of 6 are counted"));
    assert_eq!(first(row, "letters\t1\nk\t1\n"), format!("{strange}; {LEFT_OUT}: 7 of 9 are counted"));
    assert_eq!(first(row, "letters\t1\nk\t7\n"), format!("{strange}; {LEFT_OUT}"));
    assert_eq!(first(row, "letters\t2\n"), strange);
    // nothing to say where every letter was read
    assert_eq!(warned(&format!("{GOOD}setting\tvalue\nletters\t1\n")), [""; 0]);
    let part = GOOD.replace("P\t5\tCCCCC", "P\t5\tCNCCC") + "setting\tvalue\nletters\t1\n";
    assert_eq!(warned(&part), [
        format!("line 6: \"P\": 1 of 5 letters is not A, G, C or T, the first is N at letter 2; {LEFT_OUT}: 0 of 2 are counted"),
        format!("line 6: \"P\" has 5 letters and no window of 4 that letters 1 keeps: {NO_WINDOWS}"),
    ]);
}

/// So many insertions have 2 to that power of paths.
fn free_rows(count: usize, maxpaths: u32) -> String {
    format!("{}{PART}setting\tvalue\nmaxpaths\t{maxpaths}\n", table_of(count))
}

#[test]
fn the_chain_count_says_when_a_search_will_stop_early() {
    let early = |content: &str| warned(content).into_iter().filter(|words| words.contains("stop early")).collect::<Vec<_>>();
    assert_eq!(early(&free_rows(3, 7)), [""; 0]);
    assert_eq!(early(&free_rows(3, 6)), [format!("the table has more paths than the 7 that are scored (maxpaths 6, and one more): {RAISE}")]);
    assert_eq!(early(&free_rows(11, 4095)), [""; 0]);
    assert_eq!(early(&free_rows(12, 4095)),
               ["the table has 4096 paths or more, and 4096 are scored (maxpaths 4095, and one more): the search will stop early unless these are all"]);
    assert_eq!(early(&free_rows(13, 4095)), [format!("the table has more paths than the 4096 that are scored (maxpaths 4095, and one more): {LEAVE_OUT}")]);
    assert_eq!(early(&format!("{}one-to-one\tyes\n", free_rows(13, 4095))), [""; 0]);
}

#[test]
fn what_is_foretold_comes_true() {
    for (rows, maxpaths) in [(3, 7), (3, 6), (3, 0), (12, 4095), (13, 4095), (12, 4094), (5, 31), (5, 30)] {
        let content = free_rows(rows, maxpaths);
        let foretold = warned(&content).iter().any(|words| words.contains("will stop early, and"));
        let document: serde_json::Value = serde_json::from_slice(&ask("answer", &content, &["--json"]).out).unwrap();
        assert_eq!(document["answer"]["complete"], !foretold, "{rows} rows, maxpaths {maxpaths}");
    }
}

#[test]
fn warnings_stand_above_an_answer_and_on_standard_error_for_tables() {
    let content = GOOD.replace("P\t5\tCCCCC", "P\t5\tCCCCN");
    let words = format!("line 6: \"P\": 1 of 5 letters is not A, G, C or T, the first is N at letter 5; {AS_A}");
    assert!(ask("answer", &content, &[]).text().starts_with(&format!("warning {words}\npath ")));
    for form in ["--tsv", "--json"] {
        let outcome = ask("answer", &content, &[form]);
        assert!(outcome.err.starts_with(&format!("standard input: warning: {words}\n")), "{}", outcome.err);
        assert!(!outcome.text().contains("warning"));
    }
}
