//! Somebody else's path: yes, or no and why; what is written wrong is told with what to write instead.
use crate::common::*;

const TWO: &str = "setting\tvalue\nk\t1\nminkfreq\t1\n\nvariant\tstart\tend\tsize\tletters\nA\t10\t14\t-4\tAGCT\nB\t12\t12\t5\tCCCCC\nC\t30\t30\t5\tCCCCC\n\n\
    part\tsize\tletters\nP\t5\tCCCCC\nQ\t3\tTTT\n";

fn asked(sheet: &str, rows: &str, parts: &str, score: &str) -> Outcome {
    ask("check-path", sheet, &["--rows", rows, "--parts", parts, "--score", score])
}

#[test]
fn our_own_answer_gets_a_yes() {
    let outcome = asked(GOOD, "B", "P", "1");
    assert_eq!((outcome.status, outcome.text().as_str()), (0, "yes     rows B with parts P score 1\n"));
    for (rows, parts, score) in [("1", "0", "bits:3f800000"), ("B", "all", "1.0")] {
        assert_eq!(asked(GOOD, rows, parts, score).status, 0);
    }
}

#[test]
fn a_no_tells_why() {
    for (rows, parts, score, why) in [
        ("A,B", "P", "1", "overlap, and no two rows of a path may"),
        ("C,A", "P", "1", "\"A\" (line 6) does not stand behind \"C\" (line 8) on the sheet"),
        ("3", "P", "1", "row 3 is not there; the sheet has 3 rows"),
        ("C", "none", "1", "0 parts of 2 are too few: with fnmax 3 a list has at least 1"),
        ("C", "1,0", "1", "the parts do not stand in the sheet's order"),
        ("C", "2", "1", "part 2 is not there; the haplotype has 2 parts"),
        ("C", "P", "0", "a score must be greater than 0; this is 0"),
        ("C", "P", "bits:7fc00000", "a score must be greater than 0; this is bits:7fc00000"),
        ("C", "P", "bits:3f7fffff", "seqsim is 1, not below the threshold 0.9"),
        ("A", "P", "1", "the signs of the sizes of rows and parts differ"),
    ] {
        let outcome = asked(TWO, rows, parts, score);
        assert_eq!(outcome.status, 1, "{rows} {parts} {score}: {}", outcome.text());
        assert!(outcome.text().starts_with("no      ") && outcome.text().contains(why), "{rows} {parts} {score}: {}", outcome.text());
    }
    let bare = TWO.replace("k\t1\n", "k\t1\nfull\tno\n");
    assert!(asked(&bare, "C", "P", "1").text().contains("only the empty path stands"));
    let squish = TWO.replace("k\t1\n", "k\t1\nsquish\tyes\n");
    assert!(asked(&squish, "none", "P", "1").text().contains("with squish the empty path accepts no part list"));
}

#[test]
fn one_to_one_and_maxnodes_play_no_part() {
    for setting in ["one-to-one\tyes\n", "maxnodes\t0\n", "maxpaths\t0\n"] {
        assert_eq!(asked(&TWO.replace("k\t1\n", &format!("k\t1\n{setting}")), "C", "P", "bits:3f666666").status, 0, "{setting}");
    }
}

#[test]
fn what_is_written_wrong_is_told() {
    for (rows, parts, score, told) in [
        ("X", "P", "1", "--rows: \"X\" is no name on the sheet; write one that is, or its number from 0: the sheet has A, B"),
        ("B", "X", "1", "--parts: \"X\" is no name on the sheet; write one that is, or its number from 0: the sheet has P"),
        ("B", "P", "much", "--score: \"much\" is no number; write a decimal such as 0.975"),
        ("B", "P", "1e39", "--score: \"1e39\" is larger than any 32-bit float"),
    ] {
        let outcome = asked(GOOD, rows, parts, score);
        assert_eq!((outcome.status, outcome.out.len()), (2, 0));
        assert!(outcome.err.contains(told), "{}", outcome.err);
    }
    let refused = asked(&GOOD.replace("10\t14", "14\t10"), "B", "P", "1");
    assert_eq!(refused.status, 1);
    assert!(refused.text().contains("refused 7"), "{}", refused.text());
    let long = asked(GOOD, &vec!["B"; 65].join(","), "P", "1");
    assert_eq!(long.status, 1);
    assert!(long.text().contains("refused 54: a proposal over 64 rows or over 64 positions"), "{}", long.text());
}

#[test]
fn one_of_several_haplotypes_is_named() {
    let sheet = GOOD.replace("part\tsize\tletters\nP\t5\tCCCCC\n", "part\thaplotype\tsize\tletters\nP\tleft\t5\tCCCCC\nR\tright\t4\tAAAA\n");
    let unnamed = asked(&sheet, "B", "all", "1");
    assert_eq!(unnamed.status, 2);
    assert!(unnamed.err.contains("the sheet names several haplotypes: left, right; write --haplotype and one of them"), "{}", unnamed.err);
    let named = |name: &str| ask("check-path", &sheet, &["--rows", "B", "--parts", "all", "--score", "1", "--haplotype", name]);
    assert_eq!((named("left").status, named("right").status, named("middle").status), (0, 1, 2));
    assert!(named("middle").err.contains("write one of left, right"));
}
