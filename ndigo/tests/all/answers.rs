//! The answer in words, as a table and as JSON.
use crate::common::*;

fn answered(content: impl AsRef<[u8]>) -> String {
    let outcome = ask("answer", content, &[]);
    assert_eq!((outcome.status, outcome.err.as_str()), (0, ""));
    outcome.text()
}

#[test]
fn names_and_words() {
    insta::assert_snapshot!(answered(GOOD), @r###"
    path    1 of 2 rows, in this order:
              B  30 to 30, size 5 (line 3 of the sheet, row 1 from 0)
    score   1 (sizesim 1, seqsim 1)
    parts   the one part was used, none was left out
    search  4 paths were scored, and that is all of them: no path of this table scores higher
    ties    of paths that score the same, the one scored last is the answer; others may be just as good
    "###);
}

/// Two parts that need both rows, and then the records' column.
const BOTH: &str = "\npart\tsize\tletters\nP\t5\tCCCCC\nQ\t6\tAGAGAG\n";

#[test]
fn record_numbers_beside_names() {
    let content = format!("{RECORD_HEADINGS}A\t4711\t10\t10\t6\tAGAGAG\nlong B\t98\t30\t30\t5\tCCCCC\n{BOTH}");
    assert!(answered(content).starts_with(
        "path    2 of 2 rows, in this order:\n\
         \u{20}         A       record 4711  10 to 10, size 6 (line 2 of the sheet)\n\
         \u{20}         long B  record   98  30 to 30, size 5 (line 3 of the sheet)\n\
         score   1 (sizesim 1, seqsim 1)\nparts   all 2 were used, none was left out\n"
    ));
}

#[test]
fn a_record_number_stays_with_its_name() {
    // the same two variants, at one start, in both orders: the rows change, and the record of B does not
    let rows = ["A\t4711\t10\t10\t6\tAGAGAG\n", "B\t98\t10\t10\t5\tCCCCC\n"];
    for rows in [rows.concat(), [rows[1], rows[0]].concat()] {
        assert!(answered(format!("{RECORD_HEADINGS}{rows}\npart\tsize\tletters\nP\t5\tCCCCC\n")).contains("  B  record 98  10 to 10, size 5 (line "));
    }
}

#[test]
fn stopped_early_is_said_first() {
    let text = answered(format!("{GOOD}setting\tvalue\nmaxpaths\t1\n"));
    assert!(text.starts_with("search  2 paths were scored and then the search STOPPED EARLY (maxpaths 1, and one more); there are others, and BETTER ONES MAY EXIST\npath "), "{text}");
    assert_eq!(text.matches("search").count(), 2);
}

#[test]
fn parts_left_out_are_named() {
    let noise = |more: &str| format!("{GOOD}noise\t50\t{}\n{more}", "AG".repeat(25));
    assert!(answered(noise("")).contains("parts   1 was left out of 2: noise\n"));
    let two = answered(noise(&format!("din\t90\t{}\n", "AT".repeat(45))));
    assert!(two.contains("parts   2 were left out of 3: noise, din\n"), "{two}");
    // of equal lists the first stays
    let equal = answered(format!("{GOOD}Q\t5\tCCCCC\nR\t5\tCCCCC\n"));
    assert!(equal.contains("parts   2 were left out of 3: Q, R\n"), "{equal}");
}

#[test]
fn why_nothing_was_found() {
    insta::assert_snapshot!(answered(GOOD.replace("P\t5\tCCCCC", "P\t8\tCCCCCCCC")), @r###"
    path    none: no path passed the thresholds with a score above 0
    why     with sizesim and seqsim at 0 the best path is
              B  30 to 30, size 5 (line 3 of the sheet, row 1 from 0)
            its sizesim is 0.625, below the threshold 0.9; its seqsim is 0.57142854, below the threshold 0.9
            its score is 0.59821427, and of the parts the one part was used, none was left out
    score   0 (sizesim 0, seqsim 0)
    parts   none was matched
    search  4 paths were scored, and that is all of them: no path of this table scores higher
    ties    of paths that score the same, the one scored last is the answer; others may be just as good
    "###);
    let other_letters = answered(GOOD.replace("P\t5\tCCCCC", "P\t5\tCCCCT"));
    assert!(other_letters.contains("its sizesim is 1, not below the threshold 0.9; its seqsim is "), "{other_letters}");
    let no_sign = answered(format!("{HEADINGS}B\t30\t30\t5\tCCCCC\n\npart\tsize\tletters\nP\t-5\tCCCCC\n"));
    assert!(no_sign.contains("why     even with sizesim and seqsim at 0 no path scores above 0: the signs of the sizes differ, or the penalties take all\n"));
    let table = ask("answer", GOOD.replace("P\t5\tCCCCC", "P\t8\tCCCCCCCC"), &["--json"]);
    let document: serde_json::Value = serde_json::from_slice(&table.out).unwrap();
    assert_eq!(document["without_thresholds"]["path"][0]["name"], "B");
    assert_eq!(document["without_thresholds"]["sizesim"]["decimal"].to_string(), "0.625");
    assert!(table.err.contains("nothing found: its sizesim is 0.625, below the threshold 0.9"));
}

/// What `why` says first, or that there is an answer.
fn said_why(content: &str) -> String {
    let text = answered(content);
    let line = text.lines().find_map(|line| line.strip_prefix("why     "));
    line.unwrap_or("there is an answer").to_string()
}

#[test]
fn why_no_path_scores_at_all() {
    const OTHER: &str = "the signs of the sizes differ, or the penalties take all";
    let row = format!("{HEADINGS}B\t30\t30\t5\tCCCCC\n");
    let other_sign = |settings: &str| format!("{row}\npart\tsize\tletters\nP\t-5\tCCCCC\nsetting\tvalue\n{settings}");
    let other_letters = |settings: &str| format!("{row}\npart\tsize\tletters\nP\t5\tGGGGG\nsetting\tvalue\n{settings}");
    let none = format!("even with sizesim and seqsim at 0 no path scores above 0: {OTHER}");
    assert_eq!(said_why(&other_sign("")), none);
    assert_eq!(said_why(&other_letters("gpenalty\t1000\nfnmax\t0\n").replace("P\t5\tGGGGG", "P\t5\tGGGGG\nQ\t5\tGGGGG")), none);
    let stopped = "even with sizesim and seqsim at 0 none of the 1 path that was scored is above 0; the search stopped early, and others may be";
    assert_eq!(said_why(&other_sign("maxpaths\t0\n")), stopped);
    assert_eq!(said_why(&GOOD.replace("P\t5\tCCCCC", "P\t9\tGGGGGGGGG\nsetting\tvalue\nmaxpaths\t0")), stopped);
    assert_eq!(said_why(&row), "the sheet has no parts, so there is no part list that a path could match");
    assert_eq!(said_why(&format!("{row}setting\tvalue\nsquish\tyes\none-to-one\tyes\n")), "the sheet has no parts, so there is no part list that a path could match");
    let alone = format!("even with sizesim and seqsim at 0 no row is a candidate: one needs seqsim above 0 and a score above 0, and here the letters share nothing, {OTHER}");
    assert_eq!(said_why(&other_letters("one-to-one\tyes\n")), alone);
    assert_eq!(said_why(&other_sign("maxnodes\t0\n")), alone);
    assert_eq!(said_why(&other_sign("full\tno\n")), format!("full is no, so only the empty path exists, and even with sizesim and seqsim at 0 it does not score above 0: {OTHER}"));
    let squish = "only the empty path was scored, and with squish it accepts no part list";
    assert_eq!(said_why(&other_sign("full\tno\nsquish\tyes\n")), squish);
    assert_eq!(said_why(&other_sign("maxpaths\t0\nsquish\tyes\n")), format!("{squish}; the search stopped early"));
    // pileupmax 0 gives the whole haplotype, of no parts, as a list: the empty path matches it but for seqsim
    assert_eq!(said_why(&format!("{row}setting\tvalue\npileupmax\t0\n")), "with sizesim and seqsim at 0 the best path is the empty one");
}

#[test]
fn a_search_that_stopped_early_speaks_of_the_paths_scored_alone() {
    let content = GOOD.replace("P\t5\tCCCCC", "P\t8\tCCCCCCCC\nsetting\tvalue\nmaxpaths\t1");
    let text = answered(&content);
    assert!(text.contains("\npath    none: no path of those scored passed the thresholds with a score above 0\nwhy     with sizesim and seqsim at 0 the best path of those scored is\n"), "{text}");
}

#[test]
fn the_empty_path() {
    let content = format!("{HEADINGS}A\t10\t10\t5\tCCCCC\n\npart\tsize\tletters\nP\t5\tCCCCC\nQ\t-5\tCCCCC\nsetting\tvalue\nfull\tno\nseqsim\t0\n");
    let text = answered(content);
    assert!(text.contains("path    the empty one: no row is needed to explain the parts\n"), "{text}");
    assert!(text.contains("search  1 path was scored, and that is all"), "{text}");
    let none = answered(format!("{HEADINGS}A\t10\t10\t5\tCCCCC\nsetting\tvalue\npileupmax\t0\nseqsim\t0\n"));
    assert!(none.contains("path    the empty one") && none.contains("parts   the haplotype has none\n"), "{none}");
}

#[test]
fn one_to_one() {
    for setting in ["one-to-one\tyes", "maxnodes\t1"] {
        let text = answered(format!("{GOOD}setting\tvalue\n{setting}\n"));
        assert!(text.contains("search  one-to-one: each of 2 rows was tried alone, and the two ends of the graph, 4 in all; paths of several rows were not tried\n"));
        assert!(text.contains("ties    of rows that score the same, the last on the sheet is the answer;"));
    }
}

#[test]
fn refusals_in_words() {
    let outcome = ask("answer", format!("{HEADINGS}A\t9\t9\t4\tCCCC\nB\t8\t8\t4\tCCCC\n"), &[]);
    let words = told("line 3", 8, "\"B\" starts at 8, but \"A\" on line 2 starts at 9; sort the rows by start, or call with --sort");
    assert_eq!(outcome.status, 1);
    assert!(outcome.text().ends_with(&format!("{words}\n")));
}

#[test]
fn tables_and_documents_have_stable_names() {
    let table = ask("answer", NUMBERED, &["--tsv"]).text();
    assert_eq!(table, "file\trefused\tnames\trows\trecords\tscore\tscore_bits\tsizesim\tsizesim_bits\tseqsim\tseqsim_bits\ttarget\tleft_out\tscored\tcomplete\thaplotype\n\
                       standard input\t\tB\t1\t98\t1\t3f800000\t1\t3f800000\t1\t3f800000\twhole\t0\t4\tyes\t\n");
    let document = ask("answer", NUMBERED, &["--json"]).text();
    assert_eq!(document, "{\"file\":\"standard input\",\"refused\":null,\"reasons\":[],\"answer\":{\"path\":[{\"name\":\"B\",\"row\":1,\"record\":98,\"start\":30,\"end\":30,\
                          \"size\":5,\"line\":3}],\"score\":{\"decimal\":1.0,\"bits\":\"3f800000\"},\"sizesim\":{\"decimal\":1.0,\"bits\":\"3f800000\"},\
                          \"seqsim\":{\"decimal\":1.0,\"bits\":\"3f800000\"},\"target\":\"whole\",\"left_out\":0,\"used_parts\":[\"P\"],\"scored\":4,\"complete\":true},\
                          \"without_thresholds\":null,\"haplotype\":null}\n");
    let refused = ask("answer", format!("{GOOD}setting\tvalue\nk\t0\n"), &["--tsv"]);
    assert_eq!((refused.status, refused.text().lines().nth(1).unwrap()), (1, &*format!("standard input\t1{}", "\t".repeat(14))));
    // a name with a comma is one name
    let comma = ask("answer", NUMBERED.replace("B\t98", "\"B, the \"\"old\"\"\"\t98"), &["--tsv"]).text();
    let mut cells = csv::ReaderBuilder::new().delimiter(b'\t').from_reader(comma.as_bytes());
    assert_eq!(&cells.records().next().unwrap().unwrap()[2], "\"B, the \"\"old\"\"\"");
    let floats = ask("answer", GOOD.replace("P\t5\tCCCCC", "P\t5\tCCCCT") + "setting\tvalue\nseqsim\t0.3\n", &["--json"]).text();
    assert!(floats.contains("\"seqsim\":{\"decimal\":0."), "{floats}");
}

/// Twelve variants of which five were planted: more paths than the small program scores.
#[test]
fn at_the_librarys_size() {
    let letters = |row: usize| (0..12).map(|at| ['A', 'G', 'C', 'T'][((row + 1) * (at + 3) * 2_654_435_761 >> 13) % 4]).collect::<String>();
    let mut content = HEADINGS.to_string();
    for row in 0..12 {
        content += &format!("V{row}\t{0}\t{0}\t12\t{1}\n", row * 10, letters(row));
    }
    content += "\npart\tsize\tletters\n";
    for row in [1, 3, 6, 8, 11] {
        content += &format!("P{row}\t12\t{}\n", letters(row));
    }
    let document: serde_json::Value = serde_json::from_slice(&ask("answer", content, &["--json"]).out).unwrap();
    assert_eq!((document["answer"]["score"]["bits"].as_str(), document["answer"]["scored"].as_u64()), (Some("3f800000"), Some(4096)));
    let names: Vec<&str> = document["answer"]["path"].as_array().unwrap().iter().map(|row| row["name"].as_str().unwrap()).collect();
    assert_eq!(names, ["V1", "V3", "V6", "V8", "V11"]);
}
