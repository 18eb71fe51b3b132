//! Pictures: what is marked, told and refused. That no two labels meet is tested where they are drawn.
use crate::common::*;

fn drawn(content: impl AsRef<[u8]>, more: &[&str]) -> String {
    let outcome = ask("draw", content, more);
    assert_eq!(outcome.status, 0, "{}", outcome.err);
    outcome.text()
}

/// The words of the labels of this class.
fn labels(svg: &str, class: &str) -> Vec<String> {
    let wanted = format!("class=\"{class}\"");
    let lines = svg.lines().filter(|line| line.starts_with("<text") && line.contains(&wanted));
    lines.map(|line| line.split_once('>').unwrap().1.strip_suffix("</text>").unwrap().to_string()).collect()
}

#[test]
fn the_chosen_path_and_the_used_parts_are_marked() {
    let content = format!("{}noise\t50\t{}\n", GOOD, "AG".repeat(25));
    let svg = drawn(content, &[]);
    assert_eq!(labels(&svg, "chosen-name"), ["B", "P"]);
    assert!(labels(&svg, "plain").contains(&"The path has 1 of 2 rows, score 0.9. All 4 paths were scored.".to_string()), "{svg}");
    assert_eq!(labels(&svg, "warning"), ["left out"]);
    assert!(labels(&svg, "faint").iter().any(|words| words.starts_with("position, from 0")));
}

#[test]
fn record_numbers_beside_names_or_row_numbers() {
    let told = |svg: &str| svg.lines().filter_map(|line| line.strip_prefix("<g><title>")).map(|line| line.strip_suffix("</title>").unwrap().to_string()).collect::<Vec<_>>();
    assert_eq!(told(&drawn(GOOD, &["--rows", "1"]))[..2], ["A, row 0: 10 to 14, size -4", "B, row 1: 30 to 30, size 5"]);
    let svg = drawn(NUMBERED, &[]);
    assert_eq!(told(&svg)[..2], ["A, record 4711: 10 to 14, size -4", "B, record 98: 30 to 30, size 5"]);
    assert!(labels(&svg, "faint").contains(&"4711".to_string()) && labels(&svg, "faint").contains(&"record".to_string()));
}

#[test]
fn captions() {
    let stopped = drawn(format!("{GOOD}setting\tvalue\nmaxpaths\t1\n"), &[]);
    assert!(labels(&stopped, "plain").contains(&"The path has 1 of 2 rows, score 1. STOPPED EARLY: only 2 paths scored, better ones may exist.".to_string()));
    let nothing = drawn(GOOD.replace("P\t5\tCCCCC", "P\t8\tCCCCCCCC"), &[]);
    assert!(labels(&nothing, "plain").contains(&"No path matched, score 0. All 4 paths were scored.".to_string()));
}

#[test]
fn rows_by_hand_and_none() {
    assert_eq!(labels(&drawn(GOOD, &["--rows", "1"]), "chosen-name"), ["B"]);
    assert_eq!(labels(&drawn(GOOD, &["--rows", "none"]), "chosen-name"), [""; 0]);
    for rows in ["2", "1,0", "0,0", "A", "", "-1", "+1"] {
        let outcome = ask("draw", GOOD, &["--rows", rows]);
        assert_eq!((outcome.status, outcome.out), (2, vec![]), "{rows}");
    }
}

#[test]
fn overlaps_are_hatched_and_named() {
    let content = format!("{HEADINGS}A\t10\t20\t-4\tCCCC\nB\t15\t30\t-4\tCCCC\nC\t18\t18\t1\tCCCC\nD\t30\t40\t1\tCCCC\n");
    let svg = drawn(content, &["--rows", "none"]);
    let groups: Vec<&str> = svg.split("<g>").skip(1).map(|group| group.split("</g>").next().unwrap()).collect();
    let hatched: Vec<usize> = groups.iter().map(|group| group.matches("class=\"shared\"").count()).collect();
    assert_eq!(hatched, [1, 1, 1, 0]);
    assert!(groups[0].trim_end().ends_with(">B, C</text>"));
    assert!(groups[2].trim_end().ends_with(">A, B</text>"));
}

/// An insertion inside a deletion and the deletion share a hatched stretch; one at its start or end, and one at the insertion's own place, share none.
#[test]
fn an_insertion_inside_a_deletion_is_hatched() {
    let content = format!("{HEADINGS}A\t10\t10\t1\tCCCC\nB\t10\t20\t-4\tCCCC\nC\t15\t15\t1\tCCCC\nD\t15\t15\t1\tCCCC\nE\t20\t20\t1\tCCCC\n");
    let svg = drawn(content, &["--rows", "none"]);
    let groups: Vec<&str> = svg.split("<g>").skip(1).map(|group| group.split("</g>").next().unwrap()).collect();
    let hatched: Vec<usize> = groups.iter().map(|group| group.matches("class=\"shared\"").count()).collect();
    assert_eq!(hatched, [0, 1, 1, 1, 0]);
    assert!(groups[1].trim_end().ends_with(">C, D</text>"));
    assert!(groups[2].trim_end().ends_with(">B</text>"));
}

#[test]
fn signs_that_xml_keeps_for_itself() {
    let svg = drawn(GOOD.replace("A\t10", "<A> & \"co\"\t10"), &[]);
    assert!(svg.contains(">&lt;A&gt; &amp; &quot;co&quot;</text>"), "{svg}");
}
