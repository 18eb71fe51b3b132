//! What is said of sheets that cannot be read or are refused, of calls that cannot be, and where nothing can be written.
use crate::common::*;

const NUMBER: &str = "write a whole number from 0 to 18446744073709551615";
const NO_RECORD: &str = "the record number is missing; write one for every variant, or leave the whole column out";
const ALL: &str = "the headings here are start, end, size, letters, record, negative, remark";
const HEX: &str = "write letters A to Z only, or any bytes in hexadecimal, such as hex:4e2e";
const HEADING: &str = "write a heading row whose first cell is one of \"setting\", \"variant\", \"part\", such as: variant start end size letters";

fn table(row: &str) -> String {
    format!("{HEADINGS}{row}\n")
}

fn numbered(rows: &str) -> String {
    format!("{RECORD_HEADINGS}{rows}\n")
}

fn setting(row: &str) -> String {
    format!("setting\tvalue\n{row}\n")
}

/// A sheet, and what is said of it: where, what stands there, what to write instead.
type Said = (String, String);

fn bad_headings() -> Vec<Said> {
    let meant = |line: usize, first: &str, word: &str| {
        format!("line {line}, column 1: \"{first}\" begins what looks like a heading row; write \"{word}\" there, and the names below it")
    };
    let letters = format!("line 1, column 5: the heading \"letters\" is missing; write it above its column; {ALL}");
    let good_row = "A\t1\t1\t5\tAGCTA\n";
    vec![
        ("".into(), format!("line 1, column 1: the sheet is empty: it has no heading row; {HEADING}")),
        ("# only a remark\n\n".into(), format!("line 1, column 1: the sheet is empty: it has no heading row; {HEADING}")),
        ("\nmy dive\n".into(), format!("line 2, column 1: no heading row stands here or below; this is \"my dive\"; {HEADING}")),
        (HEADINGS.replace("variant", "name") + good_row, meant(1, "name", "variant")),
        (HEADINGS.replace("variant", "Variants") + good_row, meant(1, "variants", "variant")),
        (GOOD.replace("part\t", "parts\t"), meant(5, "parts", "part")),
        ("settings\tvalue\nk\t4\n".into(), meant(1, "settings", "setting")),
        ("variant\tstart\tend\tsize\n".into(), letters),
        (HEADINGS.replace("end", "end\tstart"), "line 1, column 4: the heading \"start\" stands here twice; keep one of the two columns".into()),
        (RECORD_HEADINGS.replace('\n', "\trecord\n"), "line 1, column 7: the heading \"record\" stands here twice; keep one of the two columns".into()),
        (format!("{HEADINGS}\n{HEADINGS}"), "line 3, column 1: the heading \"variant\" stood on line 1 already; put its rows under that one".into()),
    ]
}

fn bad_names() -> Vec<Said> {
    let hash = "line 2, column 1: the name \"#A\" begins with #; write another name; a remark fills one cell only";
    let quote = "line 2, column 3: a cell begins with a quote and is not closed by one; close it; write a quote inside twice, and no line break";
    vec![
        (table("A\t1\t1\t1\tAG\tmore"), "line 2, column 6: no heading stands above this cell, \"more\"; write one above it, or empty the cell".into()),
        (table("#A\t1\t1\t1\tAG"), hash.into()),
        (table("#A\t1\t1\t1\tAG").replace('\t', ","), hash.into()),
        (table("A\t1\t\"1\t1\tAG"), quote.into()),
        (table("\t1\t1\t1\tAG"), "line 2, column 1 (variant): the name is missing; write one".into()),
        (table("A\u{7}\t1\t1\t1\tAG"), "line 2, column 1 (variant): the name \"A\\u{7}\" holds a character that cannot be printed; write it without".into()),
        (table("A\t1\t1\t1\tAG\n\nA\t2\t2\t1\tAG"), "line 4, column 1 (variant): the name \"A\" stood on line 2 already; write another name".into()),
        ("part\tsize\tletters\nP\t1\tAG\nP\t1\tAG\n".into(), "line 3, column 1 (part): the name \"P\" stood on line 2 already; write another name".into()),
    ]
}

fn bad_cells() -> Vec<Said> {
    let size = "line 2, column 4 (size): \"2.0\" is no whole number; write a whole number from -2147483648 to 2147483647, in digits";
    vec![
        (table("A\t\t1\t1\tAG"), format!("line 2, column 2 (start): the start is missing; {NUMBER}")),
        (table("A\t1,00\t1\t1\tAG"), format!("line 2, column 2 (start): \"1,00\" is no whole number; {NUMBER}, in digits")),
        (table("A\t1\t18446744073709551616\t1\tAG"), format!("line 2, column 3 (end): \"18446744073709551616\" is out of range; {NUMBER}")),
        (table("A\t-1\t1\t1\tAG"), format!("line 2, column 2 (start): \"-1\" is out of range; {NUMBER}")),
        (table("A\t1\t1\t2.0\tAG"), size.into()),
        (table("A\t1\t1\t1\tA G"), format!("line 2, column 5 (letters): \" \" stands at letter 2; {HEX}")),
        (table("A\t1\u{1b}[2J\t1\t1\tAG"), format!("line 2, column 2 (start): \"1\\u{{1b}}[2J\" is no whole number; {NUMBER}, in digits")),
        (table("A\t1\t1\t1\tAG\t\u{7f}"), "line 2, column 6: no heading stands above this cell, \"\\u{7f}\"; write one above it, or empty the cell".into()),
        ("my \u{1b}c dive".into(), format!("line 1, column 1: no heading row stands here or below; this is \"my \\u{{1b}}c dive\"; {HEADING}")),
        (table("A\t1\t1\t1\thex:4"), format!("line 2, column 5 (letters): \":\" stands at letter 4; {HEX}")),
        ("part\tsize\tletters\tnegative\nP\t1\tAG\tmaybe\n".into(), "line 2, column 4 (negative): \"maybe\" is neither yes nor no; write yes or no".into()),
    ]
}

fn bad_records() -> Vec<Said> {
    let cases = vec![
        (numbered("A\t7\t1\t1\t1\tAG\nB\t\t1\t1\t1\tAG"), format!("line 3, column 2 (record): {NO_RECORD}")),
        (HEADINGS.replace("letters", "letters\trecord") + "A\t1\t1\t1\tAG\n", format!("line 2, column 6 (record): {NO_RECORD}")),
    ];
    let numbers = ["4294967296", "-1", "12b", "7.0", "1 000"].map(|number| {
        let whole = number.parse::<i64>().is_ok();
        let (what, end) = if whole { ("is out of range", "") } else { ("is no whole number", ", in digits") };
        let said = format!("line 2, column 2 (record): \"{number}\" {what}; write a whole number from 0 to 4294967295{end}");
        (numbered(&format!("A\t{number}\t1\t1\t1\tAG")), said)
    });
    cases.into_iter().chain(numbers).collect()
}

fn bad_settings() -> Vec<Said> {
    let names = ndigo::model::SETTINGS.iter().map(|setting| setting.name).collect::<Vec<_>>().join(", ");
    let comma = "line 2, column 2 (value): \"0,9\" is no number; write digits with a point, such as 0.9, or 32 bits, such as bits:7fc00000";
    vec![
        (setting("maxpath\t5"), "line 2, column 1 (setting): no setting is called \"maxpath\"; is \"maxpaths\" meant?".into()),
        (setting("colour\t5"), format!("line 2, column 1 (setting): no setting is called \"colour\"; they are {names}")),
        (setting("k\t1\nK\t2"), "line 3, column 1 (setting): \"k\" was set on line 2 already; keep one of the two lines".into()),
        (setting("k"), "line 2, column 2 (value): the value is missing; write one, or leave the whole line out for the default".into()),
        (setting("letters\tN"), "line 2, column 2 (value): \"N\" is no whole number; write a whole number from 0 to 255, in digits".into()),
        (setting("k\t256"), "line 2, column 2 (value): \"256\" is out of range; write a whole number from 0 to 255".into()),
        (setting("maxnodes\t4294967296"), "line 2, column 2 (value): \"4294967296\" is out of range; write a whole number from 0 to 4294967295".into()),
        (setting("squish\toui"), "line 2, column 2 (value): \"oui\" is neither yes nor no; write yes or no".into()),
        (setting("sizesim\t0,9"), comma.into()),
        (setting("sizesim\t1e39"), "line 2, column 2 (value): \"1e39\" is larger than any 32-bit float; write a smaller number".into()),
    ]
}

#[test]
fn bad_sheets_get_their_message_and_nothing_else() {
    for group in [bad_headings(), bad_names(), bad_cells(), bad_records(), bad_settings()] {
        for (at, (content, message)) in group.iter().enumerate() {
            // all commands read alike: the first sheet of each group is put to all
            let commands = if at == 0 { &["check", "job", "answer", "draw"][..] } else { &["check"] };
            for command in commands {
                let outcome = ask(command, content, &[]);
                assert_eq!(outcome.err, format!("standard input: {message}\n"));
                assert_eq!((outcome.status, outcome.out), (2, vec![]), "{message}");
            }
        }
    }
}

#[test]
fn all_faults_in_one_run() {
    let content = "setting\tvalue\nk\tfour\nmaxpath\t5\n\nvariant\tstart\tend\tsize\tletters\nA\tten\t1\tx\tA G\n\t1\t1\t1\tAG\tmore\nA\t2\t2\t1\tAG\n\npart\tsize\tlettres\nP\tone\tAG\n";
    let outcome = ask("check", content, &[]);
    let places: Vec<String> = outcome.err.lines().filter_map(|line| line.strip_prefix("standard input: ")?.split(": ").next().map(str::to_string)).collect();
    assert_eq!(places, [
        "note", "line 2, column 2 (value)", "line 3, column 1 (setting)", "line 6, column 2 (start)", "line 6, column 4 (size)", "line 6, column 5 (letters)",
        "line 7, column 6", "line 7, column 1 (variant)", "line 8, column 1 (variant)", "line 10, column 4", "line 11, column 2 (size)",
    ]);
    let rows = ask("check", content, &["--tsv"]);
    assert_eq!((rows.status, rows.text().lines().count()), (2, 12));
    let document: serde_json::Value = serde_json::from_slice(&ask("check", content, &["--json"]).out).unwrap();
    assert_eq!(document["faults"].as_array().unwrap().len(), 10);
    assert_eq!(document["faults"][0]["what"], "\"four\" is no whole number");
}

#[test]
fn other_codings() {
    let windows = ask("check", [HEADINGS.as_bytes(), b"R\xe9cif\t1\t1\t5\tAGAGA\n"].concat(), &[]);
    assert!(windows.text().starts_with("note    line 2: this is no UTF-8; the sheet was read as Windows-1252\n"));
    let no_mark = |big: bool| GOOD.encode_utf16().flat_map(|unit| if big { unit.to_be_bytes() } else { unit.to_le_bytes() }).collect::<Vec<u8>>();
    let zeros = "zero bytes stand here: this is no text, or UTF-16 without its mark";
    for (content, what) in [(no_mark(false), zeros), (no_mark(true), zeros), (b"\xff\0\x01".to_vec(), zeros), (b"\xff\xfe\0".to_vec(), "this is not text in UTF-8 or UTF-16")] {
        let outcome = ask("check", content, &[]);
        assert_eq!((outcome.status, outcome.err), (2, format!("standard input: line 1, column 1: {what}; save the sheet as tab-separated text in UTF-8\n")));
    }
}

#[test]
fn files_and_commands() {
    let missing = call(&["job", "none.tsv"], b"");
    assert_eq!((missing.status, missing.err.as_str()), (2, "none.tsv: cannot be read (No such file or directory (os error 2)); name a file that is there\n"));
    for arguments in [&[][..], &["job"], &["fly", "none.tsv"], &["draw", "none.tsv", "--rows"], &["answer", "--tsv", "--json", "-"]] {
        let outcome = call(arguments, b"");
        assert_eq!((outcome.status, outcome.out), (2, vec![]), "{arguments:?}");
        assert!(outcome.err.contains("--help"), "{}", outcome.err);
    }
}

#[test]
fn help_states_every_default() {
    let help = call(&["--help"], b"").text();
    for setting in ndigo::model::SETTINGS {
        assert!(help.contains(&format!("  {:10}  {:5}  {}\n", setting.name, setting.default, setting.meaning)), "{}", setting.name);
    }
    for command in ["answer", "check", "draw", "job", "show", "move", "completions"] {
        let outcome = call(&[command, "--help"], b"");
        assert_eq!(outcome.status, 0);
        assert!(outcome.text().contains(&format!("Usage: ndigo {command}")));
    }
    // an answer's warnings go to standard error, and a check's are its rows
    for (command, words, count) in [("answer", "warnings go to standard error", 2), ("answer", "a sheet with faults", 2), ("check", "standard error", 0), ("check", "refusals and warnings are", 2)] {
        assert_eq!(call(&[command, "--help"], b"").text().split_whitespace().collect::<Vec<_>>().join(" ").matches(words).count(), count, "{command}: {words}");
    }
    assert_eq!(call(&["--version"], b"").text(), concat!("ndigo ", env!("CARGO_PKG_VERSION"), "\n"));
    assert!(call(&["completions", "bash"], b"").text().contains("ndigo"));
}

/// The three things that people misread, in the long help of every command that gives an answer; the man pages are made from it.
#[test]
fn help_tells_what_is_misread_in_an_answer() {
    for command in [&[][..], &["answer"], &["draw"], &["deeper"], &["batch"], &["bed"]] {
        let help = call(&[command, &["--help"]].concat(), b"").text().split_whitespace().collect::<Vec<_>>().join(" ");
        for words in [
            "not names, and a copy sorted since has other rows",
            "whether those were all ('complete'): if not, better ones may exist",
            "the one scored later wins, which need not be the lower in the table",
        ] {
            assert!(help.contains(words), "{command:?}: {words}");
        }
    }
}

/// A full disk or a closed pipe is told and is a 3, for answers, help and files alike.
#[test]
fn what_cannot_be_written() {
    let folder = folder("unwritable");
    std::fs::write(folder.join("s.tsv"), GOOD).unwrap();
    for arguments in [&["answer", "s.tsv"][..], &["check", "s.tsv", "--json"], &["answer", "s.tsv", "--tsv"], &["job", "s.tsv"], &["draw", "s.tsv"], &["--help"], &["completions", "zsh"]] {
        let full = std::fs::OpenOptions::new().write(true).open("/dev/full").unwrap();
        let done = std::process::Command::new(assert_cmd::cargo::cargo_bin("ndigo")).args(arguments).current_dir(&folder).stdout(full).output().unwrap();
        let said = String::from_utf8(done.stderr).unwrap();
        assert_eq!(done.status.code(), Some(3), "{arguments:?}: {said}");
        assert!(said.ends_with("standard output: cannot be written (No space left on device (os error 28))\n"), "{said}");
    }
    let into = call(&["job", "-", "--into", "/dev/null/folder"], GOOD.as_bytes());
    assert_eq!(into.status, 3);
    assert!(into.err.contains("/dev/null/folder/standard-input.job: cannot be written (Not a directory"), "{}", into.err);
}

/// Rust's runtime would put /dev/null in its place.
#[test]
fn a_closed_output() {
    let ndigo = assert_cmd::cargo::cargo_bin("ndigo");
    let folder = folder("closed-output");
    std::fs::write(folder.join("s.tsv"), GOOD).unwrap();
    for (redirected, status, said) in [("1>&-", 3, "standard output: cannot be written (it is closed)\n"), ("1>/dev/null", 0, ""), ("0<&-", 0, "")] {
        let line = format!("exec \"$0\" answer s.tsv {redirected}");
        let done = std::process::Command::new("sh").args(["-c", &line]).arg(&ndigo).current_dir(&folder).output().unwrap();
        assert_eq!((done.status.code(), String::from_utf8(done.stderr).unwrap().as_str()), (Some(status), said), "{redirected}");
    }
}

#[test]
fn a_closed_pipe() {
    let mut child = std::process::Command::new(assert_cmd::cargo::cargo_bin("ndigo"))
        .args(["answer", "-"]).stdin(std::process::Stdio::piped()).stdout(std::process::Stdio::piped()).stderr(std::process::Stdio::piped()).spawn().unwrap();
    drop(child.stdout.take());
    use std::io::Write;
    child.stdin.take().unwrap().write_all(GOOD.as_bytes()).unwrap();
    let done = child.wait_with_output().unwrap();
    assert_eq!(done.status.code(), Some(3));
    assert_eq!(String::from_utf8(done.stderr).unwrap(), "standard output: cannot be written (Broken pipe (os error 32))\n");
}

/// A sheet, and the refusals that check writes about it.
fn refused_sheets() -> Vec<(String, Vec<String>)> {
    let with = |row: &str| format!("{GOOD}setting\tvalue\n{row}\n");
    vec![
        (with("k\t0"), vec![told("line 8", 1, "k is 0, it must be 1 to 6")]),
        (with("k\t7"), vec![told("line 8", 1, "k is 7, it must be 1 to 6")]),
        (with("gpenalty\tbits:7fc00001"), vec![told("line 8", 2, "gpenalty is bits:7fc00001, it must be 0 to 1000")]),
        (with("seqsim\t-0.5"), vec![told("line 8", 2, "seqsim is -0.5, it must be 0 to 1")]),
        (with("maxpaths\t4096"), vec![told("line 8", 3, "maxpaths is 4096, the limit is 4095")]),
        (with("letters\t2"), vec![told("line 8", 3, "letters is 2, it must be 0 or 1")]),
        (with("letters\t255"), vec![told("line 8", 3, "letters is 255, it must be 0 or 1")]),
        // the counter asks k and letters before a search asks the other settings; without anything to count the search asks all
        (with("sizesim\t2\nmaxpaths\t4096\nletters\t2"), vec![
            told("line 10", 3, "letters is 2, it must be 0 or 1"),
            told("line 8", 2, "sizesim is 2, it must be 0 to 1"),
            told("line 9", 3, "maxpaths is 4096, the limit is 4095"),
        ]),
        ("setting\tvalue\nsizesim\t2\nletters\t2\n".into(), vec![
            told("line 2", 2, "sizesim is 2, it must be 0 to 1"),
            told("line 3", 3, "letters is 2, it must be 0 or 1"),
            told("the whole sheet", 4, "the sheet has no row under the heading variant"),
        ]),
        (with("pileupmax\t13"), vec![told("line 8", 3, "pileupmax is 13, the limit is 12")]),
        (HEADINGS.into(), vec![told("the whole sheet", 4, "the sheet has no row under the heading variant")]),
        (table_of(65), vec![told("line 66", 5, "65 variants, the limit is 64")]),
        (table_of(1) + &parts_of(65), vec![told("line 68", 5, "65 parts, the limit is 64")]),
        (format!("{HEADINGS}A\t9\t9\t131073\tCCCC\nB\t8\t6\t-131073\tCCCC\n"), vec![
            told("line 3", 7, "\"B\" starts at 8 and ends at 6"),
            told("line 3", 8, "\"B\" starts at 8, but \"A\" on line 2 starts at 9; sort the rows by start, or call with --sort"),
            told("line 2", 9, "\"A\" has size 131073, the limit is 131072"),
            told("line 3", 9, "\"B\" has size -131073, the limit is 131072"),
        ]),
        // each row behind the first of its number, after falling starts and before sizes
        (numbered("A\t7\t1\t1\t1\tAGCT\n# a remark\nB\t8\t1\t1\t1\tAGCT\nC\t07\t0\t1\t1\tAGCT\nD\t7\t1\t1\t131073\tAGCT"), vec![
            told("line 5", 8, "\"C\" starts at 0, but \"B\" on line 4 starts at 1; sort the rows by start, or call with --sort"),
            told("line 5", 14, "\"C\" has record 7, and so has \"A\" on line 2; write a number that no other variant has"),
            told("line 6", 14, "\"D\" has record 7, and so has \"A\" on line 2; write a number that no other variant has"),
            told("line 6", 9, "\"D\" has size 131073, the limit is 131072"),
        ]),
        (numbered("A\t7\t1\t1\t1\tAGCT\nB\t7\t1\t1\t131073\tAGCT"), vec![
            told("line 3", 14, "\"B\" has record 7, and so has \"A\" on line 2; write a number that no other variant has"),
            told("line 3", 9, "\"B\" has size 131073, the limit is 131072"),
        ]),
        (format!("{HEADINGS}A\t1\t1\t1\t{}", "C".repeat(131_073)), vec![told("line 2", 13, "\"A\" has 131073 letters, the limit is 131072")]),
        (format!("{}Z\t99\t99\t1\t{}\n", table_of(66), "C".repeat(131_073)), vec![
            told("line 68", 13, "\"Z\" has 131073 letters, the limit is 131072"), told("line 66", 5, "67 variants, the limit is 64"),
        ]),
    ]
}

fn no_window(name: &str, has: &str, k: &str, instead: &str) -> String {
    let letters = if k == "1" { "letter" } else { "letters" };
    format!("\"{name}\" has {has} and k is {k}: it has no window of {k} {letters}, so nothing can match it; write all its letters,{instead} or leave the row out")
}

/// The same of variants with fewer letters than k; parts may have as few.
fn rows_without_a_window() -> Vec<(String, Vec<String>)> {
    let with = |k: u32, letters: &str| format!("{HEADINGS}A\t1\t1\t5\tAGCTAG\nB\t2\t2\t5\t{letters}\n\npart\tsize\tletters\nP\t5\t{letters}\nsetting\tvalue\nk\t{k}\n");
    let one = |k: u32, letters: &str, has: &str, instead: &str| (with(k, letters), vec![told("line 3", 16, &no_window("B", has, &k.to_string(), instead))]);
    vec![
        one(4, "AGC", "3 letters", " set k to 3 or less,"),
        one(2, "A", "1 letter", " set k to 1,"),
        one(6, "AGCTA", "5 letters", " set k to 5 or less,"),
        one(1, "", "no letters", ""),
        (with(3, "AG") + "one-to-one\tyes\n", vec![told("line 3", 16, &no_window("B", "2 letters", "3", " set k to 2 or less,"))]),
        (with(3, "AG") + "full\tno\n", vec![told("line 3", 16, &no_window("B", "2 letters", "3", " set k to 2 or less,"))]),
        // each row is told, and a size over its limit comes first
        (format!("{HEADINGS}A\t1\t1\t1\tA\nB\t2\t2\t131073\tAG\n"), vec![
            told("line 3", 9, "\"B\" has size 131073, the limit is 131072"),
            told("line 2", 16, &no_window("A", "1 letter", "4", " set k to 1,")),
            told("line 3", 16, &no_window("B", "2 letters", "4", " set k to 2 or less,")),
        ]),
    ]
}

/// The same of variants whose windows all hold a letter that was not read; parts may be so.
fn rows_of_unread_letters() -> Vec<(String, Vec<String>)> {
    let with = |k: u32, letters: &str| format!("{HEADINGS}A\t1\t1\t5\tAGCTAG\nB\t2\t2\t5\t{letters}\n\npart\tsize\tletters\nP\t5\t{letters}\nsetting\tvalue\nk\t{k}\nletters\t1\n");
    let words = |k: u32, has: &str, instead: &str| {
        let nothing = format!("it has no window of {k} letter{}, so nothing can match it", if k == 1 { "" } else { "s" });
        format!("\"B\" has {has} of them not A, G, C or T, and k is {k}: with letters 1 {nothing}; write the letters that were read,{instead} or leave the row out")
    };
    let as_a = " set letters to 0, so that each counts as A,";
    let one = |k: u32, letters: &str, has: &str, instead: &str| (with(k, letters), vec![told("line 3", 16, &words(k, has, instead))]);
    vec![
        one(4, "AGCNTAGn", "8 letters, 2", &format!(" set k to 3 or less,{as_a}")),
        one(2, "ANC", "3 letters, 1", &format!(" set k to 1,{as_a}")),
        one(1, "NN", "2 letters, 2", as_a),
        one(4, "AGN", "3 letters, 1", " set k to 2 or less,"),
        // too few letters, all of them read
        (with(4, "AGC"), vec![told("line 3", 16, &no_window("B", "3 letters", "4", " set k to 3 or less,"))]),
    ]
}

#[test]
fn each_refusal_with_its_line() {
    for (content, lines) in refused_sheets().into_iter().chain(rows_without_a_window()).chain(rows_of_unread_letters()) {
        let outcome = ask("check", &content, &[]);
        let text = outcome.text();
        let said: Vec<&str> = text.lines().filter(|line| !line.starts_with("warning")).collect();
        let reasons = if lines.len() == 1 { "1 reason".into() } else { format!("{} reasons", lines.len()) };
        let first = lines[0].split("refused ").nth(1).unwrap().split(':').next().unwrap();
        assert_eq!((outcome.status, said.last().copied()), (1, Some(&*format!("{reasons} to refuse; the library gives the first: refused {first}"))));
        assert_eq!(said[..said.len() - 1], lines);
        // the library refuses as foretold, and a picture is drawn all the same
        let answer = ask("answer", &content, &["--json"]);
        let document: serde_json::Value = serde_json::from_slice(&answer.out).unwrap();
        assert_eq!((answer.status, document["refused"].to_string().as_str()), (1, first));
        assert_eq!(document["reasons"].as_array().unwrap().len(), lines.len());
        let picture = ask("draw", &content, &[]);
        assert_eq!(picture.status, 1);
        assert!(picture.text().contains(&format!("No path: refused {first}, ")));
    }
}

/// An answer tells a refusal in the words of a check.
#[test]
fn an_answer_tells_the_row_without_a_window() {
    for (content, lines) in rows_without_a_window().into_iter().chain(rows_of_unread_letters()) {
        let answer = ask("answer", &content, &[]);
        assert_eq!(answer.status, 1);
        assert!(answer.text().ends_with(&(lines.join("\n") + "\n")), "{}", answer.text());
    }
}

#[test]
fn nothing_to_refuse() {
    let outcome = ask("check", GOOD, &[]);
    assert_eq!((outcome.status, outcome.text().as_str()), (0, "nothing to refuse: 2 variants, 1 part, a job of 155 bytes\n"));
}

#[test]
fn the_limits_themselves_are_accepted() {
    let six_letters = GOOD.replace("AGCT", "AGCTAG").replace("CCCCC", "CCCCCC");
    for row in [
        "k\t6", "maxpaths\t4095", "maxnodes\t65535", "fnmax\t65535", "pileupmax\t12", "minkfreq\t16777216", "letters\t0", "letters\t1", "sizesim\t1", "seqsim\t-0",
        "fpenalty\t1000", "gpenalty\t0",
    ] {
        for command in ["check", "answer"] {
            assert_eq!(ask(command, format!("{six_letters}setting\tvalue\n{row}\n"), &[]).status, 0, "{row}");
        }
    }
    let as_many_letters_as_k = format!("{HEADINGS}A\t5\t5\t1\tAGCT\nB\t5\t9\t1\tCCCC\n\npart\tsize\tletters\nP\t1\t\n");
    for content in [table_of(64) + &parts_of(64), format!("{HEADINGS}A\t1\t1\t-131072\tCCCC\n"), as_many_letters_as_k] {
        assert_eq!((ask("check", &content, &[]).status, ask("answer", &content, &[]).status), (0, 0));
    }
}
