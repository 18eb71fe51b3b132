//! Sheets as people have them.
use crate::common::*;

fn same_job(content: impl AsRef<[u8]>) {
    let outcome = ask("job", &content, &[]);
    assert_eq!(outcome.status, 0, "{}", outcome.err);
    assert_eq!(outcome.out, job(GOOD), "{:?}", String::from_utf8_lossy(content.as_ref()));
}

#[test]
fn line_ends() {
    same_job(GOOD.replace('\n', "\r\n"));
    same_job(GOOD.replace('\n', "\r"));
    same_job(GOOD.trim_end());
}

#[test]
fn byte_order_marks() {
    let wide = |swap: bool| GOOD.encode_utf16().flat_map(|unit| if swap { unit.to_be_bytes() } else { unit.to_le_bytes() }).collect::<Vec<u8>>();
    same_job([b"\xef\xbb\xbf", GOOD.as_bytes()].concat());
    same_job([b"\xff\xfe".to_vec(), wide(false)].concat());
    same_job([b"\xfe\xff".to_vec(), wide(true)].concat());
}

#[test]
fn every_delimiter() {
    for delimiter in [",", ";", "  ", "     ", " ", " , ", ";\t"] {
        same_job(GOOD.replace('\t', delimiter));
    }
}

/// The name and the letters of each variant.
fn rows(text: &str) -> Vec<(String, String)> {
    let read = ndigo::sheet::read(text.as_bytes());
    assert_eq!(read.faults, vec![]);
    read.sheet.variants.iter().map(|v| (v.name().to_string(), String::from_utf8(v.sequence.letters.clone()).unwrap())).collect()
}

#[test]
fn blanks_inside_cells() {
    let pair = |name: &str, letters: &str| (name.to_string(), letters.to_string());
    let two = "variant  start  end  size  letters  remark\nReef A   10     10   4     AGAG\nReef B   20     20   4     CCCC     two words\nReef-LONG 30    30   4     TTTT     three more words\n";
    assert_eq!(rows(two), [pair("Reef A", "AGAG"), pair("Reef B", "CCCC"), pair("Reef-LONG", "TTTT")]);
    let one = "variant start end size letters remark\nA 10 10 4 AGAG a remark of many words\n\"Reef B\" 20 20 4 CCCC\n";
    assert_eq!(rows(one), [pair("A", "AGAG"), pair("Reef B", "CCCC")]);
    let settings = ndigo::sheet::read(b"setting  value\nk        3\nmaxpaths 63\n");
    assert_eq!((settings.faults, settings.sheet.settings.words[0], settings.sheet.settings.words[4]), (vec![], 3, 63));
}

#[test]
fn each_heading_row_tells_its_own_delimiter() {
    let (variants, parts) = GOOD.split_once("\n\n").unwrap();
    same_job(format!("{}\n\n{}", variants.replace('\t', ","), parts.replace('\t', "   ")));
}

#[test]
fn quoted_cells() {
    let quoted = |line: &str| line.split('\t').map(|cell| format!("\"{cell}\"")).collect::<Vec<_>>().join(",");
    same_job(GOOD.lines().map(quoted).collect::<Vec<_>>().join("\n"));
    let with_tab = GOOD.replacen("letters\n", "letters\tremark\n", 1).replace("AGCT", "AGCT\t\"a\tb\"");
    same_job(with_tab);
}

#[test]
fn numbers_as_people_write_them() {
    same_job(GOOD.replace("\t5\t", "\t+5\t").replace("-4", "−4"));
    let far = |number: &str| format!("{HEADINGS}A\t{number}\t1200\t5\tCCCCC\n");
    assert_eq!(job(far("1,200")), job(far("1200")));
    let outcome = ask("check", far("1,200"), &[]);
    assert!(outcome.text().starts_with("note    commas taken as parting thousands: 1,200 as 1200 (line 2)\n"), "{}", outcome.text());
    // in a sheet of commas a quoted cell alone can hold one
    assert_eq!(job(far("\"1,200\"").replace('\t', ",")), job(far("1200")));
    let unquoted = |row: &str| ask("job", format!("{HEADINGS}{row}\n").replace('\t', ","), &[]);
    let said = "standard input: line 2, column 2 (start): \"1,200\" is parted by its own comma; quote it: \"1,200\"\n";
    for row in ["A,1,200,1200,5,CCCCC", "A,1,200,1,200,5,CCCCC", "A,1,200,1200,1,005,CCCCC"] {
        let outcome = unquoted(row);
        assert_eq!((outcome.status, outcome.err.as_str()), (2, said), "{row}");
    }
    // a cell too many is no number that was parted
    assert!(unquoted("A,10,140,4,AGAG,stray").err.contains("column 6: no heading stands above this cell, \"stray\""));
}

#[test]
fn blank_lines_padding_and_remarks() {
    same_job(format!("\n\t\t\n{}", GOOD.replace('\n', "\t\t\t\n\n \t \n")));
    same_job(format!("# a remark, with a comma\n{}", GOOD.replace("A\t10", " A \t 10 ")));
    same_job(GOOD.replace('\t', ",").replace("A,10", "# a remark, with commas, and words\nA,10"));
}

/// Titles and remarks may hold the words of headings.
#[test]
fn prose_is_neither_heading_nor_row() {
    for title in [
        "# start and end count from 0", "Survey of 3 May: start and end from BED", "Variant start positions from the May survey",
        "Table of size and letters by Anna", "Parts: the letters as the reads have them",
    ] {
        same_job(format!("{title}\n{GOOD}"));
    }
    same_job(GOOD.replace("B\t30", "# start and end count from 0\nB\t30"));
    for words in ["size unsure, see start of dive", "size,start,end", "size  start  end"] {
        same_job(GOOD.replacen("letters\n", "letters\tremark\n", 1).replace("AGCT", &format!("AGCT\t{words}")));
        same_job(GOOD.replace("size\tletters\nP", "size\tletters\tremark\nP").replace("P\t5\tCCCCC", &format!("P\t5\tCCCCC\t{words}")));
        same_job(format!("setting\tvalue\tremark\nk\t4\t{words}\n{GOOD}"));
    }
    // a heading row that is made a remark is no prose
    for hidden in ["#name start end size letters", "#variant\tstart\tend\tsize\tletters", "settings value", "name size letters"] {
        let outcome = ask("check", format!("{GOOD}{hidden}\n"), &[]);
        assert!(outcome.status == 2 && outcome.err.contains("begins what looks like a heading row"), "{hidden}: {}", outcome.err);
    }
    // nor is one with many columns of the station's own
    same_job(GOOD.replace("size\tletters\nP", "size\tletters\tdepth\tsalt\theat\nP").replace('\t', " "));
}

#[test]
fn columns_and_sections_in_another_order() {
    same_job("part\tletters\tsize\nP\tCCCCC\t5\nVariant\tSIZE\tend\tletters\tstart\nA\t-4\t14\tAGCT\t10\nB\t5\t30\tCCCCC\t30\n");
}

#[test]
fn unknown_columns_and_lines_above_are_passed_over_with_one_note_each() {
    let content = format!("Cruise 7, second dive\nby Anna\n{}", GOOD.replace("letters\nA", "letters\tdepth\tnegativ\nA"));
    same_job(&content);
    let outcome = ask("check", content, &[]);
    let notes: Vec<String> = outcome.text().lines().filter(|line| line.starts_with("note")).map(str::to_string).collect();
    assert_eq!(notes, [
        "note    2 lines above the first heading row passed over: line 1 to 2, \"Cruise 7, second dive\"",
        "note    2 columns not known and passed over: \"depth\" (line 3, column 6), \"negativ\" (line 3, column 7, is \"negative\" meant?)",
    ]);
}

#[test]
fn rows_are_sorted_where_asked() {
    let mixed = GOOD.replace("A\t10\t14\t-4\tAGCT\nB\t30\t30\t5\tCCCCC\n", "B\t30\t30\t5\tCCCCC\nA\t10\t14\t-4\tAGCT\n");
    assert_eq!(ask("check", &mixed, &[]).status, 1);
    let sorted = ask("job", &mixed, &["--sort"]);
    assert_eq!((sorted.status, sorted.out), (0, job(GOOD)));
    assert!(sorted.err.contains("note: the rows were sorted by start: 2 rows changed place"), "{}", sorted.err);
    assert!(ask("answer", &mixed, &["--sort"]).text().contains("B  30 to 30, size 5 (line 2 of the sheet, row 1 from 0)"));
}

#[test]
fn the_record_column_may_stand_anywhere() {
    let last = GOOD.replacen("letters\n", "letters\tRecord\n", 1).replace("AGCT", "AGCT\t0").replace("30\t5\tCCCCC", "30\t5\tCCCCC\t 007 ");
    assert_eq!(job(&last), job(NUMBERED.replace("4711", "0").replace("98", "7")));
    let records = ndigo::sheet::read(last.as_bytes()).sheet.variants.iter().map(|variant| variant.record).collect::<Vec<_>>();
    assert_eq!(records, [Some(0), Some(7)]);
}

#[test]
fn without_the_column_a_row_has_its_row_number() {
    let sheet = ndigo::sheet::read(GOOD.as_bytes()).sheet;
    assert_eq!(sheet.variants.iter().map(|variant| variant.record).collect::<Vec<_>>(), [None, None]);
    assert_eq!([sheet.number(0), sheet.number(1)], [0, 1]);
}

#[test]
fn names_in_other_scripts_and_quotes() {
    for name in ["Ndigo-Mārr 礁", "the \"old\" reef", "part"] {
        let quoted = format!("\"{}\"", name.replace('"', "\"\""));
        let read = ndigo::sheet::read(GOOD.replace("A\t10", &format!("{quoted}\t10")).as_bytes());
        assert_eq!(read.sheet.variants[0].name(), name);
    }
}

#[test]
fn several_files_in_their_order() {
    let folder = folder("several");
    let files: Vec<String> = (0..40).map(|at| folder.join(format!("s{at}.tsv")).to_string_lossy().into_owned()).collect();
    for (at, file) in files.iter().enumerate() {
        std::fs::write(file, if at == 7 { "nothing".into() } else { GOOD.replace("B\t30", &format!("B{at}\t30")) }).unwrap();
    }
    let arguments: Vec<&str> = ["answer", "--tsv"].into_iter().chain(files.iter().map(String::as_str)).chain(["-"]).collect();
    let outcome = call(&arguments, GOOD.as_bytes());
    let names: Vec<String> = outcome.text().lines().skip(1).map(|line| line.split('\t').nth(2).unwrap().to_string()).collect();
    let wanted: Vec<String> = (0..40).filter(|at| *at != 7).map(|at| format!("B{at}")).chain(["B".into()]).collect();
    assert_eq!((outcome.status, names), (2, wanted));
    let into = folder.join("made");
    let made = call(&["job", &files[0], &files[1], "--into", into.to_str().unwrap()], b"");
    assert_eq!((made.status, std::fs::read(into.join("s1.job")).unwrap()), (0, job(GOOD)));
    // a sheet may be somebody's work
    let (source, shown) = (into.join("s1.job"), into.join("s1.tsv"));
    let show = |folder: &std::path::Path| call(&["show", source.to_str().unwrap(), "--into", folder.to_str().unwrap()], b"");
    assert_eq!((show(&into).status, job(std::fs::read(&shown).unwrap())), (0, job(GOOD)));
    let again = show(&into);
    assert_eq!(again.status, 3);
    assert!(again.err.contains("s1.tsv: cannot be written (File exists"), "{}", again.err);
    assert_eq!(call(&["job", &files[0], &files[1]], b"").status, 2);
    assert_eq!(call(&["job", &files[0], &files[0], "--into", into.to_str().unwrap()], b"").status, 2);
    assert_eq!(call(&["check", "-", "-"], b"").status, 2);
    let titled = call(&["answer", &files[0], &files[1]], b"").text();
    assert!(titled.starts_with(&format!("== {}\npath ", files[0])) && titled.contains(&format!("\n\n== {}\n", files[1])));
}
