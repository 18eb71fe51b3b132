//! Many tables into one file: its lines, its order, and what a stop leaves.
use crate::common::*;
use std::collections::HashMap;
use std::io::Write;
use std::path::{Path, PathBuf};
use std::process::{Child, Command, Stdio};
use std::time::{Duration, Instant};

const HEADING_LINE: &str =
    "file\tjob\thaplotype\tnumber\tof\tstatus\trefused\twords\tnames\trecords\tscore\tsizesim\tseqsim\tleft_out\tscored\tcomplete\twarnings\tmade_from\t\
     deeper\tdeeper_names\tdeeper_records\tdeeper_score\tdeeper_sizesim\tdeeper_seqsim\tdeeper_left_out\tdeeper_words\n";

/// A folder of a test's own and the table in it.
struct Place {
    folder: PathBuf,
    out: PathBuf,
}

impl Place {
    fn new(name: &str) -> Self {
        let folder = folder(&format!("batch-{name}"));
        let out = folder.join("answers.tsv");
        Self { folder, out }
    }

    fn put(&self, name: &str, content: impl AsRef<[u8]>) -> String {
        let path = self.folder.join(name);
        std::fs::write(&path, content).unwrap();
        path.to_str().unwrap().to_string()
    }

    fn run(&self, files: &[String], more: &[&str]) -> Outcome {
        let files: Vec<&str> = files.iter().map(String::as_str).collect();
        call(&[&["batch", "--out", self.out.to_str().unwrap()], more, &files[..]].concat(), b"")
    }

    fn beside(&self, ending: &str) -> PathBuf {
        self.folder.join(format!("answers.tsv.{ending}"))
    }

    fn table(&self) -> String {
        std::fs::read_to_string(&self.out).unwrap()
    }

    /// Each line by its headings.
    fn lines(&self) -> Vec<HashMap<String, String>> {
        let mut reader = csv::ReaderBuilder::new().delimiter(b'\t').from_path(&self.out).unwrap();
        reader.deserialize().map(|line| line.unwrap()).collect()
    }

    /// One cell of each line.
    fn cells(&self, heading: &str) -> Vec<String> {
        self.lines().iter().map(|line| line[heading].clone()).collect()
    }

    /// A run that waits for more names, and its standard input.
    fn waiting(&self) -> Child {
        let program = assert_cmd::cargo::cargo_bin("ndigo");
        Command::new(program).args(["batch", "--list", "-", "--out"]).arg(&self.out).stdin(Stdio::piped()).stderr(Stdio::piped()).spawn().unwrap()
    }
}

/// Sheets that take more and less time: of 1 to 9 rows in turn.
fn sheets(place: &Place, count: usize) -> Vec<String> {
    (0..count).map(|at| place.put(&format!("s{at}.tsv"), format!("{}\n{}", table_of(1 + at % 9), parts_of(1 + at % 3)))).collect()
}

fn names(files: &[String]) -> String {
    files.iter().map(|file| format!("{file}\n")).collect()
}

fn wait_for(what: &str, done: impl Fn() -> bool) {
    let begun = Instant::now();
    while !done() {
        assert!(begun.elapsed() < Duration::from_secs(60), "{what}");
        std::thread::sleep(Duration::from_millis(20));
    }
}

fn bytes_in(path: &Path) -> u64 {
    std::fs::metadata(path).map_or(0, |about| about.len())
}

#[test]
fn a_line_a_haplotype() {
    let place = Place::new("lines");
    let file = place.put("reef.tsv", NUMBERED);
    let done = place.run(&[file.clone()], &[]);
    let said = format!("{}: 1 table, 1 line: 1 answered, 0 without a path, 0 refused, 0 unread; 0 searches stopped early\n", place.out.display());
    assert_eq!((done.status, done.text(), done.err), (0, String::new(), said));
    let made_from = place.cells("made_from").remove(0);
    assert!(made_from.len() == 16 && made_from.bytes().all(|digit| digit.is_ascii_hexdigit()), "{made_from}");
    assert_eq!(place.table(), format!("{HEADING_LINE}{file}\t\t\t0\t1\tanswered\t\t\tB\t98\t1\t1\t1\t0\t4\tyes\t\t{made_from}\t\t\t\t\t\t\t\t\n"));
    let two = place.put("two.tsv", example("two-divers"));
    assert_eq!(place.run(&[two], &[]).status, 0);
    assert_eq!((place.cells("number"), place.cells("of")), (vec!["0".to_string(), "1".into()], vec!["2".to_string(), "2".into()]));
}

/// What `ndigo answer` says of every example, haplotype by haplotype.
#[test]
fn the_answers_are_those_of_answer() {
    let place = Place::new("answers");
    let files: Vec<String> = example_names().iter().map(|name| place.put(&format!("{name}.tsv"), example(name))).collect();
    place.run(&files, &[]);
    let named: Vec<&str> = files.iter().map(String::as_str).collect();
    let answered = call(&[&["answer", "--tsv"], &named[..]].concat(), b"").text();
    let mut reader = csv::ReaderBuilder::new().delimiter(b'\t').from_reader(answered.as_bytes());
    let wanted: Vec<HashMap<String, String>> = reader.deserialize().map(|line| line.unwrap()).collect();
    let read: Vec<HashMap<String, String>> = place.lines().into_iter().filter(|line| line["status"] != "unread").collect();
    assert_eq!(read.len(), wanted.len());
    for (line, wanted) in read.iter().zip(&wanted) {
        for heading in ["file", "haplotype", "refused", "names", "records", "score", "sizesim", "seqsim", "left_out", "scored", "complete"] {
            assert_eq!(line[heading], wanted[heading], "{heading} of {}", wanted["file"]);
        }
        let status = if !wanted["refused"].is_empty() { "refused" } else if wanted["target"] == "nothing" { "nothing" } else { "answered" };
        assert_eq!(line["status"], status);
    }
}

#[test]
fn the_order_is_that_of_the_input_whatever_the_number_of_jobs() {
    let place = Place::new("order");
    let files = sheets(&place, 60);
    assert_eq!(place.run(&files, &["--jobs", "1"]).status, 0);
    let one = place.table();
    assert_eq!(place.cells("file"), files);
    for jobs in ["2", "7"] {
        std::fs::remove_file(&place.out).unwrap();
        let done = place.run(&files, &["--jobs", jobs]);
        assert!(!done.err.contains("kept"), "{}", done.err);
        assert_eq!(place.table(), one);
    }
    assert_eq!(place.run(&files, &["--jobs", "0"]).status, 2);
}

#[test]
fn goes_on_after_a_bad_sheet() {
    let place = Place::new("bad");
    let refused = place.put("refused.tsv", format!("{HEADINGS}A\t9\t9\t5\tCCCC\nB\t8\t8\t4\tCCCC\n"));
    let faulty = place.put("faulty.tsv", GOOD.replace("\t30\t30\t", "\tthirty\t30\t"));
    let nothing = place.put("nothing.tsv", GOOD.replace("P\t5\tCCCCC", "P\t8\tCCCCCCCC"));
    let stopped = place.put("stopped.tsv", format!("{GOOD}setting\tvalue\nmaxpaths\t1\n"));
    let good = place.put("good.tsv", GOOD);
    let missing = place.folder.join("missing.tsv").to_str().unwrap().to_string();
    let done = place.run(&[refused.clone(), faulty, missing, nothing, stopped, good.clone()], &[]);
    assert_eq!(done.status, 2);
    assert!(done.err.ends_with(": 6 tables, 6 lines: 2 answered, 1 without a path, 1 refused, 2 unread; 1 search stopped early\n"), "{}", done.err);
    assert_eq!(place.cells("status"), ["refused", "unread", "unread", "nothing", "answered", "answered"]);
    assert_eq!(place.cells("complete"), ["", "", "", "yes", "no", "yes"]);
    let words = place.cells("words");
    assert_eq!(words[0], told("line 3", 8, "\"B\" starts at 8, but \"A\" on line 2 starts at 9; sort the rows by start, or call with --sort"));
    assert!(words[1].starts_with("line 3, column 2 (start): \"thirty\""), "{}", words[1]);
    assert_eq!(words[2], "cannot be read (No such file or directory (os error 2)); name a file that is there");
    assert!(place.cells("warnings")[0].starts_with("line 2: \"A\" has size 5 and 4 letters; "));
    assert_eq!(place.run(&[good.clone(), refused.clone()], &[]).status, 1);
    assert_eq!(place.run(&[good, refused], &["--sort"]).status, 0);
}

#[test]
fn jobs_one_behind_the_other() {
    let place = Place::new("jobs");
    let jobs: Vec<Vec<u8>> = ["worked-example", "two-divers", "first-dive"].iter().map(|name| job(example(name))).collect();
    let archive = place.put("dives.jobs", jobs.concat());
    assert_eq!(place.run(&[archive.clone()], &[]).status, 0);
    assert_eq!((place.cells("job"), place.cells("haplotype")), (["0", "1", "1", "2"].map(String::from).to_vec(), ["", "hap-0", "hap-1", ""].map(String::from).to_vec()));
    let together: Vec<Vec<String>> = ["names", "score", "scored"].iter().map(|heading| place.cells(heading)).collect();
    let alone: Vec<String> = jobs.iter().enumerate().map(|(at, job)| place.put(&format!("{at}.job"), job)).collect();
    assert_eq!(place.run(&alone, &[]).status, 0);
    assert_eq!(together, ["names", "score", "scored"].iter().map(|heading| place.cells(heading)).collect::<Vec<_>>());
    assert_eq!(place.cells("job"), ["0"; 4]);
}

/// Jobs of both editions may stand in one file, and either may be the first; the records are each job's own.
#[test]
fn jobs_of_both_editions() {
    let place = Place::new("editions");
    let (one, two) = (worked_example(), second_edition(0, [4711, 98]));
    let mixed = [&two[..42], &one[41..]].concat();
    let jobs = [one, two, second_edition(1, [0, 1]), second_edition(0, [7, 7]), mixed, second_edition(0, [98, 0])];
    let files = [place.put("first.jobs", jobs.concat()), place.put("second.jobs", jobs[1..].concat())];
    assert_eq!(place.run(&files, &[]).status, 2);
    let both = |cells: [&'static str; 6]| [&cells[..], &cells[1..]].concat();
    assert_eq!(place.cells("job"), [&["0", "1", "2", "3", "4", "5"][..], &["0", "1", "2", "3", "4"]].concat());
    assert_eq!(place.cells("records"), both(["0", "4711", "0", "", "", "98"]));
    assert_eq!(place.cells("status"), both(["answered", "answered", "answered", "refused", "unread", "answered"]));
    assert_eq!(place.cells("refused"), both(["", "", "", "14", "22", ""]));
    let words = place.cells("words");
    assert_eq!(words[3], told("the whole job", 14, "\"row-1\" has record 7, and so has \"row-0\"; write a number that no other variant has"));
    assert!(words[4].starts_with(&format!("refused 22: out of place: the record at byte {} of the file, ", 155 + 3 * 164 + 42)), "{}", words[4]);
}

/// A sheet's job has the sheet's answer, its records among it, in either edition.
#[test]
fn a_job_answers_as_its_sheet() {
    let place = Place::new("as-its-sheet");
    let told = ["records", "refused", "score", "sizesim", "seqsim", "left_out", "scored", "complete"];
    let names: Vec<String> = example_names().into_iter().filter(|name| ask("check", example(name), &[]).status < 2).collect();
    let sheets: Vec<String> = names.iter().map(|name| place.put(&format!("{name}.tsv"), example(name))).collect();
    place.run(&sheets, &[]);
    let wanted = told.map(|heading| place.cells(heading));
    let jobs: Vec<String> = names.iter().map(|name| place.put(&format!("{name}.job"), job(example(name)))).collect();
    place.run(&jobs, &[]);
    assert_eq!(told.map(|heading| place.cells(heading)), wanted);
}

#[test]
fn a_spoilt_job_among_jobs() {
    let place = Place::new("spoilt");
    let worked = job(example("worked-example"));
    let mut flag = worked.clone();
    flag[2] = 2;
    // the records still tell where it ends
    let one = place.put("flag.jobs", [&worked[..], &flag, &worked].concat());
    assert_eq!(place.run(&[one], &[]).status, 2);
    assert_eq!((place.cells("status"), place.cells("refused")), (["answered", "unread", "answered"].map(String::from).to_vec(), ["", "24", ""].map(String::from).to_vec()));
    let again = "make the job again with `ndigo job SHEET`";
    assert_eq!(place.cells("words")[1], format!("refused 24: {}: the record at byte 155 of the file, in the job that begins at byte 155; {again}", refusal_words(24)));
    let lost = "; where the next job would begin cannot be told, so nothing behind it was read: make the file again from whole jobs";
    for (spoilt, number, at) in [([&worked[..], &[9], &worked].concat(), 20, 155), ([&worked[..], &worked[..100]].concat(), 21, 155 + 84)] {
        let file = place.put("lost.jobs", spoilt);
        let good = place.put("good.tsv", GOOD);
        assert_eq!(place.run(&[file, good], &[]).status, 2);
        assert_eq!(place.cells("status"), ["answered", "unread", "answered"]);
        let words = place.cells("words").remove(1);
        assert_eq!(words, format!("refused {number}: {}: the record at byte {at} of the file, in the job that begins at byte 155{lost}", refusal_words(number)));
    }
}

/// Its words name its place, and that is another where a job before it became longer.
#[test]
fn a_spoilt_job_that_moved() {
    let place = Place::new("moved");
    let (short, long) = (job(example("worked-example")), job(example("two-divers")));
    let mut flag = short.clone();
    flag[2] = 2;
    let file = place.put("dives.jobs", [&short[..], &flag, &short].concat());
    place.run(&[file], &[]);
    let file = place.put("dives.jobs", [&long[..], &flag, &short].concat());
    let again = place.run(&[file], &[]);
    assert!(again.err.contains(": 3 tables (1 of them kept from an earlier run), "), "{}", again.err);
    let unread = place.lines().into_iter().find(|line| line["status"] == "unread").unwrap();
    assert!(unread["words"].contains(&format!("in the job that begins at byte {}; ", long.len())), "{}", unread["words"]);
}

#[test]
fn a_job_whose_starts_fall() {
    let place = Place::new("falls");
    let job = job(format!("{HEADINGS}A\t9\t9\t4\tCCCC\nB\t8\t8\t4\tCCCC\n\npart\tsize\tletters\nP\t4\tCCCC\n"));
    let file = place.put("falls.job", job);
    assert_eq!(place.run(&[file.clone()], &[]).status, 1);
    let reason = "\"row-1\" starts at 8, but \"row-0\" starts at 9; sort the rows by start, or call with --sort";
    assert_eq!(place.cells("words"), [told("the whole job", 8, reason)]);
    assert_eq!(place.run(&[file], &["--sort"]).status, 0);
    let said = "note: the rows were sorted by start: 2 rows changed place, and row numbers are those of the sorted table";
    assert!(place.cells("warnings")[0].starts_with(said), "{}", place.table());
}

#[test]
fn what_is_neither_sheet_nor_job() {
    let place = Place::new("neither");
    let mut spoilt = job(example("worked-example"));
    spoilt[0] = 7;
    let spoilt = place.put("spoilt.job", spoilt);
    assert_eq!(place.run(&[place.put("good.tsv", GOOD)], &[]).status, 0);
    let own = place.put("own.tsv", place.table());
    let inside = place.folder.to_str().unwrap().to_string();
    assert_eq!(place.run(&[spoilt, own, inside], &[]).status, 2);
    let words = place.cells("words");
    assert!(words[0].ends_with("; or, if it is a job, its first byte must be 1, or 17 in edition 2: make it again with `ndigo job SHEET`"), "{}", words[0]);
    assert_eq!(words[1], "this is the output of ndigo batch; leave it out");
    assert_eq!(words[2], "cannot be read (Is a directory (os error 21)); name the sheets in it");
}

#[test]
fn a_list_without_names() {
    let place = Place::new("empty-list");
    let list = place.put("names.txt", "\n\r\n");
    for (list, shown) in [(list.as_str(), list.as_str()), ("-", "standard input")] {
        let done = place.run(&[], &["--list", list]);
        assert_eq!((done.status, done.err, place.out.exists()), (2, format!("ndigo: {shown}: the list names no file; write their names there, one a line\n"), false));
    }
    assert_eq!(place.run(&[place.put("good.tsv", GOOD)], &["--list", &list]).status, 0);
}

/// What was answered is not lost where the table cannot be written to its end.
#[test]
fn no_room_for_the_table() {
    let place = Place::new("no-room");
    let files = sheets(&place, 60);
    let list = place.put("names.txt", names(&files));
    let program = assert_cmd::cargo::cargo_bin("ndigo");
    let limited = "trap '' XFSZ; ulimit -f 8; exec \"$@\"";
    let done = Command::new("sh").args(["-c", limited, "sh"]).arg(program).args(["batch", "--list", &list, "--out"]).arg(&place.out).output().unwrap();
    let (out, rest) = (place.out.display(), place.beside("unfinished"));
    let why = "cannot be written (File too large (os error 27))";
    let said = format!("{out}: {why}; what was answered stands in {}: start again to go on, or name another --out\n", rest.display());
    assert_eq!((done.status.code(), String::from_utf8(done.stderr).unwrap(), place.out.exists()), (Some(3), said, false));
    let again = place.run(&files, &[]);
    assert!(again.status == 0 && again.err.contains(" of them kept from an earlier run), 60 lines"), "{}", again.err);
}

#[test]
fn names_from_a_list() {
    let place = Place::new("list");
    let files = sheets(&place, 5);
    let list = place.put("names.txt", format!("{}\r\n\n{}", files[1], names(&files[2..])));
    let done = place.run(&files[..1], &["--list", &list]);
    assert_eq!(done.status, 0, "{}", done.err);
    assert_eq!(place.cells("file"), files);
    let done = place.run(&[], &["--list", "missing.txt"]);
    assert_eq!((done.status, done.err.as_str()), (2, "ndigo: missing.txt: the list cannot be read (No such file or directory (os error 2)); name a file that is there\n"));
    assert_eq!(place.run(&["-".into()], &["--list", "-"]).status, 2);
    let odd = place.put("odd.txt", b"\xff.tsv\n");
    assert_eq!(place.run(&[], &["--list", &odd]).status, 2);
    assert!(place.cells("words")[0].starts_with("the name on line 1 of "), "{}", place.table());
}

/// The lines of a run that was stopped: so many bytes of a whole one.
fn stop_after(place: &Place, bytes: usize) {
    let whole = std::fs::read(&place.out).unwrap();
    std::fs::write(place.beside("unfinished"), &whole[..bytes]).unwrap();
    std::fs::remove_file(&place.out).unwrap();
}

#[test]
fn does_only_what_is_missing() {
    let place = Place::new("missing");
    let mut files = sheets(&place, 12);
    files.push(place.put("two.tsv", example("two-divers")));
    files.push(place.put("quoted \"name\".tsv", GOOD.replace('B', "\"B, \"\"old\"\"\"")));
    place.run(&files, &[]);
    let whole = place.table();
    // wherever it was stopped: at every line's end, inside one, and inside a table's lines
    let ends: Vec<usize> = whole.match_indices('\n').map(|(at, _)| at + 1).collect();
    // of 14 tables the last but one has two lines, and a line is whole without its end
    let table_ends = [&ends[1..13], &ends[14..]].concat();
    for stop in ends.iter().flat_map(|&end| [end - 1, end, end + 3]).filter(|&stop| stop <= whole.len()) {
        stop_after(&place, stop);
        let again = place.run(&files, &[]);
        assert_eq!((again.status, place.table() == whole), (0, true), "stopped after {stop} bytes");
        let kept = match table_ends.iter().filter(|&&end| end - 1 <= stop).count() {
            0 => ": 14 tables, 15 lines: ".into(),
            kept => format!(": 14 tables ({kept} of them kept from an earlier run), 15 lines: "),
        };
        assert!(again.err.contains(&kept), "stopped after {stop} bytes: {}", again.err);
    }
    assert!(!place.beside("unfinished").exists() && !place.beside("kept").exists());
    // a sheet that was mended, one more, and one less
    place.put("s3.tsv", GOOD);
    files.remove(5);
    files.insert(0, place.put("new.tsv", NUMBERED));
    let again = place.run(&files, &[]);
    assert!(again.err.contains(": 14 tables (12 of them kept from an earlier run), "), "{}", again.err);
    assert_eq!(place.cells("names")[4], "B");
    // asked in another way, nothing is kept
    assert!(!place.run(&files, &["--sort"]).err.contains("kept"));
}

#[test]
fn a_file_named_twice_has_its_lines_twice() {
    let place = Place::new("twice");
    let file = place.put("two.tsv", example("two-divers"));
    for turn in 0..2 {
        let done = place.run(&[file.clone(), file.clone()], &[]);
        assert_eq!((done.err.contains("(2 of them kept"), place.lines().len()), (turn == 1, 4));
    }
}

#[test]
fn killed_and_started_again() {
    let place = Place::new("killed");
    let files = sheets(&place, 20);
    let mut child = place.waiting();
    let mut input = child.stdin.take().unwrap();
    input.write_all(names(&files[..10]).as_bytes()).unwrap();
    wait_for("lines in the unfinished file", || bytes_in(&place.beside("unfinished")) > HEADING_LINE.len() as u64 + 60);
    // another run must not write there too
    let second = place.run(&files, &[]);
    assert_eq!((second.status, second.err), (3, format!("ndigo: {}: another run is writing this; wait for it, or name another --out\n", place.out.display())));
    child.kill().unwrap();
    child.wait().unwrap();
    assert!(!place.out.exists());
    let again = place.run(&files, &[]);
    assert!(again.err.contains(" of them kept from an earlier run), 20 lines: 20 answered"), "{}", again.err);
    assert_eq!(place.cells("file"), files);
    assert!(!place.beside("unfinished").exists() && !place.beside("kept").exists());
}

#[test]
fn nobodys_own_file_is_written_over() {
    let place = Place::new("own");
    std::fs::write(&place.out, GOOD).unwrap();
    let file = place.put("reef.tsv", GOOD);
    let done = place.run(&[file.clone()], &[]);
    let said = format!("ndigo: {}: this file is there, and is no output of ndigo batch of this edition; move it away, or name another --out\n", place.out.display());
    assert_eq!((done.status, done.err, place.table().as_str()), (3, said, GOOD));
    let nowhere = place.folder.join("no/answers.tsv");
    let done = call(&["batch", &file, "--out", nowhere.to_str().unwrap()], b"");
    assert_eq!(done.status, 3);
    assert!(done.err.contains("cannot be written (No such file or directory (os error 2)); name a file in a folder that is there"), "{}", done.err);
}

#[test]
fn nobodys_own_kept_file_is_taken_away() {
    let place = Place::new("own-kept");
    let file = place.put("reef.tsv", GOOD);
    for ending in ["kept", "unfinished"] {
        std::fs::write(place.beside(ending), GOOD).unwrap();
        let done = place.run(&[file.clone()], &[]);
        let said = format!("ndigo: {}: this file is there, and is no output of ndigo batch of this edition; move it away, or name another --out\n", place.beside(ending).display());
        assert_eq!((done.status, done.err), (3, said));
        assert_eq!((std::fs::read_to_string(place.beside(ending)).unwrap().as_str(), place.out.exists()), (GOOD, false));
        std::fs::remove_file(place.beside(ending)).unwrap();
    }
}

/// What a run that was stopped twice keeps: the headings and each table once.
#[test]
fn kept_once() {
    let place = Place::new("kept-once");
    let files = sheets(&place, 6);
    place.run(&files, &[]);
    let whole = place.table();
    let ends: Vec<usize> = whole.match_indices('\n').map(|(at, _)| at + 1).collect();
    std::fs::remove_file(&place.out).unwrap();
    // cut short in its fifth table
    std::fs::write(place.beside("kept"), &whole[..ends[4] + 9]).unwrap();
    std::fs::write(place.beside("unfinished"), &whole[..ends[5]]).unwrap();
    let mut child = place.waiting();
    child.stdin.as_mut().unwrap().write_all(names(&files[..1]).as_bytes()).unwrap();
    wait_for("the lines of the stopped run", || bytes_in(&place.beside("kept")) == ends[5] as u64);
    child.kill().unwrap();
    child.wait().unwrap();
    assert_eq!(std::fs::read_to_string(place.beside("kept")).unwrap(), whole[..ends[5]]);
    let again = place.run(&files, &[]);
    assert!(again.err.contains(": 6 tables (5 of them kept from an earlier run), "), "{}", again.err);
    assert_eq!((place.table(), place.beside("kept").exists()), (whole, false));
}

#[test]
fn only_an_ordinary_file_is_written() {
    let place = Place::new("ordinary");
    let file = place.put("reef.tsv", GOOD);
    let out = |path: &str| call(&["batch", &file, "--out", path], b"");
    let pipe = place.folder.join("pipe");
    assert!(Command::new("mkfifo").arg(&pipe).status().unwrap().success());
    for name in [pipe.to_str().unwrap(), "/dev/full", place.folder.to_str().unwrap()] {
        let done = out(name);
        let resolved = std::fs::canonicalize(name).unwrap();
        assert_eq!((done.status, done.err), (3, format!("ndigo: {}: this is no ordinary file; the table appears by a rename, so name a file\n", resolved.display())));
    }
    let done = out("-");
    assert_eq!((done.status, done.err.as_str()), (3, "ndigo: -: the table appears when it is whole, so it cannot go to standard output; name a file\n"));
    // the file behind a link is written, and the link stays
    let link = place.folder.join("link.tsv");
    std::os::unix::fs::symlink(&place.out, &link).unwrap();
    assert_eq!(out(link.to_str().unwrap()).err, format!("ndigo: {}: this is a link to what is not there; name a file\n", link.display()));
    assert_eq!(place.run(&[file.clone()], &[]).status, 0);
    let whole = place.table();
    std::fs::write(&place.out, HEADING_LINE).unwrap();
    assert_eq!(out(link.to_str().unwrap()).status, 0);
    assert_eq!((place.table(), link.is_symlink()), (whole, true));
    // the gate's last step wants no link in the checkout
    std::fs::remove_file(link).unwrap();
}

/// Only where a search stopped early is there anything to look for; what is proved stands in its own columns either way.
#[test]
fn deeper_where_a_search_stopped_early() {
    let place = Place::new("deeper");
    let none = format!("{GOOD}Q\t-5\tCCCCC\nsetting\tvalue\nmaxpaths\t0\nseqsim\t0\nfnmax\t0\n");
    let files = [place.put("all.tsv", GOOD), place.put("better.tsv", example("mistake-stopped-early")), place.put("none.tsv", none)];
    let outcome = place.run(&files, &["--deeper", "--seconds", "60"]);
    assert_eq!(outcome.status, 0, "{}", outcome.err);
    assert!(outcome.err.ends_with("2 searches stopped early, and deeper a better path was found for 1 of 2\n"), "{}", outcome.err);
    let looked = [("deeper", ["", "better", "none"]), ("deeper_names", ["", "left,right", ""]), ("deeper_records", ["", "0,2", ""]), ("deeper_score", ["", "1", ""])];
    for (heading, cells) in looked {
        assert_eq!(place.cells(heading), cells, "{heading}");
    }
    let words = place.cells("deeper_words");
    assert!(words[1].starts_with("found outside the proved search; checked by it: a path of this table, with exactly this score; its bounds"), "{}", words[1]);
    assert!(words[2].starts_with("its bounds, which are not proved, rule out"), "{}", words[2]);
    let proved = |place: &Place| ["names", "score", "scored", "complete"].map(|heading| place.cells(heading));
    let before = proved(&place);
    assert!(place.run(&files, &["--deeper", "--seconds", "60"]).err.contains("3 of them kept"));
    let plain = place.run(&files, &[]);
    assert!(!plain.err.contains("kept") && plain.err.ends_with("2 searches stopped early\n"), "{}", plain.err);
    assert_eq!((place.cells("deeper"), proved(&place)), (vec![String::new(); 3], before));
}
