use crate::common::*;
use std::path::{Path, PathBuf};
use std::process::{Command, Stdio};

/// A folder of its own, taken away when the test is done.
struct Folder(PathBuf);

impl Folder {
    fn new(name: &str) -> Self {
        let path = std::env::temp_dir().join(format!("ndigo-book-{name}-{}", std::process::id()));
        let _ = std::fs::remove_dir_all(&path);
        std::fs::create_dir_all(&path).unwrap();
        Self(path)
    }

    fn file(&self, name: &str) -> String {
        self.0.join(name).display().to_string()
    }

    fn names(&self) -> Vec<String> {
        let mut names: Vec<String> = std::fs::read_dir(&self.0).unwrap().map(|entry| entry.unwrap().file_name().to_string_lossy().into_owned()).collect();
        names.sort();
        names
    }
}

impl Drop for Folder {
    fn drop(&mut self) {
        let _ = std::fs::remove_dir_all(&self.0);
    }
}

fn saved(book: &str, settings: &str) -> Outcome {
    call(&["book", "save", book, "-"], format!("setting\tvalue\n{settings}").as_bytes())
}

/// A book of seqsim 0.9, then 0.8, then 0.9 again with k 3.
fn three(folder: &Folder) -> String {
    let book = folder.file("sea.book");
    for settings in ["seqsim\t0.9\n", "seqsim\t0.8\n", "k\t3\n"] {
        let outcome = saved(&book, settings);
        assert_eq!(outcome.status, 0, "{}", outcome.err);
    }
    book
}

#[test]
fn versions_are_listed_with_what_changed() {
    let folder = Folder::new("listed");
    let book = three(&folder);
    let outcome = call(&["book", "restore", &book, "1"], b"");
    let told = format!("version 1 saved again as version 4 of {book}: k from 3 to 4 (the same as version 1)\n");
    assert_eq!((outcome.status, outcome.text()), (0, told));
    let list = call(&["book", "list", &book], b"").text();
    let lines: Vec<&str> = list.lines().collect();
    assert!(lines[0].starts_with("version   1  k 4, squish no, one-to-one no, full yes, maxpaths 4095,"), "{list}");
    assert!(lines[0].contains("seqsim 0.9"), "{list}");
    assert_eq!(lines[1..], ["version   2  seqsim from 0.9 to 0.8", "version   3  k from 4 to 3, seqsim from 0.8 to 0.9", "version   4  k from 3 to 4 (the same as version 1)"]);
    assert_eq!(std::fs::read(&book).unwrap().len(), 4 * 43);
    // nothing is left over but the lock
    assert_eq!(folder.names(), ["sea.book", "sea.book.lock"]);
}

#[test]
fn the_same_settings_again_are_a_version_too() {
    let folder = Folder::new("same");
    let book = folder.file("sea.book");
    saved(&book, "");
    assert_eq!(saved(&book, "").text(), format!("saved as version 2 of {book}: nothing changed from version 1\n"));
}

#[test]
fn an_answer_says_which_version_it_used() {
    let folder = Folder::new("answer");
    let book = three(&folder);
    let asked = format!("{book}:3");
    let plain = ask("answer", GOOD.replace("variant\tstart", "setting\tvalue\nk\t3\n\nvariant\tstart"), &[]).text();
    let outcome = ask("answer", GOOD, &["--settings", &asked]);
    let note = format!("note    the settings are version 3 of {book}\n");
    assert_eq!((outcome.status, outcome.text().starts_with(&note)), (0, true), "{}", outcome.text());
    // the lines of the sheet stand three further down, where it names its settings itself
    let moved = |text: &str| text.replace("(line 6 ", "(line 3 ");
    assert_eq!(outcome.text().replacen(&note, "", 1), moved(&plain));
    let json = ask("answer", GOOD, &["--json", "--settings", &asked]).text();
    assert!(json.contains(&format!("\"settings\":\"version 3 of {book}\"")), "{json}");
    assert!(!ask("answer", GOOD, &["--json"]).text().contains("\"settings\""));
    let table = ask("answer", GOOD, &["--tsv", "--settings", &asked]).text();
    let cells: Vec<Vec<&str>> = table.lines().map(|line| line.split('\t').collect()).collect();
    assert_eq!((cells[0].last(), cells[1].last()), (Some(&"settings"), Some(&&*format!("version 3 of {book}"))));
    assert_eq!(cells[0].len(), cells[1].len());
    for command in ["check", "draw", "job"] {
        assert_eq!(ask(command, GOOD, &["--settings", &asked]).status, 0);
    }
    assert_ne!(ask("job", GOOD, &["--settings", &asked]).out, job(GOOD));
}

#[test]
fn what_the_sheet_names_itself_is_told_and_not_used() {
    let folder = Folder::new("own");
    let book = three(&folder);
    let sheet = GOOD.replace("variant\tstart", "setting\tvalue\nk\t3\nseqsim\t0.8\n\nvariant\tstart");
    let text = ask("answer", &sheet, &["--settings", &format!("{book}:2")]).text();
    assert!(text.contains(&format!("line 2: k 3 of the sheet is not used, version 2 of {book} has 4")), "{text}");
    assert!(!text.contains("seqsim 0.8 of the sheet"), "{text}");
}

#[test]
fn what_cannot_be_found_says_what_to_write() {
    let folder = Folder::new("found");
    let book = three(&folder);
    let (none, other) = (folder.file("none.book"), folder.file("other.book"));
    std::fs::write(&other, "k\t4\n").unwrap();
    let told = |asked: &str| {
        let outcome = ask("answer", GOOD, &["--settings", asked]);
        assert_eq!((outcome.status, outcome.out.len()), (2, 0), "{asked}");
        outcome.err
    };
    assert!(told(&book).contains("write the book, a colon and the version, such as sea.book:3"));
    assert!(told(&format!("{book}:0")).contains("refused 45: a version that isn't there: 0; the book has versions 1 to 3; write one of these"));
    assert!(told(&format!("{book}:4")).contains("refused 45: "));
    assert!(told(&format!("{book}:+1")).contains("\"+1\" is no version: the book has versions 1 to 3"));
    assert!(told(&format!("{book}:99999999999")).contains("is no version"));
    assert!(told(&format!("{none}:1")).contains("name a file that is there"));
    assert!(told(&format!("{other}:1")).contains("refused 48: "));
    for arguments in [["book", "restore", &book, "9"], ["book", "restore", &none, "1"], ["book", "restore", &other, "1"]] {
        assert_eq!(call(&arguments, b"").status, 2);
    }
    assert_eq!((call(&["book", "list", &none], b"").status, call(&["book", "list", &other], b"").status), (2, 2));
    // nothing was begun where nothing was saved
    assert!(!Path::new(&none).exists());
    assert_eq!(std::fs::read(&other).unwrap(), b"k\t4\n");
}

#[test]
fn refused_settings_leave_the_book_as_it_was() {
    let folder = Folder::new("refused");
    let book = three(&folder);
    let before = std::fs::read(&book).unwrap();
    for (settings, words) in [
        ("k\t7\n", "line 2: refused 1: k not 1 to 6: k is 7, it must be 1 to 6"),
        ("seqsim\t2\n", "line 2: refused 2: "),
        ("maxpaths\t4096\n", "line 2: refused 3: "),
        ("letters\t2\n", "line 2: refused 24: a flag not 0 or 1: letters is 2, it must be 0 or 1"),
    ] {
        let outcome = saved(&book, settings);
        assert_eq!((outcome.status, outcome.out.len()), (1, 0));
        assert!(outcome.err.contains(words), "{}", outcome.err);
    }
    assert_eq!(saved(&book, "k\tfour\n").status, 2);
    assert_eq!(std::fs::read(&book).unwrap(), before);
}

#[test]
fn a_full_book_is_told() {
    let folder = Folder::new("full");
    let book = folder.file("sea.book");
    saved(&book, "");
    let one = std::fs::read(&book).unwrap();
    let all: Vec<u8> = (1..=255).flat_map(|version| [&[0x21, version][..], &one[2..]].concat()).collect();
    std::fs::write(&book, &all).unwrap();
    let outcome = saved(&book, "");
    assert_eq!(outcome.status, 1);
    assert!(outcome.err.contains("refused 46: all 255 versions are used; begin another book"), "{}", outcome.err);
    assert_eq!(call(&["book", "restore", &book, "255"], b"").status, 2);
    assert_eq!(std::fs::read(&book).unwrap(), all);
}

#[test]
fn a_book_that_cannot_be_written_stays_as_it_was() {
    let folder = Folder::new("unwritten");
    let book = three(&folder);
    // a folder stands where the new book would be written
    std::fs::create_dir(format!("{book}.new")).unwrap();
    let before = std::fs::read(&book).unwrap();
    assert_eq!(saved(&book, "k\t3\n").status, 3);
    assert_eq!(std::fs::read(&book).unwrap(), before);
    assert_eq!(saved(&folder.file("no/such/folder.book"), "").status, 3);
}

#[test]
fn writers_at_once_lose_no_version() {
    let folder = Folder::new("at-once");
    let book = folder.file("sea.book");
    let sheets: Vec<String> = (0..24).map(|at| {
        let sheet = folder.file(&format!("{at}.tsv"));
        std::fs::write(&sheet, format!("setting\tvalue\nmaxpaths\t{}\n", 100 + at)).unwrap();
        sheet
    }).collect();
    let program = assert_cmd::cargo::cargo_bin("ndigo");
    let start = |sheet: &String| Command::new(&program).args(["book", "save", &book, sheet]).stdout(Stdio::null()).spawn().unwrap();
    let writers: Vec<_> = sheets.iter().map(start).collect();
    for mut writer in writers {
        assert!(writer.wait().unwrap().success());
    }
    let bytes = std::fs::read(&book).unwrap();
    assert_eq!(bytes.len(), 24 * 43);
    // every writer's settings stand under a version
    let mut maxpaths: Vec<u8> = bytes.chunks(43).map(|record| record[6]).collect();
    maxpaths.sort_unstable();
    assert_eq!(maxpaths, (100..124).collect::<Vec<u8>>());
}
