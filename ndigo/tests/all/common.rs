//! What the tests share: a call, sheets to call it with, and the repository's own files.
use std::path::PathBuf;

pub const HEADINGS: &str = "variant\tstart\tend\tsize\tletters\n";
pub const RECORD_HEADINGS: &str = "variant\trecord\tstart\tend\tsize\tletters\n";
pub const GOOD: &str = "variant\tstart\tend\tsize\tletters\nA\t10\t14\t-4\tAGCT\nB\t30\t30\t5\tCCCCC\n\npart\tsize\tletters\nP\t5\tCCCCC\n";
pub const NUMBERED: &str =
    "variant\trecord\tstart\tend\tsize\tletters\nA\t4711\t10\t14\t-4\tAGCT\nB\t98\t30\t30\t5\tCCCCC\n\npart\tsize\tletters\nP\t5\tCCCCC\n";

pub struct Outcome {
    pub status: i32,
    pub out: Vec<u8>,
    pub err: String,
}

impl Outcome {
    pub fn text(&self) -> String {
        String::from_utf8(self.out.clone()).expect("text")
    }
}

pub fn call(arguments: &[&str], input: &[u8]) -> Outcome {
    let done = assert_cmd::Command::cargo_bin("ndigo").unwrap().args(arguments).write_stdin(input).output().unwrap();
    Outcome { status: done.status.code().expect("ended by itself"), out: done.stdout, err: String::from_utf8(done.stderr).unwrap() }
}

/// One sheet or job by standard input.
pub fn ask(command: &str, content: impl AsRef<[u8]>, more: &[&str]) -> Outcome {
    call(&[&[command, "-"], more].concat(), content.as_ref())
}

pub fn job(content: impl AsRef<[u8]>) -> Vec<u8> {
    let outcome = ask("job", content, &[]);
    assert_eq!(outcome.status, 0, "{}", outcome.err);
    outcome.out
}

pub fn root() -> PathBuf {
    PathBuf::from(env!("CARGO_MANIFEST_DIR")).join("..")
}

pub fn file(path: &str) -> String {
    std::fs::read_to_string(root().join(path)).unwrap()
}

/// The names of examples/*.tsv, without their ending.
pub fn example_names() -> Vec<String> {
    let entries = std::fs::read_dir(root().join("examples")).unwrap().map(|entry| entry.unwrap().path());
    let mut names: Vec<String> =
        entries.filter(|path| path.extension().is_some_and(|ending| ending == "tsv")).map(|path| path.file_stem().unwrap().to_string_lossy().into_owned()).collect();
    names.sort();
    names
}

/// Bytes from their hexadecimal digits.
pub fn bytes(hex: &str) -> Vec<u8> {
    let digits: Vec<char> = hex.chars().filter(|letter| !letter.is_whitespace()).collect();
    digits.chunks(2).map(|pair| u8::from_str_radix(&pair.iter().collect::<String>(), 16).unwrap()).collect()
}

/// Document 01's worked example, field by field from its job form, numbers lowest byte first: settings (k 1, squish no, one-to-one
/// no, full yes; maxpaths 10, maxnodes 10, fnmax 1, pileupmax 5, minkfreq 1; 0.5, 0.5, 0, 0), variants 10 to 10 and 20 to 20, each
/// of size 2, not negative, two letters (AG, CT and fourteen zeros), a part of size 2 (AG), the end.
pub fn worked_example() -> Vec<u8> {
    bytes(
        "01 01 00 00 01 0a000000 0a000000 01000000 05000000 01000000 0000003f 0000003f 00000000 00000000
         02 0a00000000000000 0a00000000000000 02000000 00 02000000 04 4147 0000000000000000000000000000
         02 1400000000000000 1400000000000000 02000000 00 02000000 04 4354 0000000000000000000000000000
         03 02000000 00 02000000 04 4147 0000000000000000000000000000
         00",
    )
}

/// The same in edition 2, with letters and the two record numbers as they are given here.
pub fn second_edition(letters: u8, records: [u32; 2]) -> Vec<u8> {
    let first = worked_example();
    let variant = |from: usize, record: u32| [&[0x12], &first[from + 1..from + 26], &record.to_le_bytes(), &first[from + 26..from + 43]].concat();
    [&[0x11], &first[1..41], &[letters], &variant(41, records[0])[..], &variant(84, records[1]), &first[127..]].concat()
}

pub fn example(name: &str) -> String {
    file(&format!("examples/{name}.tsv"))
}

/// A folder of one test's own, made empty.
pub fn folder(name: &str) -> PathBuf {
    let path = PathBuf::from(env!("CARGO_TARGET_TMPDIR")).join(name);
    let _ = std::fs::remove_dir_all(&path);
    std::fs::create_dir_all(&path).unwrap();
    path
}

pub fn table_of(count: usize) -> String {
    HEADINGS.to_string() + &(0..count).map(|row| format!("S{row}\t{row}\t{row}\t5\tAGAGA\n")).collect::<String>()
}

pub fn parts_of(count: usize) -> String {
    "part\tsize\tletters\n".to_string() + &(0..count).map(|part| format!("P{part}\t5\tAGAGA\n")).collect::<String>()
}

/// The table's words for a refusal.
pub fn refusal_words(number: u32) -> String {
    let table = file("docs/refusals.tsv");
    let line = table.lines().find(|line| line.starts_with(&format!("{number}\t"))).unwrap();
    line.split('\t').nth(2).unwrap().to_string()
}

pub fn told(place: &str, number: u32, words: &str) -> String {
    format!("{place}: refused {number}: {}: {words}", refusal_words(number))
}
