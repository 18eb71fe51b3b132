//! The job form: bytes of both editions, there and back, and the proved writer's.
use crate::common::*;
use ndigo::model::{Haplotype, Sequence, Settings, Sheet, Variant, LETTERS};
use proptest::prelude::*;

#[test]
fn the_worked_example() {
    assert_eq!(job(example("worked-example")), worked_example());
    assert_eq!(std::fs::read(root().join("examples/worked.job")).unwrap(), worked_example());
    assert_eq!(std::fs::read(root().join("examples/second-edition.job")).unwrap(), second_edition(0, [7, 4_294_967_295]));
}

#[test]
fn defaults() {
    // k 4, squish no, one-to-one no, full yes; 4095, 5000, 3, 12, 2; 0.9, 0.9, 0.1, 0.02
    let wanted = bytes("01 04 00 00 01 ff0f0000 88130000 03000000 0c000000 02000000 6666663f 6666663f cdcccc3d 0ad7a33c 00");
    assert_eq!(job(HEADINGS), wanted);
}

#[test]
fn a_deletion_counts_negative() {
    // size -4 is fcffffff, and its letters count negative by its sign
    let wanted = bytes("02 0a00000000000000 0e00000000000000 fcffffff 01 04000000 04 41474354 000000000000000000000000");
    assert_eq!(job(GOOD)[41..84], wanted);
}

#[test]
fn the_negative_column_decides_over_the_sign() {
    let headings = HEADINGS.replace("letters", "letters\tnegative");
    let sign = |(size, cell): (i32, &str)| job(format!("{headings}A\t1\t1\t{size}\t\t{cell}\n"))[41 + 21];
    assert_eq!([(-4, "no"), (4, "yes"), (0, "TRUE"), (-4, ""), (0, "")].map(sign), [0, 1, 1, 1, 0]);
}

/// Settings 0x11 of 41 bytes, letters behind the old 40; variants 0x12 of 29, the record number behind the old 25: 4711 is 67120000.
#[test]
fn a_record_column_asks_for_edition_2() {
    let (first, second) = (job(GOOD), job(NUMBERED));
    let head = [&bytes("11")[..], &first[1..41], &bytes("00")].concat();
    let variants = [
        bytes("12 0a00000000000000 0e00000000000000 fcffffff 01 04000000 67120000 04 41474354 000000000000000000000000"),
        bytes("12 1e00000000000000 1e00000000000000 05000000 00 05000000 62000000 04 4343434343 0000000000000000000000"),
    ];
    assert_eq!(second, [&head[..], &variants.concat(), &first[127..]].concat());
    assert_eq!(job(NUMBERED.replace("98", "4294967295"))[42 + 47 + 26..][..4], [255; 4]);
    // of no variants too: the column is there
    assert_eq!((job(HEADINGS).len(), job(RECORD_HEADINGS)), (42, bytes("11 04 00 00 01 ff0f0000 88130000 03000000 0c000000 02000000 6666663f 6666663f cdcccc3d 0ad7a33c 00 00")));
}

/// Named, and be it as 0, letters have their place; a version of a book that sets 1 needs it too, and one that sets 0 does not.
#[test]
fn letters_ask_for_edition_2() {
    let with = |value: &str| format!("{GOOD}setting\tvalue\nk\t4\nletters\t{value}\n");
    let by_row = NUMBERED.replace("4711", "0").replace("98", "1");
    assert_eq!(job(with("0")), job(&by_row));
    let one = job(with("1"));
    assert_eq!((one[41], [&one[..41], &[0], &one[42..]].concat()), (1, job(by_row)));
    let books = folder("books-of-letters");
    for (letters, same) in [("0", job(GOOD)), ("1", one)] {
        let (book, sheet) = (books.join(format!("{letters}.book")), books.join(format!("{letters}.tsv")));
        std::fs::write(&sheet, with(letters)).unwrap();
        assert_eq!(call(&["book", "save", book.to_str().unwrap(), sheet.to_str().unwrap()], b"").status, 0);
        let version = format!("{}:1", book.display());
        assert_eq!(ask("job", GOOD, &["--settings", &version]).out, same, "letters {letters}");
    }
}

/// The form has letters as a flag.
#[test]
fn other_letters_are_refused_by_24() {
    for value in ["2", "255"] {
        let outcome = ask("job", format!("{GOOD}setting\tvalue\nletters\t{value}\n"), &[]);
        let words = told("line 8", 24, &format!("letters is {value}, it must be 0 or 1"));
        assert_eq!((outcome.status, outcome.out, outcome.err), (1, vec![], format!("standard input: {words}\n")));
    }
}

#[test]
fn a_check_counts_the_bytes_of_the_edition() {
    let letters = format!("{GOOD}setting\tvalue\nletters\t1\n");
    for (content, words) in [(GOOD, "155 bytes"), (NUMBERED, "164 bytes in edition 2"), (&letters, "164 bytes in edition 2")] {
        let checked = ask("check", content, &[]);
        assert_eq!((checked.status, checked.text()), (0, format!("nothing to refuse: 2 variants, 1 part, a job of {words}\n")));
        let document: serde_json::Value = serde_json::from_slice(&ask("check", content, &["--json"]).out).unwrap();
        assert_eq!(document["job_bytes"], job(content).len());
    }
}

#[test]
fn letters_in_blocks_of_sixteen() {
    for count in [0, 1, 15, 16, 17, 32, 33] {
        let job = job(format!("{HEADINGS}A\t1\t1\t1\t{}\n", "c".repeat(count)));
        assert_eq!(job.len(), 41 + 26 + 17 * ((count + 15) / 16) + 1);
        assert_eq!(job.iter().filter(|&&byte| byte == b'c').count(), count);
    }
}

#[test]
fn letters_over_the_limit_are_refused_by_13() {
    let most = format!("{HEADINGS}A\t1\t1\t1\t{}", "C".repeat(131_072));
    assert_eq!(job(&most).len(), 41 + 26 + 17 * 8192 + 1);
    let outcome = ask("job", most + "C", &[]);
    let words = told("line 2", 13, "\"A\" has 131073 letters, the limit is 131072");
    assert_eq!((outcome.status, outcome.out, outcome.err), (1, vec![], format!("standard input: {words}\n")));
}

#[test]
fn examples_come_back() {
    for name in example_names() {
        let job = job(example(&name));
        assert_eq!(ndigo::job::length(&ndigo::job::read(&job).unwrap()), job.len());
        let shown = ask("show", &job, &[]);
        assert_eq!((shown.status, shown.err.as_str()), (0, ""));
        assert_eq!(self::job(shown.out), job);
    }
}

#[test]
fn show_writes_what_students_read() {
    let shown = ask("show", worked_example(), &[]).text();
    assert!(shown.contains("k\t1\tdefault 4; letters in a window"));
    assert!(shown.ends_with(
        "variant\tstart\tend\tsize\tletters\nrow-0\t10\t10\t2\tAG\nrow-1\t20\t20\t2\tCT\n\npart\tsize\tletters\npart-0\t2\tAG\n"
    ));
}

/// A job of edition 1 is shown without what would ask for edition 2.
#[test]
fn the_editions_are_shown_apart() {
    let first = ask("show", worked_example(), &[]).text();
    assert!(!first.contains("\nletters") && first.contains("\nvariant\tstart\t"), "{first}");
    for letters in [0, 1] {
        let shown = ask("show", second_edition(letters, [7, 4_294_967_295]), &[]).text();
        assert!(shown.contains(&format!("\nletters\t{letters}\tdefault 0; ")), "{shown}");
        assert!(shown.ends_with(
            "variant\trecord\tstart\tend\tsize\tletters\nrow-0\t7\t10\t10\t2\tAG\nrow-1\t4294967295\t20\t20\t2\tCT\n\npart\tsize\tletters\npart-0\t2\tAG\n"
        ), "{shown}");
    }
}

/// The rules refuse a repeated number; form and sheet can say it, as they can say a NaN.
#[test]
fn jobs_come_back_as_they_were() {
    let [empty, empty_2] = [HEADINGS, RECORD_HEADINGS].map(job);
    let letters_1 = [&empty_2[..41], &[1, 0]].concat();
    for job in [worked_example(), second_edition(0, [0, 1]), second_edition(1, [0, 1]), second_edition(0, [7, 7]), empty, empty_2, letters_1] {
        let shown = ask("show", &job, &[]);
        assert_eq!((shown.status, self::job(shown.out)), (0, job));
    }
}

#[test]
fn sheets_come_back_as_they_were() {
    for content in [GOOD.to_string(), NUMBERED.into(), format!("{NUMBERED}setting\tvalue\nletters\t1\n")] {
        let sheet = ndigo::sheet::read(content.as_bytes()).sheet;
        let again = ndigo::sheet::read(&ask("show", job(content), &[]).out).sheet;
        let numbers = |sheet: &Sheet| (sheet.numbered, sheet.settings.words, sheet.variants.iter().map(|v| (v.start, v.end, v.record, v.sequence.size)).collect::<Vec<_>>());
        assert_eq!(numbers(&again), numbers(&sheet));
    }
}

/// A change to the worked example's bytes, and what is said of it. Its records stand at bytes 0 (settings), 41 and 84 (variants),
/// 67 and 110 (their letters), 127 (part), 137, 154 (end).
#[test]
fn spoilt_jobs() {
    let b = worked_example();
    let spoilt: Vec<(Vec<u8>, u32, &str)> = vec![
        (vec![], 21, "the record at byte 0"),
        (b[..40].to_vec(), 21, "the record at byte 0"),
        (b[..154].to_vec(), 21, "the record at byte 154"),
        ([&[7], &b[1..]].concat(), 20, "the record at byte 0"),
        (b[41..].to_vec(), 22, "the record at byte 0"),
        ([&b[..41], &b].concat(), 22, "the record at byte 41"),
        ([&b[..67], &b[84..]].concat(), 22, "the record at byte 67"),
        ([&b[..84], &b[67..]].concat(), 22, "the record at byte 84"),
        ([&b[..154], &b[84..]].concat(), 22, "the record at byte 154"),
        ([&b[..2], &[2], &b[3..]].concat(), 24, "the record at byte 0"),
        ([&b[..62], &[2], &b[63..]].concat(), 24, "the record at byte 41"),
        ([&b[..63], &[1, 0, 2, 0], &b[67..]].concat(), 13, "the record at byte 41"),
        ([&b[..83], &[1], &b[84..]].concat(), 23, "the record at byte 67"),
        ([&b[..], &[0]].concat(), 25, "from byte 155 on"),
    ];
    assert_spoilt(spoilt);
}

/// Neither is shown nor moved, and both say why.
fn assert_spoilt(spoilt: Vec<(Vec<u8>, u32, &str)>) {
    for (job, number, place) in spoilt {
        for (command, more) in [("show", &[][..]), ("move", &["--edition", "1"]), ("move", &["--edition", "2"])] {
            let outcome = ask(command, &job, more);
            assert_eq!(ndigomarr::move_job(&job, 1).unwrap_err().number(), number);
            assert_eq!(outcome.err, format!("standard input: refused {number}: {}: {place}\n", refusal_words(number)));
            assert_eq!((outcome.status, outcome.out), (2, vec![]));
        }
    }
}

/// The same of edition 2, whose records stand at bytes 0 (settings), 42 and 89 (variants), 72 and 119 (their letters), 136 (part), 146, 163 (end).
#[test]
fn spoilt_jobs_of_edition_2() {
    let b = second_edition(0, [7, 8]);
    assert_eq!((b.len(), b[42], b[72], b[89], b[119], b[136], b[146], b[163]), (164, 0x12, 4, 0x12, 4, 3, 4, 0));
    assert_spoilt(vec![
        (b[..41].to_vec(), 21, "the record at byte 0"),
        (b[..71].to_vec(), 21, "the record at byte 42"),
        (b[..163].to_vec(), 21, "the record at byte 163"),
        ([&b[..42], &[0x13], &b[43..]].concat(), 20, "the record at byte 42"),
        (b[42..].to_vec(), 22, "the record at byte 0"),
        ([&b[..42], &b].concat(), 22, "the record at byte 42"),
        ([&b[..72], &b[89..]].concat(), 22, "the record at byte 72"),
        ([&b[..163], &b[89..]].concat(), 22, "the record at byte 163"),
        ([&b[..2], &[2], &b[3..]].concat(), 24, "the record at byte 0"),
        // letters are a flag
        ([&b[..41], &[2], &b[42..]].concat(), 24, "the record at byte 0"),
        ([&b[..41], &[255], &b[42..]].concat(), 24, "the record at byte 0"),
        ([&b[..63], &[2], &b[64..]].concat(), 24, "the record at byte 42"),
        ([&b[..64], &[1, 0, 2, 0], &b[68..]].concat(), 13, "the record at byte 42"),
        ([&b[..88], &[1], &b[89..]].concat(), 23, "the record at byte 72"),
        ([&b[..], &[0]].concat(), 25, "from byte 164 on"),
    ]);
}

/// Settings and variants of the other edition, wherever they stand: 22 after 20 and 21, before 27, 24, 13 and 23.
#[test]
fn the_editions_are_not_mixed() {
    let (one, two) = (worked_example(), second_edition(0, [0, 1]));
    let spoilt = |record: &[u8], at: usize, byte: u8| { let mut record = record.to_vec(); record[at] = byte; record };
    let [variant_1, variant_2] = [&one[41..67], &two[42..72]];
    let next = [5; 15];
    assert_spoilt(vec![
        // as the first variant, the second, after a part, after the next haplotype has begun, where letters are owed
        ([&one[..41], &two[42..]].concat(), 22, "the record at byte 41"),
        ([&two[..42], &one[41..]].concat(), 22, "the record at byte 42"),
        ([&one[..84], &two[89..]].concat(), 22, "the record at byte 84"),
        ([&two[..89], &one[84..]].concat(), 22, "the record at byte 89"),
        ([&one[..154], &two[89..]].concat(), 22, "the record at byte 154"),
        ([&two[..163], &one[84..]].concat(), 22, "the record at byte 163"),
        ([&one[..154], &next, variant_2, &[0]].concat(), 22, "the record at byte 169"),
        ([&two[..163], &next, variant_1, &[0]].concat(), 22, "the record at byte 178"),
        ([&one[..67], variant_2, &one[67..]].concat(), 22, "the record at byte 67"),
        ([&two[..72], variant_1, &two[72..]].concat(), 22, "the record at byte 72"),
        // settings
        ([&one[..41], &two[..42], &one[41..]].concat(), 22, "the record at byte 41"),
        ([&two[..42], &one[..41], &two[42..]].concat(), 22, "the record at byte 42"),
        ([&one[..154], &two[..42], &[0]].concat(), 22, "the record at byte 154"),
        ([&two[..163], &one[..41], &[0]].concat(), 22, "the record at byte 163"),
        // 21 before it, and it before the flags and the letters' number
        ([&one[..41], &two[42..71]].concat(), 21, "the record at byte 41"),
        ([&two[..42], &one[41..66]].concat(), 21, "the record at byte 42"),
        ([&one[..41], &spoilt(variant_2, 21, 9)].concat(), 22, "the record at byte 41"),
        ([&two[..42], &spoilt(variant_1, 24, 9)].concat(), 22, "the record at byte 42"),
        ([&one[..41], &spoilt(&two[..42], 41, 2)].concat(), 22, "the record at byte 41"),
    ]);
}

/// SHEET_WRITER names a program that reads a job of either edition and writes it anew with the proved writer.
#[test]
fn the_proved_writer_makes_the_same_bytes() {
    let Some(writer) = std::env::var_os("SHEET_WRITER") else {
        assert_ne!(std::env::var("NDIGO_NEEDS_PROGRAM").as_deref(), Ok("1"), "SHEET_WRITER is not set");
        return;
    };
    for name in example_names() {
        let job = job(example(&name));
        // a path that is not whole is one below the repository
        let done = assert_cmd::Command::new(root().join(&writer)).write_stdin(job.clone()).output().unwrap();
        assert_eq!(done.stdout, job, "{name}");
    }
}

fn sequence(name: String) -> impl Strategy<Value = Sequence> {
    let size = prop_oneof![Just(0), Just(i32::MIN), Just(i32::MAX), -200..200];
    let letters = prop_oneof![proptest::collection::vec(any::<u8>(), 0..40), "[AGCTagctN]{0,40}".prop_map(String::into_bytes)];
    (size, any::<bool>(), letters).prop_map(move |(size, negative, letters)| Sequence { name: name.clone(), size, negative, letters, line: 0 })
}

/// Mostly its row's number, and often repeated.
fn variant(row: usize) -> impl Strategy<Value = Variant> {
    let record = prop_oneof![3 => Just(row as u32), 1 => any::<u32>(), 1 => 0u32..3];
    (any::<u64>(), any::<u64>(), record, sequence(format!("row-{row}"))).prop_map(|(start, end, record, sequence)| Variant { start, end, record: Some(record), sequence })
}

/// Any job in good form, of either edition, refused by the rules or not.
pub fn any_sheet() -> impl Strategy<Value = Sheet> {
    let settings = (any::<u8>(), any::<[bool; 4]>(), any::<[u32; 9]>()).prop_map(|(k, flags, rest)| {
        let mut words = [u32::from(k); 14];
        words[1..4].copy_from_slice(&[flags[0], flags[1], flags[2]].map(u32::from));
        words[4..9].copy_from_slice(&rest[..5]);
        words[LETTERS] = flags[3].into();
        words[10..].copy_from_slice(&rest[5..]);
        Settings::of_words(words)
    });
    let variants = (0usize..70).prop_flat_map(|count| (0..count).map(variant).collect::<Vec<_>>());
    let parts = (0usize..9).prop_flat_map(|count| (0..count).map(|part| sequence(format!("part-{part}"))).collect::<Vec<_>>());
    // how many parts stand before each haplotype but the first; none where there is one
    let breaks = proptest::collection::vec(0usize..9, 0..16);
    (settings, variants, parts, breaks, any::<bool>()).prop_map(|(mut settings, mut variants, parts, mut breaks, numbered)| {
        if !numbered {
            settings.words[LETTERS] = 0;
            variants.iter_mut().for_each(|variant| variant.record = None);
        }
        breaks.iter_mut().for_each(|place| *place = (*place).min(parts.len()));
        breaks.sort_unstable();
        if !breaks.is_empty() {
            breaks.push(parts.len());
        }
        let haplotypes = breaks.into_iter().enumerate().map(|(place, end)| Haplotype { name: format!("hap-{place}"), end }).collect();
        Sheet { settings, variants, parts, haplotypes, numbered }
    })
}

proptest! {
    #![proptest_config(ProptestConfig::with_cases(200))]

    #[test]
    fn any_job_comes_back(sheet in any_sheet()) {
        let job = ndigo::job::written(&sheet);
        prop_assert_eq!(ndigo::job::length(&sheet), job.len());
        let read = ndigo::job::read(&job);
        prop_assert_eq!(read.as_ref(), Ok(&sheet));
        let again = ndigo::sheet::read(ndigo::sheet::written(&sheet).as_bytes());
        prop_assert!(again.faults.is_empty(), "{:?}", again.faults);
        prop_assert_eq!(ndigo::job::written(&again.sheet), job);
    }

    #[test]
    fn any_bytes_are_read_or_refused(data in proptest::collection::vec(prop_oneof![0u8..7, 0x11u8..0x13], 0..300)) {
        if let Ok(sheet) = ndigo::job::read(&data) {
            prop_assert_eq!(ndigo::job::written(&sheet), data);
        }
    }

    #[test]
    fn any_text_gets_a_sheet_or_faults(text in "(variant|part|setting|[A-Z0-9a-z,;\t\n\" #+-]){0,80}") {
        ndigo::sheet::read(text.as_bytes());
    }

    #[test]
    fn any_names_come_back(names in proptest::collection::hash_set("[A-Za-z0-9\"' ,;|&<>é礁-]{1,20}", 1..12)) {
        let names: Vec<String> = names.into_iter().map(|name| name.trim().to_string()).filter(|name| !name.is_empty()).collect();
        let mut sheet = Sheet { numbered: true, ..Sheet::default() };
        for (row, name) in names.iter().enumerate() {
            let sequence = Sequence { name: name.clone(), size: 1, negative: false, letters: b"A".to_vec(), line: 0 };
            let twice = sheet.variants.iter().any(|variant: &Variant| variant.name() == name);
            if !twice {
                sheet.variants.push(Variant { start: row as u64, end: row as u64, record: Some(row as u32), sequence });
            }
        }
        let read = ndigo::sheet::read(ndigo::sheet::written(&sheet).as_bytes());
        prop_assert!(read.faults.is_empty(), "{:?}", read.faults);
        prop_assert_eq!(read.sheet.variants.iter().map(Variant::name).collect::<Vec<_>>(), sheet.variants.iter().map(Variant::name).collect::<Vec<_>>());
    }
}
