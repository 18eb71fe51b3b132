//! Jobs moved from one edition of their form to the other: what the library does, and what is said where it does not.
use crate::common::*;
use crate::examples::{program, run_program};
use crate::jobs::any_sheet;
use ndigo::job::{read, written, Edition};
use ndigo::model::{Sheet, LETTERS};
use ndigo::refusals;
use proptest::prelude::*;

fn moved(job: impl AsRef<[u8]>, edition: &str) -> Outcome {
    ask("move", job, &["--edition", edition])
}

#[test]
fn there_and_back() {
    let (one, two) = (worked_example(), second_edition(0, [0, 1]));
    for (job, edition, wanted) in [(&one, "2", &two), (&two, "1", &one)] {
        let outcome = moved(job, edition);
        assert_eq!((outcome.status, &outcome.out, outcome.err.as_str()), (0, wanted, ""));
    }
    for name in example_names() {
        let job = job(example(&name));
        if job[0] == 1 {
            let there = moved(&job, "2");
            assert_eq!((there.status, there.out[0], moved(&there.out, "1").out), (0, 0x11, job), "{name}");
        }
    }
}

const INSTEAD: &str = "leave the job in edition 2, or make a sheet of it with `ndigo show` and take the column record and the setting letters out";

fn other_numbers(rows: &str) -> String {
    format!("refused 28: a record number is not its row: {rows}; edition 1 has no place for record numbers and takes each row's own number: {INSTEAD}")
}

fn letters_1() -> String {
    let lost = "edition 1 has no place for letters and counts each letter other than A, G, C and T as A";
    format!("refused 29: letters is 1: windows that hold an unread letter are left out; {lost}: {INSTEAD}")
}

fn already(edition: u32) -> String {
    format!("refused 22: out of place: it is of edition {edition} already; take it as it is, or write --edition {}", 3 - edition)
}

/// Nothing is written, and each reason is told, the library's first.
#[test]
fn what_is_not_moved() {
    for (job, edition, reasons) in [
        (worked_example(), "1", vec![already(1)]),
        (second_edition(0, [0, 1]), "2", vec![already(2)]),
        (second_edition(1, [7, 8]), "2", vec![already(2)]),
        (second_edition(0, [0, 7]), "1", vec![other_numbers("row 1 has record 7")]),
        (second_edition(0, [1, 0]), "1", vec![other_numbers("row 0 has record 1, the first of 2 such rows")]),
        (second_edition(1, [0, 1]), "1", vec![letters_1()]),
        (second_edition(1, [0, 4_294_967_295]), "1", vec![other_numbers("row 1 has record 4294967295"), letters_1()]),
    ] {
        let outcome = moved(job, edition);
        let said: String = reasons.iter().map(|reason| format!("standard input: the whole job: {reason}\n")).collect();
        assert_eq!((outcome.status, outcome.out, outcome.err), (1, vec![], said));
    }
    // what is said to do makes a job of edition 1
    let shown = ask("show", second_edition(1, [7, 8]), &[]).text();
    let without = shown.replace("\trecord\t", "\t").replace("row-0\t7", "row-0").replace("row-1\t8", "row-1");
    let without: String = without.lines().filter(|line| !line.starts_with("letters\t")).map(|line| format!("{line}\n")).collect();
    assert_eq!(job(without), worked_example());
}

#[test]
fn an_edition_that_there_is_not() {
    for edition in ["0", "3", "01", "two"] {
        let outcome = moved(worked_example(), edition);
        assert_eq!((outcome.status, outcome.out), (2, vec![]));
        assert!(outcome.err.contains(&format!("alue '{edition}' for '--edition <1|2>': write 1 or 2\n")), "{}", outcome.err);
    }
    assert_eq!(call(&["move", "-"], &worked_example()).status, 2);
}

/// Jobs are written under their own names, and the one that is moved is not overwritten.
#[test]
fn several_jobs_into_a_folder() {
    let folder = folder("moves");
    let files = ["a.job", "b.job"].map(|name| folder.join(name).to_str().unwrap().to_string());
    files.iter().for_each(|file| std::fs::write(file, worked_example()).unwrap());
    let into = |path: &std::path::Path| call(&["move", "--edition", "2", &files[0], &files[1], "--into", path.to_str().unwrap()], b"");
    assert_eq!((into(&folder.join("second")).status, std::fs::read(folder.join("second/b.job")).unwrap()), (0, second_edition(0, [0, 1])));
    let again = into(&folder);
    assert!(again.status == 3 && again.err.contains("a.job: cannot be written (File exists"), "{}", again.err);
    assert_eq!(std::fs::read(&files[0]).unwrap(), worked_example());
    let untold = call(&["move", "--edition", "2", &files[0], &files[1]], b"");
    assert_eq!((untold.status, untold.err.as_str()), (2, "ndigo: several .job files cannot be told apart on standard output; name a folder with --into\n"));
    let missing = call(&["move", "--edition", "2", "none.job"], b"");
    assert_eq!((missing.status, missing.err.as_str()), (2, "none.job: cannot be read (No such file or directory (os error 2)); name a file that is there\n"));
}

/// The records are the job's own, and all else is the same in both editions; a repeated number is refused.
#[test]
fn the_program_answers_both_editions() {
    let Some(program) = program() else { return };
    let answer = |job: Vec<u8>| run_program(&program, job);
    let text = |record: u32| format!("rows 0\nrecords {record}\nscore 3f800000\nsizesim 3f800000\nseqsim 3f800000\nfull yes\nscored 4\ncomplete yes\n");
    assert_eq!(answer(worked_example()), text(0));
    for letters in [0, 1] {
        assert_eq!(answer(second_edition(letters, [0, 1])), text(0));
        assert_eq!(answer(second_edition(letters, [4_294_967_295, 7])), text(4_294_967_295));
        assert_eq!(answer(second_edition(letters, [7, 7])), "refused 14\n");
    }
    assert_eq!(answer(second_edition(2, [0, 1])), "refused 24\n");
    let (one, two) = (worked_example(), second_edition(0, [0, 1]));
    assert_eq!(answer([&one[..41], &two[42..]].concat()), "refused 22\n");
    assert_eq!(answer([&two[..42], &one[41..]].concat()), "refused 22\n");
}

/// The sheet in the other edition, where nothing is lost.
fn other(sheet: &Sheet) -> Sheet {
    let mut other = Sheet { numbered: !sheet.numbered, ..sheet.clone() };
    for (row, variant) in other.variants.iter_mut().enumerate() {
        variant.record = other.numbered.then_some(row as u32);
    }
    other
}

proptest! {
    #![proptest_config(ProptestConfig::with_cases(200))]

    /// ndigo writes both editions by itself, and foretells each refusal.
    #[test]
    fn the_library_moves_as_ndigo_writes(sheet in any_sheet(), by_row in any::<bool>()) {
        let mut sheet = sheet;
        if by_row && sheet.numbered {
            sheet.variants.iter_mut().enumerate().for_each(|(row, variant)| variant.record = Some(row as u32));
            sheet.settings.words[LETTERS] = 0;
        }
        let job = written(&sheet);
        for asked in Edition::ALL {
            let foretold = refusals::of_move(&sheet, asked).first().map(|reason| reason.number);
            let done = ndigomarr::move_job(&job, asked.number());
            prop_assert_eq!(done.as_ref().err().map(|refusal| refusal.number()), foretold);
            if let Ok(there) = done {
                prop_assert_eq!(&there, &written(&other(&sheet)));
                prop_assert_eq!(read(&there), Ok(other(&sheet)));
                let back = ndigomarr::move_job(&there, 3 - asked.number());
                prop_assert_eq!(back.as_ref(), Ok(&job));
            }
        }
        for neither in [0, 3, u32::MAX] {
            prop_assert_eq!(ndigomarr::move_job(&job, neither).map_err(|refusal| refusal.number()), Err(22));
        }
    }

    /// Of damaged jobs both readers tell the same fault first.
    #[test]
    fn the_library_reads_as_ndigo_does(
        sheet in any_sheet(),
        damage in proptest::collection::vec((any::<prop::sample::Index>(), any::<u8>()), 1..4),
        cut in any::<prop::sample::Index>(),
        whole in any::<bool>(),
    ) {
        let mut job = written(&sheet);
        // most often where kinds and flags stand
        damage.iter().for_each(|(at, byte)| { let place = at.index(job.len()); job[place] = byte % 20; });
        if !whole {
            job.truncate(cut.index(job.len()));
        }
        let fault = read(&job).err().map(|fault| fault.number);
        let number = ndigomarr::move_job(&job, 0).map_err(|refusal| refusal.number()).unwrap_err();
        prop_assert_eq!(number, fault.unwrap_or(22));
    }
}
