//! BED to a sheet's variants, and an answer's rows to BED.
use crate::common::*;

#[test]
fn a_sheet_of_bed_rows() {
    let outcome = ask("from-bed", "reef\t4\t9\nreef\t12\t12\n", &[]);
    assert_eq!((outcome.status, outcome.text().as_str()), (0, "variant\tstart\tend\nreef-0\t4\t9\nreef-1\t12\t12\n"));
    assert_eq!(ask("from-bed", "", &[]).text(), "variant\tstart\tend\n");
}

#[test]
fn what_cannot_be_read_is_told_by_its_number() {
    for (text, number) in [("reef\t04\t9\n", 40), ("reef\t4\t9", 40), ("a\t1\t2\nb\t3\t4\n", 41), ("a\t9\t4\n", 7), ("a\t5\t6\na\t4\t6\n", 8)] {
        let outcome = ask("from-bed", text, &[]);
        assert_eq!((outcome.status, outcome.out.len()), (2, 0), "{text:?}");
        assert!(outcome.err.contains(&format!("refused {number}: ")), "{}", outcome.err);
    }
}

#[test]
fn the_answer_as_bed() {
    let outcome = ask("bed", GOOD, &["--name", "reef"]);
    assert_eq!((outcome.status, outcome.text().as_str()), (0, "reef\t30\t30\n"));
    let outcome = ask("bed", GOOD, &["--name", "two words"]);
    assert_eq!((outcome.status, outcome.out.len()), (2, 0));
    assert!(outcome.err.contains("refused 40: "), "{}", outcome.err);
    // a sheet that the rules refuse has no rows to write
    let refused = ask("bed", GOOD.replace("10\t14", "14\t10"), &["--name", "reef"]);
    assert_eq!((refused.status, refused.out.len()), (1, 0));
    assert!(refused.err.contains("refused 7"), "{}", refused.err);
}
