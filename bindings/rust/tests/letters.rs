//! What letters that were not read do to a search, and that a table, a haplotype and settings are of one reading.
use ndigomarr::{apply_haplotype, apply_haplotypes, Haplotype, Refusal, Settings, Table, Target};

fn settings(letters: u8) -> Settings {
    Settings { k: 2, minkfreq: 1, letters, ..Settings::default() }
}

fn table(settings: &Settings, variants: &[&[u8]]) -> Table {
    let mut table = settings.table();
    for (at, letters) in variants.iter().enumerate() {
        table.insertion(10 * at as u64, letters).expect("few letters");
    }
    table
}

fn haplotype(settings: &Settings, part: &[u8]) -> Haplotype {
    let mut haplotype = settings.haplotype();
    haplotype.insertion(part).expect("few letters");
    haplotype
}

fn number<T: std::fmt::Debug>(said: Result<T, Refusal>) -> u32 {
    said.expect_err("refused").number()
}

/// A read CCNNCC beside CCAACC and CCGGCC: an N that counts as A decides for the former, an N that is not read for neither.
#[test]
fn an_n_is_an_a_in_one_reading_alone() {
    let found = |letters| {
        let settings = Settings { sizesim: 0.5, seqsim: 0.5, ..settings(letters) };
        apply_haplotype(&settings, &table(&settings, &[b"CCAACC", b"CCGGCC"]), &haplotype(&settings, b"CCNNCC")).expect("accepted")
    };
    assert_eq!((found(0).rows, found(0).seqsim), (vec![0], 1.0));
    // the windows CC and CC of the read, and CC CA AA AC CC of the row: n is 3 and d 7, for both rows alike
    assert_eq!(found(1).seqsim, 1.0 - 3.0f32 / 7.0);
    assert_eq!((found(1).rows.len(), found(1).target), (1, Target::Whole));
}

#[test]
fn without_such_letters_the_readings_agree() {
    let found = |letters| {
        let settings = settings(letters);
        apply_haplotype(&settings, &table(&settings, &[b"acgtac", b"TTGGA"]), &haplotype(&settings, b"ACGTAC"))
    };
    assert_eq!(found(0), found(1));
    assert_eq!(found(1).map(|answer| answer.rows), Ok(vec![0]));
}

#[test]
fn a_variant_all_of_whose_windows_are_left_out_is_a_16() {
    for (letters, wanted) in [(0, Ok(())), (1, Err(16))] {
        let settings = settings(letters);
        let asked = |variants: &[&[u8]], part: &[u8]| apply_haplotype(&settings, &table(&settings, variants), &haplotype(&settings, part)).map(|_| ()).map_err(Refusal::number);
        assert_eq!(asked(&[b"ACGT", b"ANCNG"], b"ACGT"), wanted);
        // a part may be so
        assert_eq!(asked(&[b"ACGT"], b"ANCNG"), Ok(()));
    }
}

/// The library is lent counted rows and cannot see how they were counted: what is not of the settings' reading is not lent, a 6 in its place of the order.
#[test]
fn one_reading_for_table_haplotype_and_settings() {
    let [every, read] = [settings(0), settings(1)];
    let (rows, part) = (&[&b"ACGT"[..], b"TTGG"][..], &b"ACGT"[..]);
    for (one, other) in [(every, read), (read, every)] {
        let (own, own_part) = (table(&one, rows), haplotype(&one, part));
        assert!(apply_haplotype(&one, &own, &own_part).is_ok());
        assert_eq!(number(apply_haplotype(&other, &own, &own_part)), 6);
        assert_eq!(number(apply_haplotype(&one, &table(&other, rows), &own_part)), 6);
        assert_eq!(number(apply_haplotype(&one, &own, &haplotype(&other, part))), 6);
        // after 1 to 5, as another k is
        assert_eq!(number(apply_haplotype(&Settings { maxpaths: 4_096, ..other }, &own, &own_part)), 3);
        assert_eq!(number(apply_haplotype(&other, &one.table(), &own_part)), 4);
        // of several haplotypes that one alone is refused
        let answers = apply_haplotypes(&one, &own, &[own_part.clone(), haplotype(&other, part), own_part]).expect("accepted");
        assert_eq!(answers.into_iter().map(|one| one.map_or_else(Refusal::number, |_| 0)).collect::<Vec<_>>(), [0, 6, 0]);
        // one of no parts has counted nothing
        assert!(apply_haplotype(&one, &own, &other.haplotype()).is_ok());
    }
}

#[test]
fn a_third_reading_is_a_3() {
    let third = settings(2);
    assert_eq!(number(third.table().insertion(1, b"ACGT")), 3);
    assert_eq!(number(third.haplotype().insertion(b"ACGT")), 3);
    assert_eq!(number(apply_haplotype(&third, &table(&settings(0), &[b"ACGT"]), &haplotype(&settings(0), b"ACGT"))), 3);
}
