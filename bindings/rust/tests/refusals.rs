//! Every refusal of a search that a safe caller can reach. 11 and 12 it cannot: the room is made to fit.
use ndigomarr::{apply_haplotype, Haplotype, Refusal, Settings, Table};

fn one_letter() -> Settings {
    Settings { k: 1, ..Settings::default() }
}

/// So many variants of one letter.
fn table(variants: u64) -> Table {
    let mut table = Table::new(1);
    for at in 0..variants {
        table.add_counted(at, at, 1, &[1, 0, 0, 0]);
    }
    table
}

/// So many parts of one letter.
fn haplotype(parts: usize) -> Haplotype {
    let mut haplotype = Haplotype::new(1);
    for _ in 0..parts {
        haplotype.add_counted(1, &[1, 0, 0, 0]);
    }
    haplotype
}

/// A variant that `change` spoils, and a record number that is there already.
fn repeated(change: impl Fn(&mut Table)) -> Table {
    let mut table = table(2);
    change(&mut table);
    table.with_record_numbers(&[7, 8, 7])
}

fn refusal(settings: &Settings, table: &Table, haplotype: &Haplotype) -> Refusal {
    apply_haplotype(settings, table, haplotype).expect_err("refused")
}

fn number(settings: &Settings, table: &Table, haplotype: &Haplotype) -> u32 {
    refusal(settings, table, haplotype).number()
}

#[test]
fn the_largest_call_is_accepted() {
    assert!(apply_haplotype(&one_letter(), &table(64), &haplotype(64)).is_ok());
}

#[test]
fn settings_outside_their_limits() {
    let with = |change: &dyn Fn(&mut Settings)| {
        let mut settings = one_letter();
        change(&mut settings);
        number(&settings, &table(1), &haplotype(1))
    };
    assert_eq!(with(&|s| s.k = 0), 1);
    assert_eq!(with(&|s| s.k = 7), 1);
    assert_eq!(with(&|s| s.sizesim = f32::NAN), 2);
    assert_eq!(with(&|s| s.seqsim = 1.5), 2);
    assert_eq!(with(&|s| s.fpenalty = -0.5), 2);
    assert_eq!(with(&|s| s.gpenalty = f32::INFINITY), 2);
    assert_eq!(with(&|s| s.maxpaths = 4_096), 3);
    assert_eq!(with(&|s| s.maxnodes = 65_536), 3);
    assert_eq!(with(&|s| s.fnmax = 65_536), 3);
    assert_eq!(with(&|s| s.pileupmax = 13), 3);
    assert_eq!(with(&|s| s.minkfreq = 16_777_217), 3);
    for letters in [2, 3, 255] {
        assert_eq!(with(&|s| s.letters = letters), 3);
    }
}

#[test]
fn numbers_of_variants_and_parts() {
    assert_eq!(number(&one_letter(), &table(0), &haplotype(1)), 4);
    assert_eq!(number(&one_letter(), &table(65), &haplotype(1)), 5);
    assert_eq!(number(&one_letter(), &table(1), &haplotype(65)), 5);
}

#[test]
fn rows_counted_for_another_k() {
    let settings = Settings { k: 2, ..one_letter() };
    assert_eq!(number(&settings, &table(1), &haplotype(1)), 6);
    let mut longer = haplotype(1);
    longer.add_counted(1, &[1, 0, 0, 0, 0]);
    assert_eq!(number(&one_letter(), &table(1), &longer), 6);
}

#[test]
fn bounds_out_of_order() {
    let mut turned = Table::new(1);
    turned.add_counted(2, 1, 1, &[1, 0, 0, 0]);
    assert_eq!(number(&one_letter(), &turned, &haplotype(1)), 7);
    let mut falling = table(3);
    falling.add_counted(1, 9, 1, &[1, 0, 0, 0]);
    assert_eq!(number(&one_letter(), &falling, &haplotype(1)), 8);
}

#[test]
fn sizes_and_rows_over_their_limits() {
    for (size, row, wanted) in [(131_073, [1, 0, 0, 0], 9), (i32::MIN, [1, 0, 0, 0], 9), (1, [131_072, -1, 0, 0], 10)] {
        let mut large = table(1);
        large.add_counted(1, 1, size, &row);
        assert_eq!(number(&one_letter(), &large, &haplotype(1)), wanted);
        let mut part = haplotype(1);
        part.add_counted(size, &row);
        assert_eq!(number(&one_letter(), &table(1), &part), wanted);
    }
}

#[test]
fn other_than_one_record_number_for_each_variant() {
    for numbers in [&[][..], &[0, 1], &[0, 1, 2, 3]] {
        assert_eq!(number(&one_letter(), &table(3).with_record_numbers(numbers), &haplotype(1)), 6);
    }
    // it stands with the other lengths: after 4 and 5, before 7
    assert_eq!(number(&one_letter(), &table(0).with_record_numbers(&[0]), &haplotype(1)), 4);
    assert_eq!(number(&one_letter(), &table(65).with_record_numbers(&[0]), &haplotype(1)), 5);
    let mut turned = Table::new(1);
    turned.add_counted(2, 1, 1, &[1, 0, 0, 0]);
    assert_eq!(number(&one_letter(), &turned.with_record_numbers(&[0, 1]), &haplotype(1)), 6);
}

#[test]
fn a_repeated_record_number() {
    let with = |numbers: &[u32]| number(&one_letter(), &table(4).with_record_numbers(numbers), &haplotype(1));
    assert_eq!(with(&[5, 5, 6, 7]), 14);
    assert_eq!(with(&[5, 6, 7, 5]), 14);
    assert_eq!(with(&[9, u32::MAX, 0, u32::MAX]), 14);
    let mut most: Vec<u32> = (0..64).collect();
    assert!(apply_haplotype(&one_letter(), &table(64).with_record_numbers(&most), &haplotype(1)).is_ok());
    most[63] = 0;
    assert_eq!(number(&one_letter(), &table(64).with_record_numbers(&most), &haplotype(1)), 14);
}

#[test]
fn a_repeated_record_number_comes_after_8_and_before_9() {
    let row = [1, 0, 0, 0];
    assert_eq!(number(&one_letter(), &repeated(|table| table.add_counted(9, 8, 1, &row)), &haplotype(1)), 7);
    assert_eq!(number(&one_letter(), &repeated(|table| table.add_counted(0, 9, 1, &row)), &haplotype(1)), 8);
    assert_eq!(number(&one_letter(), &repeated(|table| table.add_counted(9, 9, 131_073, &row)), &haplotype(1)), 14);
    assert_eq!(number(&one_letter(), &repeated(|table| table.add_counted(9, 9, 1, &[131_073, 0, 0, 0])), &haplotype(1)), 14);
    let mut part = haplotype(1);
    part.add_counted(131_073, &row);
    assert_eq!(number(&one_letter(), &repeated(|table| table.add_counted(9, 9, 1, &row)), &part), 14);
}

/// The table with a row all zero behind it.
fn with_empty_row(mut table: Table) -> Table {
    table.add_counted(70, 70, 1, &[0; 4]);
    table
}

#[test]
fn a_variants_row_all_zero_in_every_mode() {
    for (one_to_one, full, maxnodes) in [(false, true, 5000), (true, true, 5000), (false, false, 5000), (true, false, 5000), (false, true, 1)] {
        let settings = Settings { one_to_one, full, maxnodes, ..one_letter() };
        assert_eq!(number(&settings, &with_empty_row(table(0)), &haplotype(1)), 16);
        assert_eq!(number(&settings, &with_empty_row(table(63)), &haplotype(0)), 16);
        // one entry is enough, the last or below zero
        let mut scarce = table(1);
        scarce.add_counted(1, 1, 1, &[0, 0, 0, -1]);
        assert!(apply_haplotype(&settings, &scarce, &haplotype(1)).is_ok());
    }
}

#[test]
fn fewer_letters_than_k() {
    for k in 1..=6 {
        let settings = Settings { k, ..Settings::default() };
        let with = |letters: &[u8], part: &[u8]| {
            let (mut table, mut haplotype) = (Table::new(k), Haplotype::new(k));
            table.add(1, 1, 1, letters, false).expect("few letters");
            haplotype.add(1, part, false).expect("few letters");
            apply_haplotype(&settings, &table, &haplotype)
        };
        let (few, enough) = (&b"GATTACA"[..k as usize - 1], &b"GATTACA"[..k as usize]);
        assert_eq!(with(few, enough).map_err(Refusal::number), Err(16));
        // a part may have as few
        assert!(with(enough, few).is_ok());
    }
}

#[test]
fn a_row_all_zero_comes_after_10() {
    let mut large = table(1);
    large.add_counted(1, 1, 1, &[131_072, -1, 0, 0]);
    assert_eq!(number(&one_letter(), &with_empty_row(large), &haplotype(1)), 10);
    for (size, row, wanted) in [(131_073, [1, 0, 0, 0], 9), (1, [131_073, 0, 0, 0], 10), (1, [0; 4], 16)] {
        let mut part = haplotype(1);
        part.add_counted(size, &row);
        assert_eq!(number(&one_letter(), &with_empty_row(table(1)), &part), wanted);
    }
    assert_eq!(number(&one_letter(), &with_empty_row(table(1)).with_record_numbers(&[3, 3]), &haplotype(1)), 14);
}

#[test]
fn letters_that_are_not_counted() {
    let mut table = Table::new(7);
    assert_eq!(table.add(1, 1, 1, b"A", false).map_err(Refusal::number), Err(1));
    assert!(table.is_empty());
    let mut haplotype = Haplotype::new(6);
    assert_eq!(haplotype.add(1, &vec![b'A'; 131_073], false).map_err(Refusal::number), Err(13));
    assert!(haplotype.is_empty());
}

#[test]
fn a_refusal_says_the_tables_words() {
    let said = refusal(&Settings { k: 9, ..one_letter() }, &table(1), &haplotype(1));
    assert_eq!(said.to_string(), "refused 1: k not 1 to 6");
    let repeated = refusal(&one_letter(), &table(2).with_record_numbers(&[3, 3]), &haplotype(1));
    assert_eq!(repeated.to_string(), "refused 14: a repeated record number");
    let empty = refusal(&one_letter(), &with_empty_row(table(1)), &haplotype(1));
    assert_eq!((empty, empty.to_string().as_str()), (Refusal::EmptyRow, "refused 16: a variant's feature row is all zero"));
    let error: Box<dyn std::error::Error> = said.into();
    assert_eq!(error.to_string(), said.to_string());
}
