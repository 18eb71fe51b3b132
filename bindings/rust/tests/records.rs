//! The records of an answer: the record numbers of its rows, in the rows' order.
use ndigomarr::{apply_haplotype, Answer, Haplotype, Settings, Table};

const LETTERS: [&[u8]; 4] = [b"AAAA", b"G", b"CC", b"TTT"];

fn settings() -> Settings {
    Settings { k: 1, minkfreq: 1, maxpaths: 100, ..Settings::default() }
}

/// Four variants, none of which overlaps another and of which no two are alike.
fn table() -> Table {
    let mut table = Table::new(1);
    for (at, letters) in LETTERS.iter().enumerate() {
        table.add(at as u64, at as u64, letters.len() as i32, letters, false).expect("few letters");
    }
    table
}

/// The haplotype that these rows explain.
fn haplotype(rows: &[usize]) -> Haplotype {
    let mut haplotype = Haplotype::new(1);
    for &row in rows {
        haplotype.add(LETTERS[row].len() as i32, LETTERS[row], false).expect("few letters");
    }
    haplotype
}

fn answer(table: &Table, rows: &[usize]) -> Answer {
    apply_haplotype(&settings(), table, &haplotype(rows)).expect("accepted")
}

#[test]
fn they_stand_in_the_rows_order() {
    for numbers in [[90, 20, 70, 40], [4, 3, 2, 1], [u32::MAX, 0, 1, 4_000_000_000]] {
        let table = table().with_record_numbers(&numbers);
        for rows in [&[0, 1, 2, 3][..], &[0, 2, 3], &[1, 3], &[2]] {
            let answer = answer(&table, rows);
            assert_eq!(answer.rows, rows);
            assert_eq!(answer.records, rows.iter().map(|&row| numbers[row]).collect::<Vec<u32>>());
        }
    }
}

#[test]
fn nothing_else_depends_on_them() {
    let (plain, numbered) = (table(), table().with_record_numbers(&[3, 1, 2, 0]));
    for rows in [&[0, 1, 2, 3][..], &[1, 2], &[3], &[]] {
        let [a, b] = [&plain, &numbered].map(|table| Answer { records: vec![], ..answer(table, rows) });
        assert_eq!(a, b);
    }
}

#[test]
fn row_numbers_where_there_are_no_others() {
    let answer = answer(&table(), &[1, 2, 3]);
    assert_eq!((answer.rows, answer.records), (vec![1, 2, 3], vec![1, 2, 3]));
}

#[test]
fn one_to_one_has_the_record_of_its_row() {
    let settings = Settings { one_to_one: true, ..settings() };
    let answer = apply_haplotype(&settings, &table().with_record_numbers(&[90, 20, 70, 40]), &haplotype(&[2])).expect("accepted");
    assert_eq!((answer.rows, answer.records), (vec![2], vec![70]));
}

#[test]
fn no_rows_have_no_records() {
    let answer = answer(&table().with_record_numbers(&[90, 20, 70, 40]), &[]);
    assert_eq!((answer.rows, answer.records), (vec![], vec![]));
}
