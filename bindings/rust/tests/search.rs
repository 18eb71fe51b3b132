//! What a search answers: document 01's example, ties, a stopped search, one-to-one, squish, and partial targets.
use ndigomarr::{apply_haplotype, apply_haplotype_in, Answer, Haplotype, Room, Settings, Table, Target};

/// Document 01's example.
fn example_settings() -> Settings {
    Settings {
        k: 1,
        squish: false,
        one_to_one: false,
        full: true,
        maxpaths: 10,
        maxnodes: 10,
        fnmax: 1,
        pileupmax: 5,
        minkfreq: 1,
        letters: 0,
        sizesim: 0.5,
        seqsim: 0.5,
        fpenalty: 0.0,
        gpenalty: 0.0,
    }
}

/// Variants of these letters, none of which overlaps another.
fn table(variants: &[&[u8]]) -> Table {
    let mut table = Table::new(1);
    for (at, letters) in variants.iter().enumerate() {
        let start = 10 * (at as u64 + 1);
        table.add(start, start, letters.len() as i32, letters, false).expect("few letters");
    }
    table
}

fn haplotype(parts: &[&[u8]]) -> Haplotype {
    let mut haplotype = Haplotype::new(1);
    for letters in parts {
        haplotype.add(letters.len() as i32, letters, false).expect("few letters");
    }
    haplotype
}

fn nothing(scored: u32, complete: bool) -> Answer {
    Answer { rows: vec![], records: vec![], target: Target::Nothing, score: 0.0, sizesim: 0.0, seqsim: 0.0, scored, complete }
}

/// The records are the row numbers, as for any table that is given no others.
fn found(rows: &[usize], target: Target, score: f32, scored: u32) -> Answer {
    Answer { rows: rows.to_vec(), records: rows.iter().map(|&row| row as u32).collect(), target, score, sizesim: 1.0, seqsim: 1.0, scored, complete: true }
}

#[test]
fn the_worked_example() {
    let answer = apply_haplotype(&example_settings(), &table(&[b"AG", b"CT"]), &haplotype(&[b"AG"]));
    assert_eq!(answer, Ok(found(&[0], Target::Whole, 1.0, 4)));
}

#[test]
fn a_later_equal_path_wins() {
    // both rows are as near, and the higher row is queued first
    let answer = apply_haplotype(&example_settings(), &table(&[b"AG", b"AG"]), &haplotype(&[b"AG"]));
    assert_eq!(answer.map(|answer| answer.rows), Ok(vec![0]));
}

#[test]
fn a_stopped_search_says_so() {
    let (table, haplotype) = (table(&[b"AG", b"CT"]), haplotype(&[b"AG"]));
    let stopped = |maxpaths| apply_haplotype(&Settings { maxpaths, ..example_settings() }, &table, &haplotype);
    assert_eq!(stopped(0), Ok(nothing(1, false)));
    assert_eq!(stopped(1), Ok(nothing(2, false)));
    assert_eq!(stopped(2), Ok(Answer { complete: false, ..found(&[0], Target::Whole, 1.0, 3) }));
    assert_eq!(stopped(3), Ok(found(&[0], Target::Whole, 1.0, 4)));
}

#[test]
fn one_to_one_takes_the_latest_row() {
    let (table, haplotype) = (table(&[b"AG", b"AG", b"CT"]), haplotype(&[b"A", b"G"]));
    let asked = Settings { one_to_one: true, ..example_settings() };
    let by_maxnodes = Settings { maxnodes: 2, ..example_settings() };
    for settings in [asked, by_maxnodes] {
        assert_eq!(apply_haplotype(&settings, &table, &haplotype), Ok(found(&[1], Target::Whole, 1.0, 5)));
    }
}

#[test]
fn one_to_one_without_a_candidate() {
    let settings = Settings { one_to_one: true, ..example_settings() };
    assert_eq!(apply_haplotype(&settings, &table(&[b"CT"]), &haplotype(&[b"AG"])), Ok(nothing(3, true)));
}

#[test]
fn squish_takes_off_for_each_further_row() {
    let (table, haplotype) = (table(&[b"A", b"GG"]), haplotype(&[b"A", b"GG"]));
    let settings = Settings { gpenalty: 0.25, ..example_settings() };
    assert_eq!(apply_haplotype(&settings, &table, &haplotype), Ok(found(&[0, 1], Target::Whole, 1.0, 4)));
    let settings = Settings { squish: true, ..settings };
    assert_eq!(apply_haplotype(&settings, &table, &haplotype), Ok(found(&[0], Target::Partial(1), 1.0, 4)));
}

#[test]
fn squish_keeps_the_empty_path_from_matching() {
    let settings = Settings { pileupmax: 0, sizesim: 0.0, seqsim: 0.0, ..example_settings() };
    let (table, haplotype) = (table(&[b"A"]), haplotype(&[]));
    let empty = Answer { seqsim: 0.0, ..found(&[], Target::Whole, 0.5, 2) };
    assert_eq!(apply_haplotype(&settings, &table, &haplotype), Ok(empty));
    let settings = Settings { squish: true, ..settings };
    assert_eq!(apply_haplotype(&settings, &table, &haplotype), Ok(nothing(2, true)));
}

#[test]
fn a_part_list_that_leaves_parts_out() {
    let settings = Settings { fnmax: 2, fpenalty: 0.25, sizesim: 0.9, seqsim: 0.9, ..example_settings() };
    let haplotype = haplotype(&[b"AG", b"CCCC", b"TTTTTTTT"]);
    let one = apply_haplotype(&settings, &table(&[b"AG"]), &haplotype);
    assert_eq!(one, Ok(found(&[0], Target::Partial(2), 0.5, 2)));
    let two = apply_haplotype(&settings, &table(&[b"AG", b"CCCC"]), &haplotype);
    assert_eq!(two, Ok(found(&[0, 1], Target::Partial(1), 0.75, 4)));
}

#[test]
fn a_bare_graph_has_the_empty_path_alone() {
    let settings = Settings { full: false, ..example_settings() };
    assert_eq!(apply_haplotype(&settings, &table(&[b"AG"]), &haplotype(&[b"AG"])), Ok(nothing(1, true)));
}

#[test]
fn a_room_serves_one_search_after_the_other() {
    let (table, haplotype) = (table(&[b"AG", b"CT"]), haplotype(&[b"AG"]));
    let mut room = Room::new();
    for maxpaths in [10, 4_095, 0, 10] {
        let settings = Settings { maxpaths, ..example_settings() };
        assert_eq!(apply_haplotype_in(&settings, &table, &haplotype, &mut room), apply_haplotype(&settings, &table, &haplotype));
    }
    assert_eq!(room.bytes(), 12 * (1 + 4_096 * 2));
}
