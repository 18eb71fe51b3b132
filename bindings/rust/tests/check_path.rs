//! Somebody else's path: the answer's own gets a yes, and one row, position or bit off a no.
use ndigomarr::{apply_haplotype, check_path, Haplotype, Refusal, Settings, Table, Target};

fn settings() -> Settings {
    Settings { k: 1, minkfreq: 1, sizesim: 0.5, seqsim: 0.5, ..Settings::default() }
}

/// Insertions of these letters, none of which overlaps another.
fn table(letters: &[&[u8]]) -> Table {
    let mut table = Table::new(1);
    for (at, letters) in letters.iter().enumerate() {
        table.insertion(10 * at as u64, letters).expect("few letters");
    }
    table
}

fn haplotype(parts: &[&[u8]]) -> Haplotype {
    let mut haplotype = Haplotype::new(1);
    for letters in parts {
        haplotype.insertion(letters).expect("few letters");
    }
    haplotype
}

#[test]
fn one_thing_off_is_a_no() {
    let (settings, table, haplotype) = (settings(), table(&[b"AG", b"CC", b"TTT"]), haplotype(&[b"AG", b"TTT", b"CCCCCC"]));
    let answer = apply_haplotype(&settings, &table, &haplotype).expect("accepted");
    assert_eq!((answer.rows.as_slice(), answer.target), (&[0, 2][..], Target::Partial(1)));
    let asked = |rows: &[usize], positions: &[usize], score: f32| check_path(&settings, &table, &haplotype, rows, positions, score).expect("accepted");
    assert!(asked(&[0, 2], &[0, 1], answer.score));
    for rows in [&[][..], &[0], &[2], &[2, 0], &[0, 0, 2], &[0, 1, 2], &[0, 2, 3], &[0, usize::MAX]] {
        assert!(!asked(rows, &[0, 1], answer.score), "{rows:?}");
    }
    for positions in [&[][..], &[0], &[1, 0], &[0, 0, 1], &[0, 1, 2], &[0, 3], &[0, usize::MAX]] {
        assert!(!asked(&[0, 2], positions, answer.score), "{positions:?}");
    }
    for bit in 0..32 {
        assert!(!asked(&[0, 2], &[0, 1], f32::from_bits(answer.score.to_bits() ^ 1 << bit)), "{bit}");
    }
    for score in [0.0, -0.0, f32::NAN, f32::INFINITY, -answer.score] {
        assert!(!asked(&[0, 2], &[0, 1], score), "{score}");
    }
}

#[test]
fn one_to_one_maxnodes_and_maxpaths_play_no_part() {
    let (table, haplotype) = (table(&[b"AG", b"CT"]), haplotype(&[b"AG"]));
    for settings in [Settings { one_to_one: true, ..settings() }, Settings { maxnodes: 0, ..settings() }, Settings { maxpaths: 0, ..settings() }] {
        assert_eq!(check_path(&settings, &table, &haplotype, &[0], &[0], 1.0), Ok(true));
    }
    assert_eq!(check_path(&Settings { maxnodes: 65_536, ..settings() }, &table, &haplotype, &[0], &[0], 1.0), Err(Refusal::BadNumber));
}

#[test]
fn the_empty_chain() {
    let (table, none) = (table(&[b"AG"]), Haplotype::new(1));
    let free = Settings { pileupmax: 0, sizesim: 0.0, seqsim: 0.0, ..settings() };
    let answer = apply_haplotype(&free, &table, &none).expect("accepted");
    assert!(answer.score > 0.0 && answer.rows.is_empty());
    assert_eq!(check_path(&free, &table, &none, &[], &[], answer.score), Ok(true));
    let squish = Settings { squish: true, ..free };
    assert_eq!(check_path(&squish, &table, &none, &[], &[], answer.score), Ok(false));
    // in a bare graph only the empty one is a chain
    let (bare, haplotype) = (Settings { full: false, ..settings() }, haplotype(&[b"AG"]));
    assert_eq!(check_path(&bare, &table, &haplotype, &[0], &[0], 1.0), Ok(false));
}

#[test]
fn a_long_proposal_is_a_54_after_the_others() {
    let (settings, table, haplotype) = (settings(), table(&[b"AG"]), haplotype(&[b"AG"]));
    for (rows, positions, wanted) in [(64, 64, Ok(false)), (65, 1, Err(Refusal::LongProposal)), (1, 65, Err(Refusal::LongProposal))] {
        assert_eq!(check_path(&settings, &table, &haplotype, &vec![0; rows], &vec![0; positions], 1.0), wanted);
    }
    let empty = self::table(&[b"AG", b""]);
    assert_eq!(check_path(&settings, &empty, &haplotype, &[0; 65], &[0], 1.0), Err(Refusal::EmptyRow));
}

/// All 64 parts in one list, and 64 rows: membership is asked by its rule.
#[test]
fn sixty_four_of_each() {
    let one: &[u8] = b"A";
    let settings = Settings { gpenalty: 0.0, ..settings() };
    let (table, haplotype) = (table(&[one; 64]), haplotype(&[one; 64]));
    let all: Vec<usize> = (0..64).collect();
    assert_eq!(check_path(&settings, &table, &haplotype, &all, &all, 1.0), Ok(true));
    assert_eq!(check_path(&settings, &table, &haplotype, &all, &all[1..], 1.0), Ok(false));
}
