//! The smaller calls: the counter, seqsim, sizesim and the chain count, with good and bad input.
use ndigomarr::{count_chains, seq_to_kmer, seq_to_kmer_into, seqsim, sizesim, Refusal, Table};

fn number<T: std::fmt::Debug>(said: Result<T, Refusal>) -> u32 {
    said.expect_err("refused").number()
}

#[test]
fn counts_windows_of_k_letters() {
    let mut wanted = vec![0; 16];
    (wanted[2], wanted[9], wanted[7]) = (1, 1, 1);
    assert_eq!(seq_to_kmer(b"ACGT", 2, false, 0), Ok(wanted.clone()));
    assert_eq!(seq_to_kmer(b"acgt", 2, true, 0), Ok(wanted.iter().map(|x| -x).collect()));
    assert_eq!(seq_to_kmer(b"AC", 3, false, 0), Ok(vec![0; 64]));
    assert_eq!(seq_to_kmer(b"", 1, false, 0), Ok(vec![0; 4]));
    assert_eq!(seq_to_kmer(&vec![b'N'; 131_072], 6, false, 0).map(|row| row[0]), Ok(131_067));
}

#[test]
fn what_unread_letters_do_in_each_reading() {
    // N, R, - and 0xff are no letters that were read; n is as N, and a c g t are as A C G T
    assert_eq!(seq_to_kmer(b"aNcR-\xffnT", 1, false, 0), Ok(vec![6, 0, 1, 1]));
    assert_eq!(seq_to_kmer(b"aNcR-\xffnT", 1, false, 1), Ok(vec![1, 0, 1, 1]));
    // AC and GT are windows of two, CN, NG are not
    let mut wanted = vec![0; 16];
    (wanted[2], wanted[7]) = (-1, -1);
    assert_eq!(seq_to_kmer(b"ACNGT", 2, true, 1), Ok(wanted));
    assert_eq!(seq_to_kmer(b"ACNGT", 3, false, 1), Ok(vec![0; 64]));
    assert_eq!(seq_to_kmer(b"ACNGTAGC", 3, false, 1), seq_to_kmer(b"GTAGC", 3, false, 0));
    assert_eq!(seq_to_kmer(&vec![b'N'; 131_072], 6, false, 1), Ok(vec![0; 4_096]));
    for letters in [&b"acGGttCATG"[..], b"", b"AC"] {
        assert_eq!(seq_to_kmer(letters, 3, true, 1), seq_to_kmer(letters, 3, true, 0));
    }
}

#[test]
fn the_counter_refuses() {
    assert_eq!(number(seq_to_kmer(b"ACGT", 0, false, 0)), 1);
    assert_eq!(number(seq_to_kmer(b"ACGT", 7, false, 0)), 1);
    assert_eq!(number(seq_to_kmer(&vec![b'A'; 131_073], 6, false, 0)), 13);
    // a reading other than 0 or 1 comes after k, and before room and letters
    for letters in [2, 3, 255] {
        assert_eq!(number(seq_to_kmer(b"ACGT", 2, false, letters)), 3);
        assert_eq!(number(seq_to_kmer(b"ACGT", 7, false, letters)), 1);
        assert_eq!(number(seq_to_kmer_into(&vec![b'A'; 131_073], 2, false, letters, &mut [5; 15])), 3);
    }
    let mut row = [5; 15];
    assert_eq!(number(seq_to_kmer_into(b"ACGT", 2, false, 0, &mut row)), 6);
    assert_eq!(row, [5; 15]);
}

#[test]
fn seqsim_of_two_rows() {
    let (a, b) = ([1, 1, 1, 1], [1, 1, 0, 0]);
    assert_eq!(seqsim(&a, &b, 1), Ok(1.0 - (2.0f32 / 6.0)));
    assert_eq!(seqsim(&a, &b, 2), Ok(1.0));
    assert_eq!(seqsim(&a, &b, 3), Ok(0.0));
    assert_eq!(seqsim(&[], &[], 0), Ok(0.0));
    assert_eq!(seqsim(&[-8_388_608], &[8_388_608], 0), Ok(0.0));
}

#[test]
fn seqsim_refuses() {
    assert_eq!(number(seqsim(&[1], &[1], 16_777_217)), 3);
    assert_eq!(number(seqsim(&[1], &[1, 1], 0)), 6);
    assert_eq!(number(seqsim(&[8_388_608, 1], &[0, 0], 0)), 10);
    assert_eq!(number(seqsim(&[0], &[i32::MIN], 0)), 10);
}

#[test]
fn sizesim_of_two_sizes() {
    assert_eq!(sizesim(0, 1), Ok(1.0));
    assert_eq!(sizesim(0, 4), Ok(0.25));
    assert_eq!(sizesim(0, 0), Ok(1.0));
    assert_eq!(number(sizesim(8_388_608, 8_388_609)), 9);
    assert_eq!(number(sizesim(u64::MAX, 0)), 9);
}

fn table(bounds: &[(u64, u64)]) -> Table {
    let mut table = Table::new(1);
    for &(start, end) in bounds {
        table.add(start, end, 1, b"A", false).expect("one letter");
    }
    table
}

#[test]
fn counts_chains_up_to_a_cap() {
    let five = table(&[(0, 10), (5, 5), (6, 8)]);
    assert_eq!(count_chains(&five, true, 4_096), Ok(5));
    assert_eq!(count_chains(&five, true, 4), Ok(4));
    assert_eq!(count_chains(&five, true, 0), Ok(0));
    assert_eq!(count_chains(&five, false, 4_096), Ok(1));
    // an insertion at the start or end of a deletion, or beside another one, keeps nothing back
    assert_eq!(count_chains(&table(&[(0, 0), (0, 10), (10, 10), (10, 10)]), true, 4_096), Ok(16));
    // every two rows of a path are asked, not neighbours alone: none, 0, 1, 2, 0 1 and 1 2
    assert_eq!(count_chains(&table(&[(0, 10), (0, 0), (5, 8)]), true, 4_096), Ok(6));
    let many: Vec<(u64, u64)> = (0..64).map(|at| (at, at)).collect();
    assert_eq!(count_chains(&table(&many), true, 4_096), Ok(4_096));
}

#[test]
fn the_chain_count_refuses() {
    let many: Vec<(u64, u64)> = (0..65).map(|at| (at, at)).collect();
    assert_eq!(number(count_chains(&table(&[(1, 1)]), true, 4_097)), 3);
    assert_eq!(number(count_chains(&table(&[]), true, 1)), 4);
    assert_eq!(number(count_chains(&table(&many), true, 1)), 5);
    assert_eq!(number(count_chains(&table(&[(2, 1)]), true, 1)), 7);
    assert_eq!(number(count_chains(&table(&[(2, 2), (1, 1)]), true, 1)), 8);
}
