//! BED: what is refused, in which order, and the round trip.
use ndigomarr::Bed;

fn refused(text: &[u8]) -> u32 {
    Bed::read(text).err().map_or(0, |refusal| refusal.number())
}

/// So many lines `a 0 0`, and then the rest.
fn after(lines: usize, rest: &[u8]) -> Vec<u8> {
    [b"a\t0\t0\n".repeat(lines), rest.to_vec()].concat()
}

#[test]
fn the_empty_text_is_a_table_of_no_rows() {
    assert_eq!(Bed::read(b""), Ok(Bed::default()));
    assert_eq!(Bed::default().write(&[]), Ok(Vec::new()));
}

#[test]
fn one_form_of_a_number_is_taken() {
    for good in ["0", "9", "10", "18446744073709551615"] {
        assert_eq!(refused(format!("a\t0\t{good}\n").as_bytes()), 0, "{good}");
    }
    for bad in ["", "00", "01", "+1", "-1", " 1", "1 ", "1.0", "1e3", "x", "18446744073709551616", "99999999999999999999", "184467440737095516150"] {
        assert_eq!(refused(format!("a\t0\t{bad}\n").as_bytes()), 40, "{bad}");
    }
}

#[test]
fn exactly_three_columns_and_a_newline() {
    for bad in [&b"\n"[..], b"a\n", b"a\t0\n", b"a\t0\t1\t\n", b"a\t0\t1\tx\n", b"a 0 1\n", b"a\t0\t1", b"a\t0\t1\r\n", b"\t0\t1\n", b"a\xff\t0\t1\n", b"# x\na\t0\t1\n"] {
        assert_eq!(refused(bad), 40, "{bad:?}");
    }
    for (length, wanted) in [(1, 0), (32, 0), (33, 40)] {
        assert_eq!(refused(format!("{}\t0\t1\n", "n".repeat(length)).as_bytes()), wanted);
    }
}

#[test]
fn front_to_back_and_within_a_line() {
    assert_eq!(refused(&after(64, b"")), 0);
    // a sixty-fifth line before what is wrong with it
    assert_eq!(refused(&after(64, b"x")), 42);
    assert_eq!(refused(&after(63, b"b\t0\t0\nx")), 41);
    // a bad line before its other name, and a line before the next
    assert_eq!(refused(b"a\t0\t0\nb\t0\t00\n"), 40);
    assert_eq!(refused(b"a\t0\t0\nb\t0\t0\na\t0\n"), 41);
    // the text's faults before those of its numbers
    assert_eq!(refused(b"a\t2\t1\nb\t0\t0\n"), 41);
    assert_eq!(refused(b"a\t2\t3\na\t1\t0\n"), 7);
    assert_eq!(refused(b"a\t2\t3\na\t1\t3\n"), 8);
}

#[test]
fn chosen_rows_are_written() {
    let bed = Bed { name: b"reef".to_vec(), starts: vec![0, 5, 5], ends: vec![9, 5, u64::MAX] };
    assert_eq!(bed.write(&[0, 1, 2]).as_deref(), Ok(&b"reef\t0\t9\nreef\t5\t5\nreef\t5\t18446744073709551615\n"[..]));
    assert_eq!(bed.write(&[2, 0]).as_deref(), Ok(&b"reef\t5\t18446744073709551615\nreef\t0\t9\n"[..]));
    let number = |bed: &Bed, rows: &[u32]| bed.write(rows).err().map_or(0, |refusal| refusal.number());
    let unequal = Bed { ends: vec![9, 5], name: Vec::new(), ..bed.clone() };
    let unnamed = Bed { name: b"a b".to_vec(), ..bed.clone() };
    assert_eq!((number(&unequal, &[]), number(&unequal, &[3])), (6, 6));
    assert_eq!((number(&unnamed, &[]), number(&unnamed, &[3])), (0, 40));
    assert_eq!((number(&bed, &[3]), number(&bed, &[0, u32::MAX])), (44, 44));
}
