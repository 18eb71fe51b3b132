//! A companions sheet as a caller sees it. The drawn steps stand where the flags are seen, src/companions/drawn.rs.
use ndigomarr::{Companions, Refusal};

#[test]
fn what_was_added_is_taken_away() {
    let mut companions = Companions::new();
    for start in 0..64 {
        companions.add(start, start + 3).expect("a row");
    }
    assert_eq!(companions.add(64, 64), Err(Refusal::TooMany));
    while companions.len() > 1 {
        let last = companions.len() as u32 - 1;
        let counts: Vec<_> = (0..last).map(|row| companions.count(row).expect("there") - u32::from(companions.together(row, last).expect("there"))).collect();
        companions.remove().expect("a row");
        assert_eq!((0..last).map(|row| companions.count(row).expect("there")).collect::<Vec<_>>(), counts);
    }
    assert_eq!((companions.remove(), companions.remove()), (Ok(()), Err(Refusal::MissingRow)));
    assert_eq!((companions.together(0, 0), companions.count(0)), (Err(Refusal::MissingRow), Err(Refusal::MissingRow)));
    // what lies behind the last row is no part of it
    assert_eq!(companions, Companions::new());
}
