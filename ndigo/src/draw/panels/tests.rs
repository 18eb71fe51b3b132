//! The geometry of pictures: no two labels' boxes meet, and all stand inside.
use super::*;
use crate::model::Sequence;

fn variant(name: String, start: u64, end: u64, size: i32) -> Variant {
    Variant { start, end, record: None, sequence: Sequence { name, size, negative: size < 0, letters: vec![], line: 0 } }
}

fn part(name: String, size: i32) -> Sequence {
    Sequence { name, size, negative: size < 0, letters: vec![], line: 0 }
}

fn marks(sheet: &Sheet, rows: Vec<usize>) -> Marks {
    let parts = (0..sheet.parts.len()).map(|at| [Use::Used, Use::LeftOut, Use::Unknown][at % 3]).collect();
    Marks { title: "a title".into(), caption: "a caption".into(), rows, parts }
}

fn meet(a: [f64; 4], b: [f64; 4]) -> bool {
    a[0] < b[2] && b[0] < a[2] && a[1] < b[3] && b[1] < a[3]
}

/// Draws it with some rows marked, and looks at every pair of labels.
fn stand_apart(sheet: &Sheet) -> Picture {
    let rows = (0..sheet.variants.len()).step_by(3).collect();
    let drawn = picture(sheet, &marks(sheet, rows));
    let labels = drawn.labels();
    for (at, label) in labels.iter().enumerate() {
        let [left, top, right, bottom] = label.bounds();
        assert!(left >= 0.0 && top >= 0.0 && right <= drawn.width && bottom <= drawn.height, "outside: {label:?}");
        for other in &labels[..at] {
            assert!(!meet(label.bounds(), other.bounds()), "{label:?} meets {other:?}");
        }
    }
    drawn
}

fn sheet(variants: Vec<Variant>, parts: usize) -> Sheet {
    let parts = (0..parts).map(|at| part(format!("read-{at}"), at as i32 * 7 - 9)).collect();
    Sheet { variants, parts, ..Sheet::default() }
}

#[test]
fn three_sixteen_and_sixty_four_rows() {
    for (rows, parts) in [(3, 2), (16, 8), (64, 64), (1, 0), (0, 0)] {
        let variants = (0..rows).map(|row| variant(format!("St-{row}"), row * 11, row * 11 + row % 5 * 7, 3 - row as i32)).collect();
        stand_apart(&sheet(variants, parts));
    }
}

#[test]
fn long_names_stay_distinct() {
    let name = |row: u64| format!("a station <name> & more that nobody could fit beside its row, number {row}, of the cruise of the year 2026 to the outer reefs of Ndigo-Marr");
    let drawn = stand_apart(&sheet((0..64).map(|row| variant(name(row), row, row + 30, -30)).collect(), 3));
    let names: Vec<&str> = drawn.labels().iter().filter(|label| label.look != FAINT).map(|label| label.words.as_str()).filter(|words| words.starts_with("a station")).collect();
    assert_eq!(names.len(), 64);
    assert_eq!(names.iter().collect::<std::collections::HashSet<_>>().len(), 64);
}

#[test]
fn the_longest_record_numbers() {
    let mut sheet = sheet((0..16).map(|row| variant(format!("WWW MMM {row}"), row, row + 30, 1)).collect(), 1);
    for (row, variant) in sheet.variants.iter_mut().enumerate() {
        variant.record = Some(u32::MAX - row as u32);
    }
    sheet.numbered = true;
    stand_apart(&sheet);
}

#[test]
fn nested_rows() {
    let variants = (0..16).map(|row| variant(format!("nest-{row}"), row * 10, 400 - row * 10, -100)).collect();
    let drawn = stand_apart(&sheet(variants, 2));
    assert!(drawn.labels().iter().any(|label| label.words.ends_with("more")));
}

#[test]
fn far_apart_tables_have_a_broken_axis() {
    let far = |row: u64| variant(format!("far-{row}"), row / 3 * 50_000_000 + row % 3 * 40, row / 3 * 50_000_000 + row % 3 * 40 + 25, -25);
    let sheet = sheet((0..9).map(far).collect(), 2);
    let layout = Layout::of(&sheet);
    let scale = Scale::of(&sheet.variants, layout.left, layout.right);
    assert_eq!(scale.segments.len(), 3);
    for v in &sheet.variants {
        assert!(scale.across(v.end) - scale.across(v.start) > 10.0, "{v:?}");
    }
    let drawn = stand_apart(&sheet);
    assert!(drawn.labels().iter().any(|label| label.words.ends_with("the axis is broken")));
}

#[test]
fn near_tables_have_a_whole_axis() {
    for step in [1, 10, 1_000_000] {
        let sheet = sheet((0..12).map(|row| variant(format!("near-{row}"), row * step, row * step, 4)).collect(), 1);
        let layout = Layout::of(&sheet);
        assert_eq!(Scale::of(&sheet.variants, layout.left, layout.right).segments.len(), 1);
    }
}

#[test]
fn odd_tables() {
    let top = u64::MAX;
    let (a, b, c) = (variant("A".into(), 0, top, 1), variant("B".into(), 9, 3, -1), variant("C".into(), top, top, i32::MIN));
    for rows in [vec![], vec![variant("A".into(), 0, 0, 1)], vec![a.clone(), b.clone(), c.clone()], vec![b, c.clone()], vec![c], vec![a]] {
        stand_apart(&sheet(rows, 1));
    }
}

#[test]
fn names_in_wide_letters() {
    stand_apart(&sheet((0..5).map(|row| variant(format!("Ndigo-Mārr 礁礁礁 {row}"), row, row + 9, 1)).collect(), 1));
}

proptest::proptest! {
    #![proptest_config(proptest::prelude::ProptestConfig::with_cases(60))]
    #[test]
    fn any_table_stands_apart(rows in proptest::collection::vec((0u64..5_000_000_000, 0u64..300, -200_000i32..200_000, "[A-Za-z0-9 ,<&._-]{1,60}"), 1..64), parts in 0usize..20) {
        let variants = rows.iter().enumerate().map(|(row, (start, long, size, name))| variant(format!("{name}{row}"), *start, start + long, *size)).collect();
        stand_apart(&sheet(variants, parts));
    }
}
