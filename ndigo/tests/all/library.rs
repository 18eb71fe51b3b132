//! What ndigo tells beforehand, and what it finds out afterwards, held to the library over random sheets.
use ndigo::model::{Sequence, Settings, Sheet, Variant};
use ndigo::refusals;
use ndigo::refusals::Refusal;
use ndigo::search::{answers, foretold, refused, used_parts, Foretold};
use ndigomarr::{Answer, Target};
use proptest::prelude::*;

/// The answer of a sheet of one haplotype.
fn answer(sheet: &Sheet) -> Result<Answer, Vec<Refusal>> {
    answers(sheet)?.remove(0)
}

fn sequence(name: String, size: i32, letters: &str) -> Sequence {
    Sequence { name, size, negative: size < 0, letters: letters.as_bytes().to_vec(), line: 0 }
}

/// Insertions and deletions of few letters, some of them unread, near each other, sorted by start; two letters always make a window of two.
fn variants(most: usize) -> impl Strategy<Value = Vec<Variant>> {
    let one = (0u64..60, 0u64..12, any::<bool>(), "[AGCT]{2}[AGCTN]{1,10}");
    proptest::collection::vec(one, 1..most).prop_map(|mut rows| {
        rows.sort_by_key(|row| row.0);
        let variant = |(row, (start, long, deletion, letters)): (usize, (u64, u64, bool, String))| {
            let size = if deletion { -(letters.len() as i32) } else { letters.len() as i32 };
            Variant { start, end: start + if deletion { long } else { 0 }, record: None, sequence: sequence(format!("V{row}"), size, &letters) }
        };
        rows.into_iter().enumerate().map(variant).collect()
    })
}

/// Parts that are some of the variants, and one that nothing explains.
fn with_parts(variants: Vec<Variant>, chosen: &[bool], noise: &str) -> Sheet {
    let mut parts: Vec<Sequence> = variants.iter().zip(chosen).filter(|(_, chosen)| **chosen).take(5).map(|(variant, _)| variant.sequence.clone()).collect();
    parts.insert(parts.len() / 2, sequence("noise".into(), noise.len() as i32, noise));
    let settings = ndigomarr::Settings { k: 2, minkfreq: 1, sizesim: 0.5, seqsim: 0.5, fpenalty: 0.0625, ..Default::default() };
    Sheet { settings: Settings::of_library(&settings), variants, parts, ..Sheet::default() }
}

/// Values around every limit: often accepted, often refused.
fn around_the_limits() -> impl Strategy<Value = Sheet> {
    let counts = (0u32..8, prop_oneof![0u32..9, Just(4095), Just(4096)], prop_oneof![Just(5000u32), Just(65_535), Just(65_536)], prop_oneof![0u32..12, Just(13)], 0u8..3);
    let float = prop_oneof![4 => Just(0.5f32), 1 => Just(-0.0), 1 => Just(1.5), 1 => Just(f32::NAN), 1 => Just(-1.0)];
    let size = prop_oneof![5 => -20i32..20, 1 => Just(131_072), 1 => Just(-131_073)];
    let letters = prop_oneof![6 => "[AGCTN]{6,12}", 2 => "[AGCTagctn-]{6,30}", 1 => "[AGCTN]{0,6}"];
    let one = (0u64..6, 0u64..6, size, letters);
    let rows = prop_oneof![8 => proptest::collection::vec(one.clone(), 0..5), 1 => proptest::collection::vec(one, 64..67)];
    let long = (prop::bool::weighted(0.1), prop::bool::weighted(0.1));
    // where there are any: so many rows have numbers of their own, and those behind the same again
    let different = prop_oneof![2 => Just(None), 1 => (1u32..6).prop_map(Some), 1 => Just(Some(u32::MAX))];
    (counts, float.clone(), float, rows, prop_oneof![8 => 0usize..4, 1 => 64usize..67], long, different).prop_map(|(counts, sizesim, fpenalty, rows, parts, long, different)| {
        let settings = ndigomarr::Settings { k: counts.0 as u8, maxpaths: counts.1, maxnodes: counts.2, pileupmax: counts.3, letters: counts.4, sizesim, fpenalty, ..Default::default() };
        let mut sheet = Sheet { settings: Settings::of_library(&settings), numbered: different.is_some(), ..Sheet::default() };
        for (row, (start, end, size, letters)) in rows.into_iter().enumerate() {
            // mostly in order
            let (start, end) = (start + row as u64 * 5, end + 1 + row as u64 * 5);
            let record = different.map(|different| u32::MAX - row as u32 % different);
            sheet.variants.push(Variant { start, end, record, sequence: sequence(format!("V{row}"), size, &letters) });
        }
        sheet.parts = (0..parts).map(|part| sequence(format!("P{part}"), 5, "AGCTA")).collect();
        // the last of them has too many letters, beyond the rows that are refused anyway too
        let last = [sheet.variants.last_mut().map(|variant| &mut variant.sequence).filter(|_| long.0), sheet.parts.last_mut().filter(|_| long.1)];
        last.into_iter().flatten().for_each(|sequence| sequence.letters = vec![b'C'; 131_073]);
        sheet
    })
}

proptest! {
    #![proptest_config(ProptestConfig::with_cases(400))]

    #[test]
    fn the_library_refuses_as_foretold(sheet in around_the_limits()) {
        let foretold = refusals::of(&sheet);
        prop_assert_eq!(&refused(&sheet), &foretold);
        match answer(&sheet) {
            Ok(_) => prop_assert_eq!(foretold, vec![]),
            Err(reasons) => prop_assert_eq!(reasons, foretold),
        }
    }

    #[test]
    fn a_search_stops_early_as_foretold(variants in variants(16), maxpaths in prop_oneof![0u32..200, Just(4094), Just(4095)], full in prop::bool::weighted(0.9)) {
        let mut sheet = with_parts(variants, &[], "AGCT");
        let settings = ndigomarr::Settings { maxpaths, full, ..sheet.settings.to_library() };
        sheet.settings = Settings::of_library(&settings);
        let complete = answer(&sheet).expect("within all limits").complete;
        match foretold(&sheet) {
            Foretold::ScoresAll => prop_assert!(complete),
            Foretold::StopsEarly => prop_assert!(!complete),
            Foretold::Open => prop_assert_eq!(maxpaths, 4095),
        }
    }

    /// The path against the used parts alone scores what it scored, and the penalty for those left out is not taken.
    #[test]
    fn the_used_parts_are_those_that_were_matched(variants in variants(9), chosen in any::<[bool; 8]>(), noise in "[AGCTN]{2,30}", letters in 0u8..2) {
        let mut sheet = with_parts(variants, &chosen, &noise);
        sheet.settings = Settings::of_library(&ndigomarr::Settings { letters, ..sheet.settings.to_library() });
        let found = answer(&sheet).expect("within all limits");
        let Some(used) = used_parts(&sheet, &found) else {
            prop_assert_eq!(found.target, Target::Nothing);
            return Ok(());
        };
        let left_out = sheet.parts.len() - used.len();
        prop_assert_eq!(found.target, if left_out == 0 { Target::Whole } else { Target::Partial(left_out as u32) });
        let settings = ndigomarr::Settings { fnmax: 0, ..sheet.settings.to_library() };
        let alone = Sheet {
            settings: Settings::of_library(&settings),
            variants: found.rows.iter().map(|&row| sheet.variants[row].clone()).collect(),
            parts: used.iter().map(|&part| sheet.parts[part].clone()).collect(),
            ..Sheet::default()
        };
        if !alone.variants.is_empty() {
            let again = answer(&alone).expect("within all limits");
            prop_assert!(again.score >= found.score + 0.0625 * left_out as f32 - 1e-5, "{:?} and {:?}", found, again);
        }
    }
}
