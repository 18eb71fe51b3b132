//! The data that a haplotype carries, as a caller sees it. Drawn combinings stand in src/meta/drawn.rs.
use ndigomarr::{apply_haplotype, apply_haplotypes_with_meta, apply_with_meta, Haplotype, HaplotypeMeta, Refusal, Room, Settings, Table};

fn settings() -> Settings {
    Settings { k: 1, minkfreq: 1, maxpaths: 10, ..Settings::default() }
}

fn table() -> Table {
    let mut table = Table::new(1);
    table.insertion(10, b"AG").expect("few letters");
    table
}

/// Data that `new` never makes: a count no one may combine, tags behind the samples.
fn odd() -> HaplotypeMeta {
    HaplotypeMeta { id: 9, samples: 77, samples_flag: u64::MAX, coverage: [u64::MAX; 8], ps: [Some(u32::MAX); 8], hp: [None; 8] }
}

#[test]
fn every_answer_carries_the_haplotypes_own_data() {
    let found = { let mut haplotype = Haplotype::new(1); haplotype.insertion(b"AG").expect("few letters"); haplotype };
    let nothing = { let mut haplotype = Haplotype::new(1); haplotype.insertion(b"CCCCCCCC").expect("few letters"); haplotype };
    for one_to_one in [false, true] {
        let settings = Settings { one_to_one, ..settings() };
        for haplotype in [&found, &nothing, &Haplotype::new(1)] {
            let bare = apply_haplotype(&settings, &table(), haplotype);
            for meta in [HaplotypeMeta::new(1, 2).expect("a sample"), odd()] {
                let told = apply_with_meta(&settings, &table(), &haplotype.clone().with_meta(meta), &mut Room::new());
                assert_eq!((&told.answer, told.meta), (&bare, Some(meta)));
            }
            assert_eq!(apply_with_meta(&settings, &table(), haplotype, &mut Room::new()).meta, None);
        }
    }
}

#[test]
fn a_refusal_carries_it_too() {
    let settings = settings();
    let refused = apply_with_meta(&Settings { k: 0, ..settings }, &table(), &Haplotype::new(1).with_meta(odd()), &mut Room::new());
    assert_eq!((refused.answer, refused.meta), (Err(Refusal::BadK), Some(odd())));
    let mut haplotypes = vec![Haplotype::new(1).with_meta(odd()), Haplotype::new(1), Haplotype::new(1).with_meta(HaplotypeMeta::new_blank(8).expect("eight"))];
    haplotypes[2].add(131_073, b"AG", false).expect("few letters");
    let metas: Vec<_> = haplotypes.iter().map(Haplotype::meta).collect();
    let told = apply_haplotypes_with_meta(&settings, &table(), &haplotypes, &mut Room::new());
    assert_eq!(told.iter().map(|one| one.meta).collect::<Vec<_>>(), metas);
    assert_eq!(told.iter().map(|one| one.answer.is_ok()).collect::<Vec<_>>(), [true, true, false]);
    // a refusal of the whole call is each haplotype's
    let whole = apply_haplotypes_with_meta(&settings, &Table::new(1), &haplotypes, &mut Room::new());
    assert_eq!(whole.iter().map(|one| one.meta).collect::<Vec<_>>(), metas);
    assert!(whole.iter().all(|one| one.answer == Err(Refusal::NoVariants)));
}

#[test]
fn the_refusals_in_their_order() {
    assert_eq!(HaplotypeMeta::new(9, 9), Err(Refusal::BadSamples));
    assert_eq!(HaplotypeMeta::new(8, 8), Err(Refusal::NoSuchSample));
    assert_eq!((HaplotypeMeta::new_blank(0), HaplotypeMeta::new_blank(9)), (Err(Refusal::BadSamples), Err(Refusal::BadSamples)));
    let full = HaplotypeMeta { coverage: [u64::MAX; 8], ..HaplotypeMeta::new(0, 2).expect("a sample") };
    for (samples, wanted) in [(9, Refusal::BadSamples), (3, Refusal::UnequalSamples), (2, Refusal::CoverageOverflow)] {
        let mut left = full;
        assert_eq!(left.combine(&HaplotypeMeta { samples, ..full }), Err(wanted));
        assert_eq!(left, full);
    }
}

#[test]
fn the_order_of_the_two_matters() {
    let one = HaplotypeMeta { id: 1, ps: [Some(5); 8], ..HaplotypeMeta::new(0, 2).expect("a sample") };
    let two = HaplotypeMeta { id: 2, ps: [Some(6); 8], ..HaplotypeMeta::new(1, 2).expect("a sample") };
    let (mut a, mut b) = (one, two);
    a.combine(&two).expect("they fit");
    b.combine(&one).expect("they fit");
    assert_eq!((a.id, a.ps[0], b.id, b.ps[0]), (1, Some(5), 2, Some(6)));
    assert_eq!((a.coverage, a.samples_flag), (b.coverage, b.samples_flag));
}
