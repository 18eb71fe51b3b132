//! Short jobs, all of them: tables of up to three rows over a few bounds and sizes, every part count that the program
//! takes, k one and two, and a few settings.
use crate::job::{Edition, Job, Part, Settings, Variant};

const BOUNDS: [(u64, u64); 4] = [(0, 0), (0, 2), (1, 1), (1, 3)];
const SIZES: [i32; 3] = [-1, 0, 1];
const LETTERS: [&[u8]; 3] = [b"AG", b"AG", b"CT"];
const PART_SIZES: [&[i32]; 11] = [
    &[],
    &[0],
    &[1],
    &[1, 0],
    &[-1, 1],
    &[1, 1, -1],
    &[1, 0, 0, -1],
    &[1, -1, 1, 0, 1],
    &[1, 1, -1, -1, 0, 0],
    &[1, 0, -1, 1, 0, -1, 1],
    &[1, 1, 1, 1, -1, -1, -1, -1],
];

fn tables() -> Vec<Vec<Variant>> {
    let mut all: Vec<Vec<Variant>> = vec![];
    let mut last: Vec<Vec<Variant>> = vec![vec![]];
    for letters in LETTERS {
        let mut next = vec![];
        for table in &last {
            for (start, end) in BOUNDS {
                if table.last().is_some_and(|before| before.start > start) {
                    continue;
                }
                for size in SIZES {
                    let mut grown = table.clone();
                    let negative = size < 0;
                    grown.push(Variant { start, end, size, negative, letters: letters.to_vec(), number: 0 });
                    next.push(grown);
                }
            }
        }
        all.extend(next.iter().cloned());
        last = next;
    }
    all
}

fn parts(sizes: &[i32]) -> Vec<Part> {
    let one = |(&size, letters): (&i32, &[u8])| Part { size, negative: size < 0, letters: letters.to_vec() };
    sizes.iter().zip([b"AG".as_slice(), b"CT", b"AG"].into_iter().cycle()).map(one).collect()
}

fn settings() -> Vec<Settings> {
    let plain = Settings {
        k: 1,
        squish: false,
        one_to_one: false,
        full: true,
        maxpaths: 10,
        maxnodes: 3,
        fnmax: 3,
        pileupmax: 5,
        minkfreq: 1,
        letters: 0,
        sizesim: 0.0,
        seqsim: 0.0,
        fpenalty: 0.25,
        gpenalty: 0.25,
    };
    let mut all = vec![];
    for k in [1, 2] {
        let p = Settings { k, ..plain.clone() };
        all.push(p.clone());
        all.push(Settings { squish: true, maxpaths: 3, gpenalty: 0.0, ..p.clone() });
        all.push(Settings { maxnodes: 2, pileupmax: 0, sizesim: 0.5, seqsim: 0.5, fpenalty: 0.0, ..p.clone() });
        all.push(Settings { maxpaths: 2, fnmax: 8, pileupmax: 9, gpenalty: 0.5, minkfreq: 2, ..p });
    }
    all
}

/// Every job of the kind described above, in one order.
pub fn jobs() -> impl Iterator<Item = Job> {
    let settings = settings();
    tables().into_iter().flat_map(move |variants| {
        let settings = settings.clone();
        PART_SIZES.into_iter().flat_map(move |sizes| {
            let (variants, parts) = (variants.clone(), parts(sizes));
            settings.clone().into_iter().map(move |settings| Job {
                edition: Edition::One,
                settings,
                variants: variants.clone(),
                haplotypes: vec![parts.clone()],
            })
        })
    })
}
