//! Sixteen haplotypes over one table of 64: one call for all beside a call for each, by the median time of all sixteen.
//! What one call saves is the table's checks, fifteen times; a table that is refused or matched one to one spends most of its time there.
//! Before a row is timed the answers of both are compared.
use bench::cases::{Parts, Shape, Shared};
use bench::random::Random;
use bench::timing::compare;
use ndigomarr::{apply_haplotype_in, apply_haplotypes_in, Room};
use std::hint::black_box;

const HAPLOTYPES: usize = 16;

fn row(random: &mut Random, shape: &Shape, one_to_one: bool) {
    let mut shared = Shared::new(random, shape, HAPLOTYPES);
    shared.settings.one_to_one = one_to_one;
    let Shared { settings, table, haplotypes } = &shared;
    let (mut room, mut other) = (Room::new(), Room::new());
    let together = apply_haplotypes_in(settings, table, haplotypes, &mut room).expect("within the limits");
    let apart: Vec<_> = haplotypes.iter().map(|one| apply_haplotype_in(settings, table, one, &mut other)).collect();
    assert_eq!(together, apart, "the answers differ");
    let name = if one_to_one { format!("one to one, {}", shape.name()) } else { shape.name() };
    let times = compare(
        &name,
        1,
        &mut |_| {
            black_box(apply_haplotypes_in(settings, black_box(table), haplotypes, &mut room).is_ok());
        },
        &mut |_| {
            for one in haplotypes {
                black_box(apply_haplotype_in(settings, black_box(table), one, &mut other).is_ok());
            }
        },
    );
    println!("{:<66} {:>12.1} {:>12.1} {:>8.3}", times.name, times.ours / 1e3, times.rust / 1e3, times.ratio());
}

fn main() {
    let mut random = Random::new(3);
    println!("{:<66} {:>12} {:>12} {:>8}", "16 haplotypes, V 64, microseconds", "one call", "16 calls", "ratio");
    for k in [4, 6] {
        for parts in [3, 8] {
            let shape = Shape { k, variants: 64, maxpaths: 63, parts: Parts::Rows(parts), threshold: 0.9, crowded: true };
            row(&mut random, &shape, true);
            for maxpaths in [0, 63, 4_095] {
                row(&mut random, &Shape { maxpaths, ..shape }, false);
            }
        }
    }
}
