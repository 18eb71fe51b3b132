//! Counts instead of time: the instructions that the proved code takes for one call of each row, where an emulator counts them (bench/counts). Each row prints its name,
//! makes its call on each of its inputs once, and asks the system for the parent's number before the calls and after them: the emulator's plugin prints what it counted in between.
//! `--only WORDS` counts the rows whose name holds these words.
use bench::cases::{copied_chains, shapes, Case, Shape};
use bench::random::Random;
use ndigomarr::{apply_haplotype_in, seq_to_kmer_into, Room};
use std::hint::black_box;
use std::os::unix::process::parent_id;

/// The plugin counts from the last of these.
fn mark() {
    black_box(parent_id());
}

fn told(name: &str, inputs: usize, mut call: impl FnMut(usize)) {
    // the first call of a function links it
    call(0);
    eprint!("{name}\t{inputs}\t");
    mark();
    (0..inputs).for_each(&mut call);
    mark();
}

/// By a reading of letters, of which one in so many is an N, or none.
fn counter(name: &str, k: u8, count: usize, letters: u8, one_in: Option<usize>) {
    let mut random = Random::new(1);
    let texts: Vec<Vec<u8>> = (0..4).map(|_| random.letters_with_n(count, one_in)).collect();
    let mut row = vec![0i32; 1 << (2 * k as usize)];
    told(name, texts.len(), |at| {
        black_box(seq_to_kmer_into(&texts[at], k, false, letters, &mut row).is_ok());
    });
}

fn search(shape: &Shape) {
    let mut random = Random::new(1);
    let inputs: Vec<_> = (0..shape.inputs().min(4)).map(|_| Case::new(&mut random, shape)).map(|case| (case.settings, case.table(), case.haplotype())).collect();
    let mut room = Room::new();
    told(&shape.name(), inputs.len(), |at| {
        let (settings, table, haplotype) = &inputs[at];
        black_box(apply_haplotype_in(settings, table, haplotype, &mut room).is_ok());
    });
}

fn main() {
    let words: Vec<String> = std::env::args().skip(1).collect();
    let only = match words.as_slice() {
        [] => "",
        [option, only] if option == "--only" => only,
        _ => panic!("usage: counts [--only WORDS]"),
    };
    for k in [4, 6] {
        for count in [50, 100, 1_000, 100_000] {
            let name = format!("counter, k {k}, {count} letters");
            if name.contains(only) {
                counter(&name, k, count, 0, None);
            }
            for (one_in, kind) in [(None, "no N"), (Some(10), "one N in 10")] {
                let name = format!("reading 1, k {k}, {count} letters, {kind}");
                if name.contains(only) {
                    counter(&name, k, count, 1, one_in);
                }
            }
        }
    }
    for shape in shapes().into_iter().chain(copied_chains()).filter(|shape| shape.name().contains(only)) {
        search(&shape);
    }
}
