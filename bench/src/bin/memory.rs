//! What each side's queue holds in a search, in bytes. Ours is the room that the caller lends, two slices; the Rust's is
//! counted by this program's allocator: the most that the call held, less what its part lists take.
//! A command of its own, so that counting slows no timed call.
use bench::cases::{shapes, Case};
use bench::random::Random;
use bench::rust_side::Search;
use ndigomarr::{apply_haplotype_in, Room};
use std::alloc::{GlobalAlloc, Layout, System};
use std::hint::black_box;
use std::sync::atomic::{AtomicUsize, Ordering::Relaxed};

struct Counting;

static HELD: AtomicUsize = AtomicUsize::new(0);
static MOST: AtomicUsize = AtomicUsize::new(0);

unsafe impl GlobalAlloc for Counting {
    unsafe fn alloc(&self, layout: Layout) -> *mut u8 {
        let held = HELD.fetch_add(layout.size(), Relaxed) + layout.size();
        MOST.fetch_max(held, Relaxed);
        System.alloc(layout)
    }

    unsafe fn dealloc(&self, place: *mut u8, layout: Layout) {
        HELD.fetch_sub(layout.size(), Relaxed);
        System.dealloc(place, layout)
    }
}

#[global_allocator]
static ALLOCATOR: Counting = Counting;

/// The most bytes that the work held at once.
fn most<T>(work: impl FnOnce() -> T) -> usize {
    let before = HELD.load(Relaxed);
    MOST.store(before, Relaxed);
    black_box(work());
    MOST.load(Relaxed) - before
}

fn main() {
    let mut random = Random::new(2);
    println!("{:<66} {:>12} {:>12} {:>8}", "the queue of one search, bytes", "ours", "the Rust", "ratio");
    // neither k nor the thresholds change a queue
    for shape in shapes().iter().filter(|shape| shape.k == 4 && shape.threshold == 0.0) {
        let case = Case::new(&mut random, shape);
        let rust = Search::new(&case.call);
        let lists = most(|| rust.whole.partial_haplotypes(rust.params.kmer, rust.params.fnmax, rust.params.pileupmax));
        let theirs = most(|| rust.run()) - lists;
        let mut room = Room::new();
        apply_haplotype_in(&case.settings, &case.table(), &case.haplotype(), &mut room).expect("within the limits");
        let ours = room.bytes();
        println!("{:<66} {ours:>12} {theirs:>12} {:>8.2}", shape.name(), ours as f64 / theirs as f64);
    }
}
