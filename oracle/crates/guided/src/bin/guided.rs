//! What libFuzzer calls: one input checked, one changed, two joined. GUIDED_PLANTED has the words of a planted mistake.
#![no_main]
use guided::check::Checker;
use guided::mutate;
use judge::describe;
use judge::random::Random;
use std::cell::RefCell;
use std::slice;

thread_local! {
    static CHECKER: RefCell<Checker> = RefCell::new(Checker::new(std::env::var("GUIDED_PLANTED").ok().as_deref()));
}

extern "C" {
    fn LLVMFuzzerMutate(data: *mut u8, size: usize, most: usize) -> usize;
}

/// No bytes may come as no place.
unsafe fn bytes<'a>(data: *const u8, size: usize) -> &'a [u8] {
    if size == 0 { &[] } else { slice::from_raw_parts(data, size) }
}

#[no_mangle]
pub extern "C" fn LLVMFuzzerTestOneInput(data: *const u8, size: usize) -> i32 {
    // SAFETY: libFuzzer lends `size` bytes.
    let job = unsafe { bytes(data, size) };
    if let Err(words) = CHECKER.with(|checker| checker.borrow_mut().check(job)) {
        eprintln!("DIFFERENCE: {words}\n  of {}", describe::bytes(job));
        std::process::abort();
    }
    0
}

/// Puts as much as there is room for.
fn put(changed: &[u8], data: *mut u8, most: usize) -> usize {
    let length = changed.len().min(most);
    // SAFETY: libFuzzer lends `most` bytes, and what is put was made elsewhere.
    unsafe { data.copy_from_nonoverlapping(changed.as_ptr(), length) };
    length
}

#[no_mangle]
pub extern "C" fn LLVMFuzzerCustomMutator(data: *mut u8, size: usize, most: usize, seed: u32) -> usize {
    let r = &mut Random::new(seed.into());
    if !r.chance(50) {
        // SAFETY: libFuzzer lends `size` bytes in a room of `most`.
        return put(&mutate::changed(r, unsafe { bytes(data, size) }), data, most);
    }
    // SAFETY: the same room, handed back.
    let size = unsafe { LLVMFuzzerMutate(data, size, most) };
    if r.chance(50) {
        return size;
    }
    // SAFETY: as above.
    put(&mutate::mended(r, unsafe { bytes(data, size) }), data, most)
}

#[no_mangle]
pub extern "C" fn LLVMFuzzerCustomCrossOver(one: *const u8, size: usize, other: *const u8, other_size: usize, out: *mut u8, most: usize, seed: u32) -> usize {
    // SAFETY: libFuzzer lends both with their sizes, and a third room of `most` bytes.
    let (one, other) = unsafe { (bytes(one, size), bytes(other, other_size)) };
    put(&mutate::joined(&mut Random::new(seed.into()), one, other), out, most)
}
