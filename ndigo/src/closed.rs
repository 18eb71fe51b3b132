//! Whether standard output was closed when the program began. Rust's runtime opens /dev/null in its place before `main`, and what is written there is lost
//! unseen; so this is looked at before, among the functions that the loader calls first.
use std::sync::atomic::{AtomicBool, Ordering};

static CLOSED: AtomicBool = AtomicBool::new(false);

extern "C" {
    fn fcntl(file: i32, command: i32, ...) -> i32;
}

/// asks for a file's flags, which a closed one does not have
const F_GETFD: i32 = 1;

extern "C" fn look() {
    // SAFETY: the command takes nothing more and changes nothing.
    let flags = unsafe { fcntl(1, F_GETFD) };
    CLOSED.store(flags < 0, Ordering::Relaxed);
}

#[used]
#[link_section = ".init_array"]
static LOOK: extern "C" fn() = look;

pub fn output_was_closed() -> bool {
    CLOSED.load(Ordering::Relaxed)
}
